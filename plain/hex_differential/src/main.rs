//! `hex_differential [SEED [FACTOR]]`: puts the same texts and images to the proved archive and to the plain reader and
//! writer, for each device, each text whole and cut into chunks, and compares all that comes back. The texts are the same for the same seed; FACTOR makes so many times as many.
//! Exit status 1 on a difference, 2 where some answer came so seldom that the comparison says little, 0 else.

#[allow(dead_code)]
#[path = "../../differential/src/chance.rs"]
mod chance;
mod proved;
mod texts;

use chance::Chance;
use plain::{is_hex_state, read_hex, text_size, write_hex, Device};
use proved::{Answer, Call, Proved};
use std::process::exit;

const SEED: u64 = 73862;
const READS: u64 = 100_000;
const WRITES: u64 = 1_000;
const STATES: u64 = 20_000;
const BATCH: u64 = 500;

/// Each answer of a read, and how often it comes at least (with the factor 1).
const AT_LEAST: [(u8, u64); 8] =
    [(0, 25_000), (1, 500), (40, 10_000), (41, 2_000), (42, 1_000), (43, 1_000), (44, 1_500), (45, 8_000)];

fn main() {
    let words: Vec<String> = std::env::args().skip(1).collect();
    let number = |place: usize, usual: u64| words.get(place).map_or(Ok(usual), |word| word.parse());
    let (Ok(seed), Ok(factor @ 1..)) = (number(0, SEED), number(1, 1)) else {
        eprintln!("usage: hex_differential [SEED [FACTOR]]");
        exit(2);
    };
    let mut proved = Proved::new();
    for device in Device::ALL {
        compare_device(device, seed, factor, &mut proved);
    }
}

fn compare_device(device: Device, seed: u64, factor: u64, proved: &mut Proved) {
    let mut chance = Chance::new(seed);
    let name = device.name();
    let mut seen = [0u64; 256];
    let mut cut = 0;
    for _ in 0..READS * factor / BATCH {
        let mut calls = Vec::new();
        for _ in 0..BATCH {
            let (text, image) = text_and_image(device, &mut chance);
            for lengths in cuttings(&mut chance, text.len()) {
                calls.push(Call::Chunks { text: text.clone(), image: image.clone(), lengths });
            }
            calls.push(Call::Read { text, image });
        }
        for (call, answer) in calls.iter().zip(proved.answers(device, &calls)) {
            if let Call::Read { .. } = call {
                seen[answer.number as usize] += 1;
            } else {
                cut += 1;
            }
            compare(device, seed, call, answer);
        }
    }
    for _ in 0..WRITES * factor / BATCH {
        let calls: Vec<Call> = (0..BATCH).map(|_| write_call(device, &mut chance)).collect();
        for (call, answer) in calls.iter().zip(proved.answers(device, &calls)) {
            compare(device, seed, call, answer);
        }
    }
    let mut refused = 0;
    for _ in 0..STATES * factor / BATCH {
        let calls: Vec<Call> = (0..BATCH).map(|_| state_call(device, &mut chance)).collect();
        for (call, answer) in calls.iter().zip(proved.answers(device, &calls)) {
            refused += u64::from(answer.number == 2);
            compare(device, seed, call, answer);
        }
    }
    if refused * 4 < STATES * factor || refused * 4 > 3 * STATES * factor {
        println!("hex_differential: {name}, seed {seed}: {refused} states refused: too many or too few to say much");
        exit(2);
    }
    let seldom: Vec<u8> = AT_LEAST.iter().filter(|(n, least)| seen[*n as usize] < *least).map(|(n, _)| *n).collect();
    let counts: Vec<String> = AT_LEAST.iter().map(|(n, _)| format!("{n}: {}", seen[*n as usize])).collect();
    println!("hex_differential: {name}: answers of reads {}", counts.join(", "));
    if !seldom.is_empty() {
        println!("hex_differential: {name}, seed {seed}: too seldom: {seldom:?}");
        exit(2);
    }
    let (reads, writes, states) = (READS * factor, WRITES * factor, STATES * factor);
    println!("hex_differential: {name}: {reads} reads, {cut} in chunks, {writes} writes, {states} states ({refused} refused), 0 differ");
}

/// The size of an image, and one in so many times another.
fn any_size(device: Device, chance: &mut Chance, so_many: usize) -> usize {
    let size = device.image_size();
    if chance.one_in(so_many) {
        chance.pick(&[0, size - 1, size + 1, 24_576 - size])
    } else {
        size
    }
}

/// A third of the texts is good; the others are damaged in one place or two.
fn text_and_image(device: Device, chance: &mut Chance) -> (Vec<u8>, Vec<u8>) {
    let mut lines = texts::good(device, chance);
    for _ in 0..chance.below(3) {
        texts::damage(device, chance, &mut lines);
    }
    let size = any_size(device, chance, 100);
    (lines.concat(), vec![chance.byte(); size])
}

/// A text of some length cut once, at any places, empty chunks among them; of some texts a byte a chunk too.
fn cuttings(chance: &mut Chance, length: usize) -> Vec<Vec<u32>> {
    let mut lengths = Vec::new();
    let mut left = length;
    while left > 0 {
        let next = if chance.one_in(6) { 0 } else { 1 + chance.below(left.min(400)) };
        lengths.push(next as u32);
        left -= next;
    }
    let mut cuttings = vec![lengths];
    if length < 200 && chance.one_in(8) {
        cuttings.push(vec![1; length]);
    }
    cuttings
}

fn write_call(device: Device, chance: &mut Chance) -> Call {
    let whole = text_size(device);
    let size = any_size(device, chance, 8);
    let room = chance.pick(&[0, whole - 1, whole, whole, whole + 1, whole + 100]);
    Call::Write { image: chance.bytes(size), text: vec![chance.byte(); room] }
}

/// A state as a call could leave it, and in half of them one number at the edge of its range or past it.
fn state_call(device: Device, chance: &mut Chance) -> Call {
    let mut state = chance.bytes(550);
    state[522..].fill(0);
    let mut put = |at: usize, number: usize| state[at..at + 8].copy_from_slice(&(number as u64).to_le_bytes());
    put(522, chance.below(524));
    put(530, 1 + chance.below(1000));
    state[538] = chance.below(3) as u8;
    state[539] = if state[538] == 2 { 40 + chance.below(6) as u8 } else { 0 };
    state[548] = chance.below(2) as u8;
    state[549] = chance.below(2) as u8;
    if chance.one_in(2) {
        match chance.below(7) {
            0 => state[522..530].copy_from_slice(&chance.pick(&[522u64, 523, 524, 1 << 32, u64::MAX]).to_le_bytes()),
            1 => state[530..538].copy_from_slice(&chance.pick(&[0u64, 1, u64::MAX]).to_le_bytes()),
            2 => state[538] = chance.pick(&[2, 3, 255]),
            3 => state[539] = chance.pick(&[0, 39, 46, 255]),
            4 => state[548] = chance.pick(&[2, 255]),
            5 => state[549] = chance.pick(&[2, 255]),
            _ => state.resize(chance.pick(&[0, 549, 551]), 0),
        }
    }
    Call::State { state, image: vec![chance.byte(); device.image_size()] }
}

fn plainly(device: Device, call: &Call) -> Answer {
    let mut buffer = call.changing().to_vec();
    let (number, line) = match call {
        Call::Write { image, .. } => (write_hex(device, image, &mut buffer).err().unwrap_or(0), 0),
        Call::State { state, .. } => (if is_hex_state(state) { 0 } else { 2 }, 0),
        Call::Read { text, .. } | Call::Chunks { text, .. } => match read_hex(device, text, &mut buffer) {
            Ok(()) => (0, 0),
            Err(refusal) => (refusal.number, refusal.line),
        },
    };
    let told = match call {
        Call::Chunks { text, lengths, .. } => told_by(text, lengths, number, line),
        Call::Read { .. } | Call::Write { .. } | Call::State { .. } => 0,
    };
    Answer { number, line, told, repeated: matches!(call, Call::Chunks { .. } | Call::State { .. }), buffer }
}

/// "A fault is answered by the call that completes its line", 1 by the first call; 0 where that is the end's.
fn told_by(text: &[u8], lengths: &[u32], number: u8, line: usize) -> usize {
    let mut fed = 0;
    for (place, &length) in lengths.iter().enumerate() {
        fed += length as usize;
        let completed = text[..fed].iter().filter(|&&c| c == b'\n').count();
        if number != 0 && completed >= line {
            return place + 1;
        }
    }
    0
}

fn compare(device: Device, seed: u64, call: &Call, proved: Answer) {
    let plain = plainly(device, call);
    if plain == proved {
        return;
    }
    println!("hex_differential: {}, seed {seed}: a call differs", device.name());
    println!("  {}", String::from_utf8_lossy(call.steady()).escape_debug());
    println!("  plain {} line {}, proved {} line {}", plain.number, plain.line, proved.number, proved.line);
    println!("  the buffers are {}", if plain.buffer == proved.buffer { "the same" } else { "not the same" });
    exit(1);
}

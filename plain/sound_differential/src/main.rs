//! `sound_differential [SEED]`: puts the same calls to the proved archive and to the plain generator, and compares all that
//! comes back. The calls are the same for the same seed. Exit status 1 on a difference, 2 where an answer came so seldom
//! that the comparison says little, 0 else.

mod calls;
mod proved;

#[path = "../../differential/src/chance.rs"]
#[allow(dead_code)]
mod chance;

use calls::{bytes_of, plainly, Call, Kind, STATE_BYTES};
use chance::Chance;
use plain::{numbers, Sound, MOST_PULSES, PULSES_OVER_THE_LIMIT, TF_OF_ZERO_WHILE_ON};
use proved::Proved;
use std::process::exit;

const SEED: u64 = 73862;
const ADVANCES: usize = 100_000;
const OTHERS: usize = 20_000;
const BATCH: usize = 10_000;

/// How often each answer of an advance must come at least.
const SELDOM: usize = 1_000;
const ADVANCE_NUMBERS: [u8; 4] = [numbers::NONE, numbers::RECORD_RANGE, PULSES_OVER_THE_LIMIT, TF_OF_ZERO_WHILE_ON];

fn main() {
    let mut words = std::env::args().skip(1);
    let seed = words.next().map_or(Ok(SEED), |word| word.parse());
    let (Ok(seed), None) = (seed, words.next()) else {
        eprintln!("usage: sound_differential [SEED]");
        exit(2);
    };
    let mut chance = Chance::new(seed);
    let mut proved = Proved::new();
    let mut given = [0; 256];
    for kind in Kind::ALL {
        let number = if kind == Kind::Advance { ADVANCES } else { OTHERS };
        for _ in 0..number / BATCH {
            let calls: Vec<Call> = (0..BATCH).map(|_| call(&mut chance, kind)).collect();
            for (call, proved) in calls.iter().zip(proved.answers(&calls)) {
                let plain = plainly(call);
                if plain != proved {
                    println!("sound_differential: seed {seed}: {call:?}\n  plain  {plain:?}\n  proved {proved:?}");
                    exit(1);
                }
                given[plain.number as usize] += (kind == Kind::Advance) as usize;
            }
        }
    }
    for number in ADVANCE_NUMBERS {
        println!("advances answered {number}: {}", given[number as usize]);
        if given[number as usize] < SELDOM {
            println!("sound_differential: seed {seed}: {number} came too seldom");
            exit(2);
        }
    }
    println!("sound_differential: {ADVANCES} advances and {OTHERS} of each other call, 0 differ");
}

fn call(chance: &mut Chance, kind: Kind) -> Call {
    let value = match kind {
        Kind::Advance => pulses(chance),
        _ if chance.one_in(8) => chance.byte() as u32,
        _ => chance.nibble() as u32,
    };
    Call { kind, value, state: state(chance) }
}

/// Few, many, about the limit, or any.
fn pulses(chance: &mut Chance) -> u32 {
    match chance.below(8) {
        0..=3 => chance.below(1024) as u32,
        4..=5 => chance.below(MOST_PULSES as usize + 1) as u32,
        6 => MOST_PULSES - 2 + chance.below(5) as u32,
        _ => chance.number() as u32,
    }
}

/// Mostly a state within its ranges, with a TF that is often small; some with one byte changed, some of another length.
fn state(chance: &mut Chance) -> Vec<u8> {
    let tf = if chance.one_in(2) { chance.below(4) as u8 } else { chance.byte() };
    let sound = Sound {
        mode: chance.below(4) as u8,
        asleep: chance.one_in(4),
        tf,
        count: chance.below(tf as usize + 1) as u8,
        tone: chance.one_in(2),
        bits: 1 + chance.below(511) as u16,
        p24: chance.nibble(),
    };
    let mut bytes = bytes_of(&sound);
    if chance.one_in(16) {
        let place = chance.below(STATE_BYTES);
        bytes[place] = chance.byte();
    }
    if chance.one_in(32) {
        bytes[5] = 0;
        bytes[6] = chance.below(3) as u8;
    }
    if chance.one_in(64) {
        bytes.resize(chance.below(13), 0);
    }
    bytes
}

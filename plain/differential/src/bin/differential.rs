//! `differential [SEED [FACTOR]]`: puts the same calls of both devices to the proved archives and to the plain emulator, and compares all
//! that comes back. The calls are the same for the same seed; FACTOR makes so many times as many. Exit status 1 on a
//! difference, 2 where some answer came so seldom that the comparison says little, 0 else.

use differential::asker::{Asker, Difference};
use differential::calls::Kind;
use differential::chance::Chance;
use differential::images::Codes;
use differential::proved::Proved;
use differential::{ask_bounds, ask_codes, ask_records, ask_steps, ask_whys};
use plain::Device;
use std::process::exit;

const SEED: u64 = 73862;
const STEPS: u64 = 1_000_000;
const OTHERS: u64 = 100_000;

fn main() {
    let words: Vec<String> = std::env::args().skip(1).collect();
    let number = |place: usize, usual: u64| words.get(place).map_or(Ok(usual), |word| word.parse());
    let (Ok(seed), Ok(factor @ 1..)) = (number(0, SEED), number(1, 1)) else {
        eprintln!("usage: differential [SEED [FACTOR]]");
        exit(2);
    };
    let mut asker = Asker::new(Proved::default());
    let mut short = false;
    for device in Device::ALL {
        if let Err(difference) = ask_all(&mut asker, device, seed, factor) {
            tell(&difference, seed, factor);
            exit(1);
        }
        for line in asker.coverage(device).report() {
            println!("{}: {line}", device.name());
        }
        for shortfall in asker.coverage(device).shortfalls() {
            println!("differential: {}, seed {seed}: {shortfall}", device.name());
            short = true;
        }
    }
    if short {
        exit(2);
    }
    for device in Device::ALL {
        let kinds = Kind::ALL.into_iter().filter(|kind| kind.is_of(device));
        let asked: Vec<String> = kinds.map(|kind| format!("{} {}", asker.asked(device, kind), kind.plural())).collect();
        println!("differential: {}: {}, 0 differ", device.name(), asked.join(", "));
    }
}

fn tell(difference: &Difference, seed: u64, factor: u64) {
    let (device, kind) = (difference.device.name(), difference.kind.name());
    println!("differential: {device}, seed {seed}, factor {factor}, call {}: {kind} differs", difference.turn);
    println!("  {}", difference.inputs);
    println!("  {}", difference.what);
}

fn ask_all(asker: &mut Asker, device: Device, seed: u64, factor: u64) -> Result<(), Difference> {
    let mut chance = Chance::new(seed);
    let codes = Codes::new(&mut chance, device);
    let others = OTHERS * factor;
    ask_records::fresh(asker, &mut chance, device, others)?;
    ask_records::reset(asker, &mut chance, device, others)?;
    ask_records::is_valid(asker, &mut chance, device, others)?;
    ask_codes::reads(asker, &mut chance, &codes, others)?;
    ask_codes::panes(asker, &mut chance, &codes, others)?;
    if Kind::Write.is_of(device) {
        ask_codes::writes(asker, &mut chance, others)?;
    }
    ask_records::display(asker, &mut chance, device, others)?;
    ask_steps::steps(asker, &mut chance, &codes, STEPS * factor)?;
    ask_steps::apart(asker, &mut chance, &codes, others)?;
    ask_steps::runs(asker, &mut chance, &codes, others)?;
    ask_whys::whys(asker, &mut chance, &codes, others)?;
    ask_bounds::bounds(asker, &mut chance, &codes, others)?;
    ask_bounds::calling_bounds(asker, &mut chance, &codes, others as usize)
}

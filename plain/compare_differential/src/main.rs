//! `compare_differential [SEED [FACTOR]]`: puts the same images, scripts and listings of both devices to the proved archive and to the plain
//! comparison, and compares what comes back. They are the same for the same seed; FACTOR makes so many times as many.
//! Exit status 1 on a difference, 2 where some answer came so seldom that the comparison says little, 0 else.

#[allow(dead_code)]
#[path = "../../differential/src/chance.rs"]
mod chance;
mod listings;
mod proved;

use chance::Chance;
use plain::{compare_listing, Compared, Device};
use proved::{Answer, Call, Proved};
use std::collections::BTreeMap;
use std::process::exit;
use std::sync::Arc;

const SEED: u64 = 73862;
const LISTINGS: u64 = 100_000;
const BATCH: u64 = 50;

/// Each kind of answer, and how often it comes at least on each device (with the factor 1).
const AT_LEAST: [(&str, u64); 14] = [
    ("same", 8_000),
    ("refused 1", 300),
    ("refused 3", 2_000),
    ("header", 500),
    ("field 0", 5_000),
    ("field 1", 300),
    ("field 2", 300),
    ("field 3", 300),
    ("field 4", 300),
    ("field 5", 300),
    ("field 6", 300),
    ("field 7", 300),
    ("field 8", 300),
    ("after line 10", 2_000),
];

fn main() {
    let words: Vec<String> = std::env::args().skip(1).collect();
    let number = |place: usize, usual: u64| words.get(place).map_or(Ok(usual), |word| word.parse());
    let (Ok(seed), Ok(factor @ 1..)) = (number(0, SEED), number(1, 1)) else {
        eprintln!("usage: compare_differential [SEED [FACTOR]]");
        exit(2);
    };
    let mut chance = Chance::new(seed);
    let mut proved = Proved::new();
    let mut seen: BTreeMap<(&str, &str), u64> = BTreeMap::new();
    for _ in 0..LISTINGS * factor / BATCH {
        let calls = batch(&mut chance);
        for (call, found) in calls.iter().zip(proved.answers(&calls)) {
            let expected = plainly(call);
            if found != expected {
                report(seed, call, &expected, &found);
                exit(1);
            }
            for kind in kinds(&expected) {
                *seen.entry((call.device.name(), kind)).or_default() += 1;
            }
        }
    }
    let mut seldom = Vec::new();
    for device in [Device::Em73862.name(), Device::Em73P982.name()] {
        let count = |kind: &'static str| seen.get(&(device, kind)).copied().unwrap_or(0);
        let counts: Vec<String> = AT_LEAST.iter().map(|(kind, _)| format!("{kind}: {}", count(kind))).collect();
        println!("compare_differential: {device}: {}", counts.join(", "));
        seldom.extend(
            AT_LEAST.iter().filter(|(kind, least)| count(kind) < least * factor).map(|(kind, _)| (device, *kind)),
        );
    }
    if !seldom.is_empty() {
        println!("compare_differential: seed {seed}: too seldom: {seldom:?}");
        exit(2);
    }
    println!("compare_differential: {} listings, 0 differ", LISTINGS * factor);
}

/// Some scripts and listings of one image.
fn batch(chance: &mut Chance) -> Vec<Call> {
    let device = chance.pick(&[Device::Em73862, Device::Em73P982]);
    let image = Arc::new(listings::image(chance, device));
    (0..BATCH)
        .map(|_| {
            let script = listings::script(chance, device);
            let listing = listings::listing(chance, device, &image, &script);
            Call { device, image: image.clone(), script, listing }
        })
        .collect()
}

fn plainly(call: &Call) -> Answer {
    match compare_listing(call.device, &call.image, &call.script, &call.listing) {
        Err(number) => Answer { number, line: 0, field: 0 },
        Ok(Compared::Same) => Answer { number: 0, line: 0, field: 0 },
        Ok(Compared::Differs { line, field }) => Answer { number: 0, line, field },
    }
}

fn kinds(answer: &Answer) -> Vec<&'static str> {
    let fields = ["field 0", "field 1", "field 2", "field 3", "field 4", "field 5", "field 6", "field 7", "field 8"];
    match answer {
        Answer { number: 1, .. } => vec!["refused 1"],
        Answer { number: 3, .. } => vec!["refused 3"],
        Answer { line: 0, .. } => vec!["same"],
        Answer { line: 1, .. } => vec!["header"],
        Answer { line: 11.., field, .. } => vec![fields[*field as usize], "after line 10"],
        Answer { field, .. } => vec![fields[*field as usize]],
    }
}

fn report(seed: u64, call: &Call, expected: &Answer, found: &Answer) {
    println!("compare_differential: seed {seed}, {}: expected {expected:?}, found {found:?}", call.device.name());
    println!("script:\n{}", String::from_utf8_lossy(&call.script));
    println!("listing:\n{}", String::from_utf8_lossy(&call.listing));
}

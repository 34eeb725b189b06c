//! Document 01, "The record", and request Q-6: one record a field and a tie that is outside its range, which every call that takes a record
//! refuses with 2; and records that are within it and not fresh. Of both devices.

use super::record::{fresh, fresh_p982, with, HOLD, RUNNING, SLEEP};
use super::{answer, image_from, refused, Case, ALL_WAKE, NOP, SOUND_OFF};
use crate::calls::Call;
use crate::frames::idle;
use plain::numbers::RECORD_RANGE;
use plain::{Device, DISPLAY_SIZE, RAM_SIZE};

/// The fields of the fresh record that are another: numbers just over their range, IL4, and a time base that is no multiple of 8.
const OVER: [(&str, u32); 15] = [
    ("ACC", 16),
    ("HR", 16),
    ("LR", 16),
    ("PC", 8192),
    ("SP", 16),
    ("DP", 4096),
    ("mask", 16),
    ("IL", 0b01_0000),
    ("IL", 0b100_0000),
    ("time base", 4),
    ("time base", 1 << 22),
    ("TA", 4096),
    ("TB", 4096),
    ("P0 of the last frame", 16),
    ("P8 of the last frame", 16),
];

/// Of the EM73862: P4.0 just over its range, and anything but 0 in what only the EM73P982 has.
const EM73862_OVER: [(&str, u32); 11] = [
    ("P4 of the last frame", 2),
    ("P3", 1),
    ("P3", 3),
    ("P5", 1),
    ("P5", 16),
    ("P6", 1),
    ("P6", 128),
    ("P17", 1),
    ("P17", 15),
    ("speech of the last frame", 1),
    ("speech of the last frame", 255),
];

/// Of the EM73P982: "2 for such a P3, or one over 15".
const P982_OVER: [(&str, u32); 12] = [
    ("P4 of the last frame", 16),
    ("P3", 3),
    ("P3", 7),
    ("P3", 11),
    ("P3", 15),
    ("P3", 16),
    ("P3", 20),
    ("P5", 16),
    ("P6", 16),
    ("P17", 16),
    ("speech of the last frame", 2),
    ("speech of the last frame", 15),
];

const LATCHES: [&str; 11] = ["P4", "P8", "P9", "P16", "P23", "P24", "P25", "P27", "P28", "P29", "P30"];

/// "P25 and P27 never hold 10xx."
const RESERVED: [(&str, u32); 4] = [("P25", 8), ("P25", 11), ("P27", 8), ("P27", 11)];

/// Of RAM's two parts the first and the last nibbles.
const RAM_ENDS: [&str; 4] = ["RAM 000h", "RAM 0F3h", "RAM 100h", "RAM 17Fh"];

/// The mode and P16: "Sleep needs P16 bit 2 set and bits 1..0 not 3; hold needs bit 2 set and bits 1..0 = 3."
const UNTIED: [(u32, u32); 5] = [(SLEEP, 7), (SLEEP, 0), (SLEEP, 8), (HOLD, 4), (HOLD, 3)];
const TIED: [(u32, u32); 2] = [(SLEEP, 6), (HOLD, 7)];

/// Latches, mask, and the source that is due by them: none, each source alone, and one before others.
const DUE: [(u32, u32, u32); 8] = [
    (0, 15, 0),
    (0b00_1111, 0, 0),
    (0b10_0000, 0, 1),
    (0b00_1000, 4, 2),
    (0b00_0100, 2, 3),
    (0b00_0010, 2, 4),
    (0b00_0001, 1, 5),
    (0b00_0011, 3, 4),
];

pub fn cases() -> Vec<Case> {
    Device::ALL.into_iter().flat_map(of_device).collect()
}

fn of_device(device: Device) -> Vec<Case> {
    let mut cases = Vec::new();
    let own = match device {
        Device::Em73862 => &EM73862_OVER[..],
        Device::Em73P982 => &P982_OVER[..],
    };
    let latches = LATCHES.map(|latch| (latch, 16));
    let nibbles = RAM_ENDS.map(|nibble| (nibble, 16));
    for field in [&OVER[..], own, &latches, &RESERVED, &nibbles].concat() {
        cases.extend(all_refuse(device, &format!("{} {}", field.0, field.1), &with(&fresh_of(device), &[field])));
    }
    for (latches, mask, due) in DUE {
        for wrong in (0..=u8::MAX as u32).filter(|wrong| *wrong != due) {
            let record = with(&fresh_of(device), &[("IL", latches), ("mask", mask), ("due", wrong)]);
            cases.extend(all_refuse(device, &format!("IL {latches}, mask {mask}, due {wrong}"), &record));
        }
    }
    for (mode, p16) in UNTIED {
        cases.extend(all_refuse(device, &format!("mode {mode}, P16 {p16}"), &in_mode(device, mode, p16)));
    }
    for (mode, p16) in TIED {
        cases.extend(all_take(device, &format!("mode {mode}, P16 {p16}"), &still(device, &in_mode(device, mode, p16))));
    }
    cases.extend(all_take(device, "greatest record", &greatest(device)));
    cases
}

fn fresh_of(device: Device) -> Vec<u8> {
    match device {
        Device::Em73862 => fresh(),
        Device::Em73P982 => fresh_p982(),
    }
}

fn in_mode(device: Device, mode: u32, p16: u32) -> Vec<u8> {
    with(&fresh_of(device), &[("mode", mode), ("P16", p16)])
}

/// The five calls that take a record: step, run, reset, display, is_valid.
fn calls(device: Device, record: &[u8]) -> [Call; 5] {
    let (image, record) = (image_from(device, &[NOP]), record.to_vec());
    let (wake, sound, frame) = (ALL_WAKE, SOUND_OFF, idle(device).to_vec());
    [
        Call::Step { device, image: image.clone(), wake, sound, record: record.clone(), frame: frame.clone() },
        Call::Run { device, image, wake, sound, record: record.clone(), frames: frame },
        Call::Reset { device, record: record.clone() },
        Call::Display { device, record: record.clone(), dots: vec![0xAA; DISPLAY_SIZE] },
        Call::IsValid { device, record },
    ]
}

fn all_refuse(device: Device, name: &str, record: &[u8]) -> Vec<Case> {
    let name = format!("{}, {name}", device.name());
    let case = |call: Call| Case { name: name.clone(), expected: refused(RECORD_RANGE, &call), call };
    calls(device, record).into_iter().map(case).collect()
}

/// A record, the cycles of a step with the frame of a fresh one and the record that it leaves, the one that reset leaves, and the dots.
struct Taken {
    record: Vec<u8>,
    cycles: u32,
    stepped: Vec<u8>,
    reset: Vec<u8>,
    dots: Vec<u8>,
}

fn all_take(device: Device, name: &str, taken: &Taken) -> Vec<Case> {
    let cycles = taken.cycles;
    let answers = [
        answer(0, &[cycles], taken.stepped.clone()),
        answer(0, &[1, cycles], taken.stepped.clone()),
        answer(0, &[], taken.reset.clone()),
        answer(0, &[], taken.dots.clone()),
        answer(0, &[], taken.record.clone()),
    ];
    let case = |(call, expected)| Case { name: format!("{}, {name}", device.name()), call, expected };
    calls(device, &taken.record).into_iter().zip(answers).map(case).collect()
}

/// The fresh record but for its mode and P16: no edge, so the step changes nothing.
fn still(device: Device, record: &[u8]) -> Taken {
    let record = record.to_vec();
    Taken { stepped: record.clone(), record, cycles: 0, reset: fresh_of(device), dots: vec![0; DISPLAY_SIZE] }
}

/// The record whose every number is the greatest of its range. EI is clear, so that an instruction runs: with SP 15 an interrupt
/// would stop. The NOP passes the end of PC, of the time base and of both timers, whose latches are set.
fn greatest(device: Device) -> Taken {
    let kept = [("ACC", 15), ("HR", 15), ("LR", 15), ("CF", 1), ("ZF", 1), ("SP", 15), ("DP", 4095)];
    let counts = [("PC", 8191), ("time base", (1 << 22) - 8), ("TA", 4095), ("TB", 4095)];
    let others = [("SF", 0), ("EI", 0), ("IL", 0b10_1111), ("mask", 15), ("mode", RUNNING)];
    let latches = LATCHES.map(|latch| (latch, 15));
    let added: &[(&str, u32)] = match device {
        Device::Em73862 => &[],
        Device::Em73P982 => &[("P3", 14), ("P5", 15), ("P6", 15), ("P17", 15)],
    };
    let full_ram = |record: &[u8]| [&record[..record.len() - RAM_SIZE], &[15; RAM_SIZE][..]].concat();
    let record = with(&full_ram(&fresh_of(device)), &[&kept[..], &counts, &others, &latches, added].concat());
    Taken {
        stepped: with(&record, &counts.map(|(count, _)| (count, 0))),
        cycles: 1,
        reset: full_ram(&with(&fresh_of(device), &kept)),
        dots: vec![0xFF; DISPLAY_SIZE],
        record,
    }
}

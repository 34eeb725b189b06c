//! Document 01, "One step": "In sleep or hold a step only looks for a falling edge on an enabled wake pin." Request Q-2: "With
//! bit 3 set, a step in sleep or hold wakes when an enabled wake pin reads 0 in the frame, edge or none."

use super::record::{fresh, with, with_last_frame, HOLD, RUNNING, SLEEP};
use super::{Case, Step, ALL_WAKE, NOP, SOUND_OFF};
use plain::Device;

const DEVICE: Device = Device::Em73862;

/// The wake pins, the bit of each, and the frame in which it alone is 0.
const PINS: [(&str, u8, &[u8; 3]); 8] = [
    ("P0.0", 0x01, b"EF1"),
    ("P0.1", 0x02, b"DF1"),
    ("P0.2", 0x04, b"BF1"),
    ("P0.3", 0x08, b"7F1"),
    ("P8.0", 0x10, b"FE1"),
    ("P8.1", 0x20, b"FD1"),
    ("P8.2", 0x40, b"FB1"),
    ("P8.3", 0x80, b"F71"),
];

/// P0.0 falls: the mode, P16, the enabled wake pins, and the cycles where it wakes. "One: running again, 0 cycles for hold,
/// for sleep 32,768, 2,048 or 8,192 (bits 1..0 = 0, 1, 2)." By its edge and by its level alike.
const MODES: [(u32, u32, u8, Option<u32>); 8] = [
    (SLEEP, 5, ALL_WAKE, Some(2_048)),
    (SLEEP, 6, ALL_WAKE, Some(8_192)),
    (SLEEP, 12, ALL_WAKE, Some(32_768)),
    (SLEEP, 13, ALL_WAKE, Some(2_048)),
    (SLEEP, 14, ALL_WAKE, Some(8_192)),
    (HOLD, 7, ALL_WAKE, Some(0)),
    (HOLD, 15, ALL_WAKE, Some(0)),
    (HOLD, 7, 0, None),
];

/// In sleep, what is no falling edge of a wake pin: the frame before and the frame.
const NO_FALL: [(&str, &[u8; 3], &[u8; 3]); 3] =
    [("P0.0 stays 0", b"EF1", b"EF1"), ("P0.0 rises", b"EF1", b"FF1"), ("P4.0 falls", b"FF1", b"FF0")];

/// With P16 bit 3 set: the mode, P16, the enabled wake pins, the frame before and the frame, and the cycles where it wakes.
type Level = (&'static str, u32, u32, u8, &'static [u8; 3], &'static [u8; 3], Option<u32>);
const LEVELS: [Level; 9] = [
    ("P0.0 stays 0", SLEEP, 12, ALL_WAKE, b"EF1", b"EF1", Some(32_768)),
    ("P0.0 stays 0", SLEEP, 13, ALL_WAKE, b"EF1", b"EF1", Some(2_048)),
    ("P0.0 stays 0", SLEEP, 14, ALL_WAKE, b"EF1", b"EF1", Some(8_192)),
    ("P0.0 stays 0", HOLD, 15, ALL_WAKE, b"EF1", b"EF1", Some(0)),
    ("P8.3 stays 0, P0.0 rises", SLEEP, 12, ALL_WAKE, b"E71", b"F71", Some(32_768)),
    ("P0.0 stays 0, the others enabled", SLEEP, 12, !1, b"EF1", b"EF1", None),
    ("P0.0 rises", HOLD, 15, ALL_WAKE, b"EF1", b"FF1", None),
    ("P4.0 is 0", SLEEP, 12, ALL_WAKE, b"FF0", b"FF0", None),
    ("all are 0, none enabled", HOLD, 15, 0, b"000", b"000", None),
];

/// The latches that falling edges set in a running record: "on P8.2 sets IL5, on P8.0 sets IL0".
const LATCHES: [(&str, &[u8; 3], u32); 2] = [("P8.2", b"FB1", 0b10_0000), ("P8.0", b"FE1", 0b00_0001)];

pub fn cases() -> Vec<Case> {
    [pins(), modes(), no_fall(), levels(), held_key(), latches()].into_iter().flatten().collect()
}

fn in_mode(mode: u32, p16: u32) -> Vec<u8> {
    with(&fresh(), &[("mode", mode), ("P16", p16)])
}

/// A step in sleep or hold, which wakes with these cycles or does nothing.
fn waits(name: &str, wake: u8, before: Vec<u8>, frame: &[u8; 3], wakes: Option<u32>) -> Case {
    let step = Step { device: DEVICE, code: &[NOP], wake, sound: SOUND_OFF, before, frame };
    match wakes {
        Some(cycles) => step.changes(name, cycles, &[("mode", RUNNING)]),
        None => step.changes(name, 0, &[]),
    }
}

fn pins() -> Vec<Case> {
    let mut cases = Vec::new();
    for (pin, bit, frame) in PINS {
        let enabled =
            [("all", ALL_WAKE, Some(32_768)), ("this one", bit, Some(32_768)), ("all but this one", !bit, None)];
        for (which, wake, wakes) in enabled {
            cases.push(waits(&format!("{pin} falls in sleep, {which} enabled"), wake, in_mode(SLEEP, 4), frame, wakes));
        }
    }
    cases
}

fn modes() -> Vec<Case> {
    let case = |(mode, p16, wake, wakes)| {
        let name = format!("P0.0 falls in mode {mode}, P16 {p16}, wake pins {wake:02X}h");
        waits(&name, wake, in_mode(mode, p16), b"EF1", wakes)
    };
    MODES.into_iter().map(case).collect()
}

fn no_fall() -> Vec<Case> {
    let case = |(what, last, frame): (&str, &[u8; 3], &[u8; 3])| {
        waits(&format!("{what} in sleep"), ALL_WAKE, with_last_frame(&in_mode(SLEEP, 4), last), frame, None)
    };
    NO_FALL.into_iter().map(case).collect()
}

fn levels() -> Vec<Case> {
    let case = |(what, mode, p16, wake, last, frame, wakes): Level| {
        let name = format!("{what} in mode {mode}, P16 {p16}, wake pins {wake:02X}h");
        waits(&name, wake, with_last_frame(&in_mode(mode, p16), last), frame, wakes)
    };
    LEVELS.into_iter().map(case).collect()
}

/// A key held while OUTA P16 enters sleep by level: the step that writes P16 does not look at it.
fn held_key() -> Vec<Case> {
    const OUTA_P16: [u8; 2] = [0x6F, 0x10];
    let before = with(&with_last_frame(&fresh(), b"EF1"), &[("ACC", 12)]);
    let step = Step { device: DEVICE, code: &OUTA_P16, wake: ALL_WAKE, sound: SOUND_OFF, before, frame: b"EF1" };
    vec![step.changes("a key is held where sleep is entered", 2, &[("PC", 2), ("P16", 12), ("mode", SLEEP)])]
}

fn latches() -> Vec<Case> {
    let case = |(pin, frame, il): (&str, &[u8; 3], u32)| {
        let step = Step { device: DEVICE, code: &[NOP], wake: ALL_WAKE, sound: SOUND_OFF, before: fresh(), frame };
        step.changes(&format!("{pin} falls, running"), 1, &[("PC", 1), ("time base", 8), ("IL", il)])
    };
    LATCHES.into_iter().map(case).collect()
}

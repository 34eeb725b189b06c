//! Document 01, "Worked values": "RAM 0F3h and 17Fh exist; 0F4h and 180h stop with 31 by HL." The bank is P9.3.

use super::record::{fresh, with};
use super::{Case, Step, ALL_WAKE, SOUND_OFF};
use plain::numbers::ABSENT_RAM;
use plain::Device;

const LDAM: [u8; 1] = [0x5A];

/// The address, P9, HR, LR, and what ACC becomes, where there is such a nibble: 9 at RAM 0F3h, 6 at 17Fh, 0 at 100h.
const LOADS: [(&str, u32, u32, u32, Option<u32>); 7] = [
    ("0F3h", 0, 15, 3, Some(9)),
    ("0F4h", 0, 15, 4, None),
    ("0FFh", 7, 15, 15, None),
    ("100h", 8, 0, 0, Some(0)),
    ("17Fh", 8, 7, 15, Some(6)),
    ("180h", 8, 8, 0, None),
    ("1FFh", 15, 15, 15, None),
];

pub fn cases() -> Vec<Case> {
    let case = |(address, p9, hr, lr, loaded): (&str, u32, u32, u32, Option<u32>)| {
        let set = [("RAM 0F3h", 9), ("RAM 17Fh", 6), ("ACC", 5), ("P9", p9), ("HR", hr), ("LR", lr)];
        let before = with(&fresh(), &set);
        let (device, code) = (Device::Em73862, &LDAM);
        let step = Step { device, code, wake: ALL_WAKE, sound: SOUND_OFF, before, frame: b"EF1" };
        let name = format!("LDAM at {address}, P9 {p9}");
        match loaded {
            Some(acc) => {
                let changes = [("ACC", acc), ("ZF", (acc == 0) as u32), ("SF", 1), ("PC", 1), ("time base", 8)];
                step.changes(&name, 1, &changes)
            }
            None => step.stops(&name, ABSENT_RAM),
        }
    };
    LOADS.into_iter().map(case).collect()
}

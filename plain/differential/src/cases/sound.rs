//! Document 01, "Instructions": "Reading or testing P4 or P8 gives the frame's pins and sets the latch to 15; P4 reads 1110
//! plus P4.0, or 15 with SOUND enabled."

use super::record::{fresh, with};
use super::{Case, Step, ALL_WAKE, SOUND_OFF, SOUND_ON};
use plain::Device;

const INA_P4: [u8; 2] = [0x6F, 0x44];
const TTP_P4_0: [u8; 2] = [0x6D, 0x84];

/// SOUND, the frame, what ACC becomes by INA P4, and SF by TTP P4,0.
const READ: [(u8, &[u8; 3], u32, u32); 4] =
    [(SOUND_OFF, b"FF0", 14, 0), (SOUND_OFF, b"FF1", 15, 1), (SOUND_ON, b"FF0", 15, 1), (SOUND_ON, b"FF1", 15, 1)];

/// Both rows have two bytes and take two cycles.
const SPENT: [(&str, u32); 2] = [("PC", 2), ("time base", 16)];

pub fn cases() -> Vec<Case> {
    let mut cases = Vec::new();
    for (sound, frame, acc, sf) in READ {
        let (device, wake) = (Device::Em73862, ALL_WAKE);
        let step = |code| Step { device, code, wake, sound, before: with(&fresh(), &[("P4", 5)]), frame };
        let setting = format!("SOUND {sound}, frame {}", frame.escape_ascii());
        let read = [&SPENT[..], &[("P4", 15), ("ACC", acc), ("SF", 1)]].concat();
        cases.push(step(&INA_P4).changes(&format!("INA P4, {setting}"), 2, &read));
        let tested = [&SPENT[..], &[("P4", 15), ("SF", sf)]].concat();
        cases.push(step(&TTP_P4_0).changes(&format!("TTP P4,0, {setting}"), 2, &tested));
    }
    cases
}

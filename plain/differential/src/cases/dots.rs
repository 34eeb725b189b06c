//! Document 01, "Display": "Row c, dot s is bit s mod 4 of RAM 20h + 16c + s/4 (rounded down). Forty bytes, five a row, low
//! nibble first; all zero unless P27 is 11xx. Later bytes stay."

use super::record::{fresh, with};
use super::{answer, refused, Case};
use crate::calls::Call;
use plain::numbers::{DISPLAY_BUFFER, RECORD_RANGE};
use plain::{Device, DISPLAY_SIZE};

/// What the buffer holds before the call.
const UNSET: u8 = 0xAA;

const RAM_24H: (&str, u32) = ("RAM 024h", 10);

/// P27, a nibble beside RAM 24h, the buffer's length, and the bytes that are not 0.
type Shown = (u32, (&'static str, u32), usize, &'static [(usize, u8)]);

const SHOWN: [Shown; 7] = [
    (12, RAM_24H, 40, &[(2, 0x0A)]),
    (12, RAM_24H, 41, &[(2, 0x0A)]),
    (12, ("RAM 025h", 15), 40, &[(2, 0xFA)]),
    (15, ("RAM 099h", 15), 40, &[(2, 0x0A), (39, 0xF0)]),
    (12, ("RAM 02Ah", 15), 40, &[(2, 0x0A)]),
    (4, RAM_24H, 40, &[]),
    (0, RAM_24H, 40, &[]),
];

/// A nibble beside RAM 24h, and the dots of row 0 that are lit.
const LIT: [((&str, u32), &[usize]); 2] = [(RAM_24H, &[17, 19]), (("RAM 025h", 15), &[17, 19, 20, 21, 22, 23])];

/// ACC, the buffer's length, and the number: 2 comes before 5.
const REFUSED: [(u32, usize, u8); 3] = [(0, 39, DISPLAY_BUFFER), (16, 40, RECORD_RANGE), (16, 39, RECORD_RANGE)];

pub fn cases() -> Vec<Case> {
    let mut cases = Vec::new();
    for (p27, nibble, length, others) in SHOWN {
        let mut dots = [0; DISPLAY_SIZE];
        for (place, byte) in others {
            dots[*place] = *byte;
        }
        cases.push(shown(p27, nibble, length, dots));
    }
    for (nibble, lit) in LIT {
        let mut dots = [0; DISPLAY_SIZE];
        for dot in lit {
            dots[dot / 8] |= 1 << (dot % 8);
        }
        cases.push(shown(12, nibble, DISPLAY_SIZE, dots));
    }
    for (acc, length, number) in REFUSED {
        let call = call(&[("P27", 12), RAM_24H, ("ACC", acc)], length);
        let name = format!("ACC {acc}, {length} bytes");
        cases.push(Case { name, expected: refused(number, &call), call });
    }
    cases
}

fn call(set: &[(&str, u32)], length: usize) -> Call {
    Call::Display { device: Device::Em73862, record: with(&fresh(), set), dots: vec![UNSET; length] }
}

fn shown(p27: u32, nibble: (&str, u32), length: usize, dots: [u8; DISPLAY_SIZE]) -> Case {
    let mut buffer = vec![UNSET; length];
    buffer[..DISPLAY_SIZE].copy_from_slice(&dots);
    let (place, value) = nibble;
    Case {
        name: format!("P27 {p27}, RAM 024h 10, {place} {value}, {length} bytes"),
        call: call(&[("P27", p27), RAM_24H, nibble], length),
        expected: answer(0, &[], buffer),
    }
}

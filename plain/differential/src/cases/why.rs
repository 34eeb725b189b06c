//! Request Q-7: "which holds for that step, the first of". A running record with EI set unless a case says otherwise.

use super::record::{fresh, fresh_p982, with, HOLD, SLEEP};
use super::{answer, image_from, refused, Case, ALL_WAKE, SOUND_OFF};
use crate::calls::{Call, Image};
use plain::Device;

const INT0: u32 = 0b10_0000;
const TRGA: u32 = 0b00_1000;
const TRGB: u32 = 0b00_0100;
const TBI: u32 = 0b00_0010;
const INT1: u32 = 0b00_0001;

/// The fields that are set, the frame, and the answer: which of the six, the source, and the set of sources.
type Asked = (&'static str, &'static [(&'static str, u32)], &'static [u8; 3], [u32; 3]);

const ASKED: [Asked; 21] = [
    ("sleeping", &[("mode", SLEEP), ("P16", 4), ("IL", INT0), ("SP", 5)], b"FF1", [1, 0, 0]),
    ("holding", &[("mode", HOLD), ("P16", 7), ("IL", INT0), ("SP", 5)], b"FF1", [1, 0, 0]),
    ("sleeping, and the frame wakes", &[("mode", SLEEP), ("P16", 4), ("IL", INT0), ("SP", 5)], b"EF1", [1, 0, 0]),
    ("sleeping with EI clear", &[("mode", SLEEP), ("P16", 4), ("EI", 0)], b"FF1", [1, 0, 0]),
    ("EI clear with all due", &[("EI", 0), ("IL", 0b10_1111), ("mask", 15), ("SP", 5)], b"FF1", [2, 0, 0]),
    ("EI clear with nothing latched", &[("EI", 0)], b"FF1", [2, 0, 0]),
    ("nothing latched", &[("mask", 15), ("SP", 5)], b"FF1", [3, 0, 0]),
    ("nothing latched at SP 0", &[("mask", 15)], b"FF1", [3, 0, 0]),
    ("all masked", &[("IL", TRGA | TRGB | TBI | INT1), ("SP", 5)], b"FF1", [4, 0, TRGA | TRGB | TBI | INT1]),
    ("TRGA under MASK1 and MASK0", &[("IL", TRGA), ("mask", 11), ("SP", 5)], b"FF1", [4, 0, TRGA]),
    ("masked at SP 0", &[("IL", INT1), ("mask", 14)], b"FF1", [4, 0, INT1]),
    ("SP 0", &[("IL", TRGA | TBI), ("mask", 6)], b"FF1", [5, 0, TRGA | TBI]),
    ("SP 14, one masked", &[("IL", TRGA | TBI), ("mask", 2), ("SP", 14)], b"FF1", [5, 0, TBI]),
    ("SP 15", &[("IL", INT0), ("SP", 15)], b"FF1", [5, 0, INT0]),
    ("SP 1", &[("IL", TRGA), ("mask", 4), ("SP", 1)], b"FF1", [6, 3, 0]),
    ("SP 13", &[("IL", TRGB), ("mask", 2), ("SP", 13)], b"FF1", [6, 2, 0]),
    ("all due", &[("IL", 0b10_1111), ("mask", 15), ("SP", 5)], b"FF1", [6, 5, TRGA | TRGB | TBI | INT1]),
    ("TBI before INT1", &[("IL", TBI | INT1), ("mask", 3), ("SP", 5)], b"FF1", [6, 1, INT1]),
    ("a masked latch does not wait", &[("IL", INT0 | TRGA | INT1), ("mask", 1), ("SP", 5)], b"FF1", [6, 5, INT1]),
    ("P8.2 falls with the frame", &[("IL", INT1), ("mask", 1), ("SP", 5)], b"FB1", [6, 5, INT1]),
    ("a mark has no effect", &[("IL", INT0), ("SP", 5), ("mark", 1)], b"FF1", [6, 5, 0]),
];

pub fn cases() -> Vec<Case> {
    let mut cases: Vec<Case> = ASKED.iter().map(asked).collect();
    cases.extend([overflow(), spoken(), fallen()]);
    cases.extend(refusals());
    cases
}

fn enabled(fields: &[(&str, u32)]) -> Vec<u8> {
    with(&with(&fresh(), &[("EI", 1)]), fields)
}

fn call(device: Device, image: Image, record: Vec<u8>, frame: &[u8]) -> Call {
    Call::Why { device, image, wake: ALL_WAKE, sound: SOUND_OFF, record, frame: frame.to_vec() }
}

fn case(name: &str, device: Device, record: Vec<u8>, frame: &[u8], values: [u32; 3]) -> Case {
    let expected = answer(0, &values, record.clone());
    Case { name: name.to_string(), call: call(device, image_from(device, &[]), record, frame), expected }
}

fn asked((name, fields, frame, values): &Asked) -> Case {
    case(name, Device::Em73862, enabled(fields), *frame, *values)
}

/// "Passing 4095 to 0 sets IL3": by the frame's rising edge on P8.3, in event mode.
fn overflow() -> Case {
    let fields = [("TA", 4095), ("P28", 4), ("mask", 4), ("SP", 5)];
    let record = super::record::with_last_frame(&enabled(&fields), b"F71");
    case("TA passes 4095 with the frame", Device::Em73862, record, b"FF1", [6, 3, 0])
}

fn enabled_p982() -> Vec<u8> {
    with(&fresh_p982(), &[("EI", 1), ("mask", 1), ("SP", 5)])
}

/// "raised by a fourth frame digit of 1"
fn spoken() -> Case {
    case("the speech ends with the frame", Device::Em73P982, enabled_p982(), b"FFF1", [6, 0, 0])
}

fn fallen() -> Case {
    case("P8.0 falls on the EM73P982", Device::Em73P982, enabled_p982(), b"FEF0", [3, 0, 0])
}

/// "Refusals: 1, 2, 3 as before."
fn refusals() -> Vec<Case> {
    let device = Device::Em73862;
    let (short, whole): (Image, Image) = (vec![0; 8191].into(), image_from(device, &[]));
    let (outside, inside) = (with(&fresh(), &[("ACC", 16)]), fresh());
    let refusal = |name: &str, number, image: &Image, record: &[u8], frame: &[u8]| {
        let call = call(device, image.clone(), record.to_vec(), frame);
        Case { name: name.to_string(), expected: refused(number, &call), call }
    };
    vec![
        refusal("1 before 2 and 3", 1, &short, &outside, b"FF"),
        refusal("2 before 3", 2, &whole, &outside, b"FF2"),
        refusal("2 for 415 bytes", 2, &whole, &inside[1..], b"FF1"),
        refusal("1 before 2 for 415 bytes", 1, &short, &inside[1..], b"FF1"),
        refusal("3", 3, &whole, &inside, b"FF2"),
    ]
}

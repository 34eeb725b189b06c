//! Records by the names of their fields, which are those of include/em73862.h and include/em73p982.h.

use crate::layout::{places_of, DUE, LAST_FRAME, LATCHES, RECORD_BYTES, SPEECH};
use plain::due_number;

pub const RUNNING: u32 = 0;
pub const SLEEP: u32 = 1;
pub const HOLD: u32 = 2;

/// "Fresh record: running, last frame FF1, SF 1, P23 and P24 at 15, P4 and P8 at 15, all else 0."
pub fn fresh() -> Vec<u8> {
    let others = [("SF", 1), ("P23", 15), ("P24", 15), ("P4", 15), ("P8", 15)];
    with_last_frame(&with(&[0; RECORD_BYTES], &others), b"FF1")
}

/// Of the EM73P982: "fresh last frame FFF0", "5 and 6 reset to 0 and 17 to 15", "P3 .. resets to 0".
pub fn fresh_p982() -> Vec<u8> {
    with_last_frame(&with(&fresh(), &[("P17", 15)]), b"FFF0")
}

/// The record with other values in some fields, the low byte first; the due source is that of latches and mask where it is not one of them.
pub fn with(record: &[u8], fields: &[(&str, u32)]) -> Vec<u8> {
    let mut record = record.to_vec();
    for (name, value) in fields {
        let places = places_of(name).unwrap_or_else(|| panic!("the record has no field {name}"));
        let value_bytes = value.to_le_bytes();
        let (bytes, rest) = value_bytes.split_at(places.len());
        assert!(rest.iter().all(|byte| *byte == 0), "{name} has no bytes for {value}");
        record[places].copy_from_slice(bytes);
    }
    if fields.iter().all(|(name, _)| *name != "due") {
        record[DUE] = due_number(record[LATCHES], value_of(&record, "mask") as u8);
    }
    record
}

/// The value of a field, the low byte first.
pub fn value_of(record: &[u8], name: &str) -> u32 {
    let places = places_of(name).unwrap_or_else(|| panic!("the record has no field {name}"));
    record[places].iter().rev().fold(0, |value, byte| value << 8 | *byte as u32)
}

/// "A frame is three hexadecimal digits, either case: P0, P8, P4.0." On the EM73P982 there is a fourth.
pub fn with_last_frame(record: &[u8], frame: &[u8]) -> Vec<u8> {
    let digit = |character: &u8| (*character as char).to_digit(16).expect("the frame has digits") as u8;
    let mut record = record.to_vec();
    let places = (LAST_FRAME..LAST_FRAME + 3).chain([SPEECH]);
    for (place, character) in places.zip(frame) {
        record[place] = digit(character);
    }
    record
}

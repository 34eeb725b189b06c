//! Calls on a record alone: fresh, reset, is_valid and display.

use crate::asker::{Asker, Difference};
use crate::calls::{Call, Kind};
use crate::chance::Chance;
use crate::layout::{record_of, RECORD_BYTES};
use crate::records::{fresh_or_valid, spoilt, valid};
use plain::{Device, DISPLAY_SIZE};

/// The byte of a record that says what P27 holds.
const P27: usize = 12;

pub fn fresh(asker: &mut Asker, chance: &mut Chance, device: Device, wanted: u64) -> Result<(), Difference> {
    while asker.asked(device, Kind::Fresh) < wanted {
        let length = match chance.below(4) {
            0 => chance.below(900),
            1 => chance.pick(&[0, 1, RECORD_BYTES - 1, RECORD_BYTES + 1]),
            _ => RECORD_BYTES,
        };
        asker.ask(Call::Fresh { device, record: chance.bytes(length) })?;
    }
    asker.compare_queued()
}

pub fn reset(asker: &mut Asker, chance: &mut Chance, device: Device, wanted: u64) -> Result<(), Difference> {
    while asker.asked(device, Kind::Reset) < wanted {
        let record = any(chance, device, asker.asked(device, Kind::Reset));
        asker.ask(Call::Reset { device, record })?;
    }
    asker.compare_queued()
}

pub fn is_valid(asker: &mut Asker, chance: &mut Chance, device: Device, wanted: u64) -> Result<(), Difference> {
    while asker.asked(device, Kind::IsValid) < wanted {
        let record = any(chance, device, asker.asked(device, Kind::IsValid));
        asker.ask(Call::IsValid { device, record })?;
    }
    asker.compare_queued()
}

/// A valid record, a spoilt one, or a valid one with one byte of any value: all bytes by turns.
fn any(chance: &mut Chance, device: Device, turn: u64) -> Vec<u8> {
    match turn % 4 {
        0 => record_of(&fresh_or_valid(chance, device)),
        1 => spoilt(chance, device),
        _ => {
            let mut record = record_of(&valid(chance, device));
            let value =
                if chance.one_in(2) { chance.byte() } else { chance.pick(&[0, 1, 2, 3, 4, 7, 8, 11, 12, 15, 16, 17]) };
            record[turn as usize / 4 % RECORD_BYTES] = value;
            record
        }
    }
}

pub fn display(asker: &mut Asker, chance: &mut Chance, device: Device, wanted: u64) -> Result<(), Difference> {
    while asker.asked(device, Kind::Display) < wanted {
        let mut record = if chance.one_in(4) { spoilt(chance, device) } else { record_of(&valid(chance, device)) };
        if chance.one_in(2) && record.len() > P27 {
            record[P27] = 12 + chance.below(4) as u8;
        }
        let length = match chance.below(4) {
            0 => chance.below(100),
            1 => chance.pick(&[0, 1, DISPLAY_SIZE - 1]),
            _ => chance.pick(&[DISPLAY_SIZE, DISPLAY_SIZE + 1, 60]),
        };
        asker.ask(Call::Display { device, record, dots: chance.bytes(length) })?;
    }
    asker.compare_queued()
}

//! The record as the 416 bytes of include/em73862.h and include/em73p982.h.

use plain::{Frame, Machine, Mode, Ports, RAM_SIZE};
use std::ops::Range;

pub const RECORD_BYTES: usize = 416;

pub const PC: usize = 16;
pub const DP: usize = 18;
pub const TA: usize = 20;
pub const TB: usize = 22;
pub const FLAGS: usize = 24;
pub const LATCHES: usize = 28;
pub const TIME_BASE: usize = 29;
pub const LAST_FRAME: usize = 33;
pub const MODE: usize = 36;
pub const MARK: usize = 37;
pub const DUE: usize = 38;
pub const P3: usize = 39;
pub const SPEECH: usize = 43;
pub const RAM: usize = 44;

const NAMES: [&str; RAM] = [
    "ACC", "HR", "LR", "SP", "mask", "P4", "P8", "P9", "P16", "P23", "P24", "P25", "P27", "P28", "P29", "P30", "PC",
    "PC", "DP", "DP", "TA", "TA", "TB", "TB", "CF", "ZF", "SF", "EI", "IL", "time base", "time base", "time base",
    "time base", "P0 of the last frame", "P8 of the last frame", "P4 of the last frame", "mode", "mark", "due", "P3",
    "P5", "P6", "P17", "speech of the last frame",
];

pub fn record_of(m: &Machine) -> Vec<u8> {
    let p = &m.ports;
    let mut record = Vec::with_capacity(RECORD_BYTES);
    record.extend([m.acc, m.hr, m.lr, m.sp, m.mask]);
    record.extend([p.p4, p.p8, p.p9, p.p16, p.p23, p.p24, p.p25, p.p27, p.p28, p.p29, p.p30]);
    for word in [m.pc, m.dp, m.ta, m.tb] {
        record.extend(word.to_le_bytes());
    }
    record.extend([m.cf, m.zf, m.sf, m.ei].map(u8::from));
    record.push(m.il);
    record.extend(m.time_base.to_le_bytes());
    record.extend([m.last_frame.p0, m.last_frame.p8, m.last_frame.p4]);
    record.push(match m.mode {
        Mode::Running => 0,
        Mode::Sleep => 1,
        Mode::Hold => 2,
    });
    record.push(m.mark.into());
    record.push(m.due);
    record.extend([p.p3, p.p5, p.p6, p.p17, m.last_frame.speech]);
    record.extend(m.ram);
    record
}

/// The machine of these bytes, perhaps with values outside their ranges; none where the length, a flag or the mode is
/// nothing that a `Machine` can hold.
pub fn machine_of(record: &[u8]) -> Option<Machine> {
    let record: &[u8; RECORD_BYTES] = record.try_into().ok()?;
    let word = |at: usize| u16::from_le_bytes([record[at], record[at + 1]]);
    let flag = |at: usize| match record[at] {
        0 => Some(false),
        1 => Some(true),
        _ => None,
    };
    let mode = [Mode::Running, Mode::Sleep, Mode::Hold].get(record[MODE] as usize).copied()?;
    let time_base = [record[TIME_BASE], record[TIME_BASE + 1], record[TIME_BASE + 2], record[TIME_BASE + 3]];
    let [p4, p8, p9, p16, p23, p24, p25, p27, p28, p29, p30] = *record[5..].first_chunk()?;
    let [p3, p5, p6, p17, speech] = *record[P3..].first_chunk()?;
    let ram: [u8; RAM_SIZE] = record[RAM..].try_into().ok()?;
    Some(Machine {
        acc: record[0],
        hr: record[1],
        lr: record[2],
        sp: record[3],
        mask: record[4],
        pc: word(PC),
        dp: word(DP),
        ta: word(TA),
        tb: word(TB),
        cf: flag(FLAGS)?,
        zf: flag(FLAGS + 1)?,
        sf: flag(FLAGS + 2)?,
        ei: flag(FLAGS + 3)?,
        il: record[LATCHES],
        time_base: u32::from_le_bytes(time_base),
        ram,
        ports: Ports { p3, p4, p5, p6, p8, p9, p16, p17, p23, p24, p25, p27, p28, p29, p30 },
        last_frame: Frame { p0: record[LAST_FRAME], p8: record[LAST_FRAME + 1], p4: record[LAST_FRAME + 2], speech },
        mode,
        mark: flag(MARK)?,
        due: record[DUE],
    })
}

/// What the header calls the byte at a place of a record.
pub fn field_at(place: usize) -> String {
    const BANK_0_SIZE: usize = 0xF4;
    match NAMES.get(place) {
        Some(name) => name.to_string(),
        None if place < RAM + BANK_0_SIZE => format!("RAM {:03X}h", place - RAM),
        None => format!("RAM {:03X}h", 0x100 + place - RAM - BANK_0_SIZE),
    }
}

/// The bytes of the field that the header calls so; none where it calls none so.
pub fn places_of(name: &str) -> Option<Range<usize>> {
    let first = (0..RECORD_BYTES).find(|place| field_at(*place) == name)?;
    let bytes = (first..RECORD_BYTES).take_while(|place| field_at(*place) == name).count();
    Some(first..first + bytes)
}

#[cfg(test)]
mod tests {
    use super::*;
    use crate::chance::Chance;
    use crate::records::valid;
    use plain::{fresh, is_valid, Device};

    #[test]
    fn there_and_back() {
        let mut chance = Chance::new(1);
        for device in Device::ALL.into_iter().cycle().take(4000) {
            let machine = valid(&mut chance, device);
            assert!(is_valid(device, &machine));
            let record = record_of(&machine);
            assert_eq!(record.len(), RECORD_BYTES);
            assert_eq!(machine_of(&record), Some(machine));
        }
    }

    #[test]
    fn back_and_there() {
        let mut chance = Chance::new(2);
        for _ in 0..2000 {
            let mut record = chance.bytes(RECORD_BYTES);
            for flag in &mut record[FLAGS..FLAGS + 4] {
                *flag &= 1;
            }
            record[MODE] %= 3;
            record[MARK] &= 1;
            assert_eq!(machine_of(&record).map(|machine| record_of(&machine)), Some(record));
        }
    }

    #[test]
    fn no_machine_holds_these() {
        let record = record_of(&fresh(Device::Em73862));
        for (place, value) in [(24, 2), (25, 2), (26, 255), (27, 2), (36, 3), (36, 255), (37, 2)] {
            let mut spoilt = record.clone();
            spoilt[place] = value;
            assert_eq!(machine_of(&spoilt), None);
        }
        assert_eq!(machine_of(&record[..415]), None);
        assert_eq!(machine_of(&[]), None);
        assert_eq!(machine_of(&[&record[..], &[0]].concat()), None);
    }

    #[test]
    fn places_are_the_headers() {
        let mut machine = fresh(Device::Em73P982);
        machine.dp = 0xABC;
        machine.time_base = 0x123450;
        machine.ports.p30 = 9;
        machine.zf = true;
        (machine.ports.p3, machine.ports.p5, machine.ports.p6, machine.ports.p17) = (14, 5, 6, 7);
        machine.last_frame.speech = 1;
        machine.ram[371] = 7;
        let record = record_of(&machine);
        assert_eq!((record[18], record[19]), (0xBC, 0x0A));
        assert_eq!(record[29..33], [0x50, 0x34, 0x12, 0]);
        assert_eq!((record[15], record[25], record[26], record[415]), (9, 1, 1, 7));
        assert_eq!(record[33..39], [15, 15, 15, 0, 0, 0]);
        assert_eq!(record[39..44], [14, 5, 6, 7, 1]);
        assert_eq!((field_at(15), field_at(415)), ("P30".to_string(), "RAM 17Fh".to_string()));
        assert_eq!((field_at(44 + 0xF3), field_at(44 + 0xF4)), ("RAM 0F3h".to_string(), "RAM 100h".to_string()));
        assert_eq!(
            (places_of("P30"), places_of("DP"), places_of("time base")),
            (Some(15..16), Some(18..20), Some(29..33))
        );
        assert_eq!(
            (places_of("RAM 000h"), places_of("RAM 0F4h"), places_of("RAM 17Fh")),
            (Some(44..45), None, Some(415..416))
        );
    }
}

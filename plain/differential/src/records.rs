//! Records: valid ones with corners in every field, ones that leave their range in one field, and buffers that are none.

use crate::chance::Chance;
use crate::layout::{self, record_of, RECORD_BYTES};
use plain::{due_number, fresh, Device, Frame, Machine, Mode, Ports, RAM_SIZE};

const TIME_BASE_SIZE: u32 = 1 << 22;

/// What P3 can hold.
pub const P3_VALUES: [u8; 12] = [0, 1, 2, 4, 5, 6, 8, 9, 10, 12, 13, 14];

/// A record in which every field has any value of its range, corners more often.
pub fn valid(chance: &mut Chance, device: Device) -> Machine {
    let mut machine = Machine {
        acc: nibble(chance),
        hr: nibble(chance),
        lr: nibble(chance),
        sp: if chance.one_in(2) { chance.pick(&[0, 1, 12, 13, 14, 15]) } else { chance.nibble() },
        mask: nibble(chance),
        pc: if chance.one_in(8) {
            chance.pick(&[0, 0x3F, 0xFFF, 0x1000, 8189, 8190, 8191])
        } else {
            chance.below(8192) as u16
        },
        dp: twelve_bits(chance),
        ta: twelve_bits(chance),
        tb: twelve_bits(chance),
        cf: chance.one_in(2),
        zf: chance.one_in(2),
        sf: chance.one_in(2),
        ei: chance.one_in(2),
        il: latches(chance),
        time_base: time_base(chance),
        ram: ram(chance),
        ports: ports(chance, device),
        last_frame: last_frame(chance, device),
        mode: Mode::Running,
        mark: chance.one_in(8),
        due: 0,
    };
    machine.due = due_number(machine.il, machine.mask);
    if chance.one_in(4) {
        fall_asleep(chance, &mut machine);
    }
    machine
}

/// A record in which programs go on for long: running, with room on the stack, in bank 0 and HR in both banks' range.
pub fn calm(chance: &mut Chance, device: Device) -> Machine {
    let mut machine = valid(chance, device);
    machine.mode = Mode::Running;
    machine.sp = 4 + chance.below(6) as u8;
    machine.hr &= 7;
    machine.ports.p9 &= 7;
    machine
}

pub fn fresh_or_valid(chance: &mut Chance, device: Device) -> Machine {
    match chance.below(4) {
        0 => fresh(device),
        1 => calm(chance, device),
        _ => valid(chance, device),
    }
}

/// Sleep or hold with every P16 that fits.
pub fn fall_asleep(chance: &mut Chance, machine: &mut Machine) {
    machine.ports.p16 = 0b0100 | chance.nibble();
    machine.mode = if machine.ports.p16 & 3 == 3 { Mode::Hold } else { Mode::Sleep };
}

fn nibble(chance: &mut Chance) -> u8 {
    if chance.one_in(4) {
        chance.pick(&[0, 1, 7, 8, 14, 15])
    } else {
        chance.nibble()
    }
}

fn twelve_bits(chance: &mut Chance) -> u16 {
    match chance.below(3) {
        0 => chance.pick(&[0, 1, 0x0FF, 0x777, 4094, 4095, 4095, 4095]),
        _ => chance.below(4096) as u16,
    }
}

/// Any, none, one, or all but IL4.
fn latches(chance: &mut Chance) -> u8 {
    let any = match chance.below(4) {
        0 => 0,
        1 => 1 << chance.below(6),
        2 => 0b11_1111,
        _ => chance.byte(),
    };
    any & 0b10_1111
}

/// Mostly one to three cycles before a multiple of a power of two that a timer or TBI counts by.
fn time_base(chance: &mut Chance) -> u32 {
    let exponent = 8 + chance.below(15) as u32;
    let multiple = (chance.number() as u32) << exponent;
    let before = match chance.below(4) {
        0 => (chance.number() as u32).wrapping_mul(8),
        _ => 8 * chance.below(4) as u32,
    };
    multiple.wrapping_sub(before) % TIME_BASE_SIZE
}

fn ram(chance: &mut Chance) -> [u8; RAM_SIZE] {
    let mut ram = [chance.pick(&[0, 15]); RAM_SIZE];
    if !chance.one_in(8) {
        for (nibble, byte) in ram.iter_mut().zip(chance.bytes(RAM_SIZE)) {
            *nibble = byte & 15;
        }
    }
    ram
}

fn last_frame(chance: &mut Chance, device: Device) -> Frame {
    let (p4, speech) = match device {
        Device::Em73862 => (chance.below(2) as u8, 0),
        Device::Em73P982 => (nibble(chance), chance.below(2) as u8),
    };
    Frame { p0: nibble(chance), p8: nibble(chance), p4, speech }
}

fn ports(chance: &mut Chance, device: Device) -> Ports {
    const SETTINGS: [u8; 12] = [0, 1, 2, 3, 4, 5, 6, 7, 12, 13, 14, 15];
    let [p3, p5, p6, p17] = match device {
        Device::Em73862 => [0; 4],
        Device::Em73P982 => [chance.pick(&P3_VALUES), nibble(chance), nibble(chance), nibble(chance)],
    };
    Ports {
        p3,
        p5,
        p6,
        p17,
        p4: nibble(chance),
        p8: nibble(chance),
        // P9.3 chooses the bank; bank 1 stops every row of timers, DP and SP.
        p9: if chance.one_in(3) { nibble(chance) } else { chance.nibble() & 7 },
        p16: nibble(chance),
        p23: nibble(chance),
        p24: nibble(chance),
        p25: chance.pick(&SETTINGS),
        p27: chance.pick(&SETTINGS),
        p28: chance.nibble(),
        p29: chance.nibble(),
        p30: nibble(chance),
    }
}

/// A record in bytes that one change takes out of its range; now and then a buffer of another length.
pub fn spoilt(chance: &mut Chance, device: Device) -> Vec<u8> {
    let mut record = record_of(&fresh_or_valid(chance, device));
    match chance.below(12) {
        0 => return of_another_length(chance, record),
        1 => spoil_mode(chance, &mut record),
        2 => spoil_time_base(chance, &mut record),
        3 => record[layout::LATCHES] |= chance.pick(&[0x10, 0x40, 0x80]),
        4 => record[chance.pick(&[layout::RAM, RECORD_BYTES - 1])] = over(chance, 16),
        5 => record[layout::RAM + chance.below(RAM_SIZE)] = over(chance, 16),
        6 => record[chance.pick(&[24, 25, 26, 27, layout::MARK])] = over(chance, 2),
        7 => spoil_word(chance, &mut record),
        // P25 and P27.
        8 => record[chance.pick(&[11, 12])] = chance.pick(&[8, 9, 10, 11, 16, 255]),
        9 => spoil_due(chance, &mut record),
        10 => spoil_added(chance, device, &mut record),
        _ => spoil_nibble(chance, device, &mut record),
    }
    record
}

fn of_another_length(chance: &mut Chance, mut record: Vec<u8>) -> Vec<u8> {
    let length = if chance.one_in(8) { chance.below(900) } else { chance.pick(&[0, 1, 43, 44, 415, 417]) };
    record.resize(if length == RECORD_BYTES { 415 } else { length }, 0);
    record
}

/// The limit itself, or anything above.
fn over(chance: &mut Chance, limit: u8) -> u8 {
    match chance.below(3) {
        0 => limit,
        1 => 255,
        _ => limit + chance.below(256 - limit as usize) as u8,
    }
}

fn spoil_mode(chance: &mut Chance, record: &mut [u8]) {
    const P16: usize = 8;
    if chance.one_in(2) {
        record[layout::MODE] = over(chance, 3);
        return;
    }
    // Sleep with bits 1..0 = 3, hold with others, and either with bit 2 clear.
    record[layout::MODE] = 1 + chance.below(2) as u8;
    let fits_hold = chance.one_in(2);
    record[P16] = match (fits_hold, record[layout::MODE]) {
        (true, 1) => 7 | chance.nibble() & 8,
        (true, _) => 4 | chance.pick(&[0, 1, 2]) | chance.nibble() & 8,
        (false, _) => chance.nibble() & 0b1011,
    };
}

/// Another source than is due, or none, or a number that names none.
fn spoil_due(chance: &mut Chance, record: &mut [u8]) {
    let due = record[layout::DUE];
    record[layout::DUE] = match chance.below(8) {
        0 => over(chance, 6),
        _ => (due + 1 + chance.below(5) as u8) % 6,
    };
}

fn spoil_time_base(chance: &mut Chance, record: &mut [u8]) {
    if chance.one_in(2) {
        record[layout::TIME_BASE] |= 1 << chance.below(3);
    } else {
        let bit = 22 + chance.below(10);
        record[layout::TIME_BASE + bit / 8] |= 1 << (bit % 8);
    }
}

fn spoil_word(chance: &mut Chance, record: &mut [u8]) {
    let (place, limit) = chance.pick(&[(layout::PC, 0x20), (layout::DP, 0x10), (layout::TA, 0x10), (layout::TB, 0x10)]);
    if chance.one_in(2) {
        record[place] = 0;
    }
    record[place + 1] = over(chance, limit);
}

/// P3, P5, P6, P17 or the fourth digit: anything but 0 on the EM73862.
fn spoil_added(chance: &mut Chance, device: Device, record: &mut [u8]) {
    let place = if chance.one_in(2) { layout::P3 } else { layout::P3 + chance.below(layout::RAM - layout::P3) };
    record[place] = match device {
        Device::Em73862 => 1 + chance.below(255) as u8,
        Device::Em73P982 if place == layout::P3 && !chance.one_in(3) => chance.pick(&[3, 7, 11, 15]),
        Device::Em73P982 => over(chance, if place == layout::SPEECH { 2 } else { 16 }),
    };
}

fn spoil_nibble(chance: &mut Chance, device: Device, record: &mut [u8]) {
    const P4: usize = layout::LAST_FRAME + 2;
    const NIBBLES: usize = 16;
    let place = match chance.below(NIBBLES + 3) {
        place if place < NIBBLES => place,
        place => layout::LAST_FRAME + place - NIBBLES,
    };
    let alone = place == P4 && device == Device::Em73862;
    record[place] = over(chance, if alone { 2 } else { 16 });
}

#[cfg(test)]
mod tests {
    use super::*;
    use plain::is_valid;

    #[test]
    fn spoilt_records_are_never_valid() {
        let mut chance = Chance::new(3);
        for device in Device::ALL.into_iter().cycle().take(40_000) {
            let record = spoilt(&mut chance, device);
            assert!(!layout::machine_of(&record).is_some_and(|machine| is_valid(device, &machine)), "{record:?}");
        }
    }

    #[test]
    fn the_other_records_are_valid() {
        let mut chance = Chance::new(4);
        for device in Device::ALL.into_iter().cycle().take(10_000) {
            assert!(is_valid(device, &fresh_or_valid(&mut chance, device)));
        }
    }
}

//! The record of document 01, "The record".

use crate::device::Device;
use crate::due::due_number;
use crate::frame::Frame;
use crate::numbers;
use crate::rom::{shows_no_bank, ADDRESSES};

/// "RAM: 372 nibbles, 000h to 0F3h and 100h to 17Fh."
pub const RAM_SIZE: usize = 372;
const BANK_0_SIZE: usize = 0xF4;
const BANK_1_SIZE: usize = 0x80;

/// "Time base: 22 bits, a multiple of 8."
pub const TIME_BASE_SIZE: u32 = 1 << 22;

#[derive(Clone, Copy, Debug, PartialEq, Eq)]
pub enum Mode {
    Running,
    Sleep,
    Hold,
}

/// The latches of the writable ports. P3, P5, P6 and P17 are the EM73P982's; on the EM73862 they are 0.
#[derive(Clone, Copy, Debug, PartialEq, Eq)]
pub struct Ports {
    pub p3: u8,
    pub p4: u8,
    pub p5: u8,
    pub p6: u8,
    pub p8: u8,
    pub p9: u8,
    pub p16: u8,
    pub p17: u8,
    pub p23: u8,
    pub p24: u8,
    pub p25: u8,
    pub p27: u8,
    pub p28: u8,
    pub p29: u8,
    pub p30: u8,
}

#[derive(Clone, Debug, PartialEq, Eq)]
pub struct Machine {
    pub acc: u8,
    pub hr: u8,
    pub lr: u8,
    pub sp: u8,
    pub mask: u8,
    pub pc: u16,
    pub dp: u16,
    pub ta: u16,
    pub tb: u16,
    pub cf: bool,
    pub zf: bool,
    pub sf: bool,
    pub ei: bool,
    /// IL5 to IL0 in bits 5 to 0.
    pub il: u8,
    pub time_base: u32,
    /// Bank 0 and then bank 1, without the gap between them.
    pub ram: [u8; RAM_SIZE],
    pub ports: Ports,
    pub last_frame: Frame,
    pub mode: Mode,
    /// Left by a look in sleep or hold, which was the whole step.
    pub mark: bool,
    /// The source that would be accepted were EI set: 0 none, 1 to 5 INT0, TRGA, TRGB, TBI, INT1 or, on the EM73P982, SPI.
    pub due: u8,
}

/// "Options: eight wake-enable bits (P0.0 to P0.3, P8.0 to P8.3) and SOUND enable."
#[derive(Clone, Copy, Debug, PartialEq, Eq)]
pub struct Options {
    pub device: Device,
    /// P0.0 to P0.3 in bits 0 to 3, P8.0 to P8.3 in bits 4 to 7.
    pub wake: u8,
    pub sound: bool,
}

/// "Fresh record: running, last frame FF1, SF 1, P23 and P24 at 15, P4 and P8 at 15,
/// all else 0." Of the EM73P982 the last frame is FFF0, and P17 at 15.
pub fn fresh(device: Device) -> Machine {
    Machine {
        acc: 0,
        hr: 0,
        lr: 0,
        sp: 0,
        mask: 0,
        pc: 0,
        dp: 0,
        ta: 0,
        tb: 0,
        cf: false,
        zf: false,
        sf: true,
        ei: false,
        il: 0,
        time_base: 0,
        ram: [0; RAM_SIZE],
        ports: Ports::fresh(device),
        last_frame: Frame::idle(device),
        mode: Mode::Running,
        mark: false,
        due: 0,
    }
}

/// "Reset gives this but keeps RAM, ACC, HR, LR, SP, DP, CF and ZF."
pub fn reset(device: Device, machine: &Machine) -> Result<Machine, u8> {
    if !is_valid(device, machine) {
        return Err(numbers::RECORD_RANGE);
    }
    Ok(Machine {
        ram: machine.ram,
        acc: machine.acc,
        hr: machine.hr,
        lr: machine.lr,
        sp: machine.sp,
        dp: machine.dp,
        cf: machine.cf,
        zf: machine.zf,
        ..fresh(device)
    })
}

/// Whether every part of the record is in the range that document 01 and request Q-6 give it.
pub fn is_valid(device: Device, machine: &Machine) -> bool {
    let m = machine;
    [m.acc, m.hr, m.lr, m.sp, m.mask].iter().all(|value| *value < 16)
        && (m.pc as usize) < ADDRESSES
        && [m.dp, m.ta, m.tb].iter().all(|value| *value < 4096)
        && m.il & !0b10_1111 == 0
        && m.due == due_number(m.il, m.mask)
        && m.time_base < TIME_BASE_SIZE
        && m.time_base % 8 == 0
        && m.ram.iter().all(|nibble| *nibble < 16)
        && m.last_frame.is_valid(device)
        && m.ports.are_valid(device)
        && mode_fits_p16(m.mode, m.ports.p16)
}

/// "Sleep needs P16 bit 2 set and bits 1..0 not 3; hold needs bit 2 set and bits 1..0 = 3."
fn mode_fits_p16(mode: Mode, p16: u8) -> bool {
    mode == Mode::Running || mode_entered_by(p16) == Some(mode)
}

/// "Writing P16 with bit 2 set enters hold (bits 1..0 = 3) or sleep."
pub fn mode_entered_by(p16: u8) -> Option<Mode> {
    if p16 & 0b0100 == 0 {
        None
    } else if p16 & 0b0011 == 3 {
        Some(Mode::Hold)
    } else {
        Some(Mode::Sleep)
    }
}

/// "P25 and P27 never hold 10xx."
pub fn is_reserved_setting(value: u8) -> bool {
    value >> 2 == 0b10
}

impl Ports {
    fn fresh(device: Device) -> Ports {
        let p17 = match device {
            Device::Em73862 => 0,
            Device::Em73P982 => 15,
        };
        Ports {
            p3: 0,
            p4: 15,
            p5: 0,
            p6: 0,
            p8: 15,
            p9: 0,
            p16: 0,
            p17,
            p23: 15,
            p24: 15,
            p25: 0,
            p27: 0,
            p28: 0,
            p29: 0,
            p30: 0,
        }
    }

    fn are_valid(&self, device: Device) -> bool {
        let latches =
            [self.p4, self.p8, self.p9, self.p16, self.p23, self.p24, self.p25, self.p27, self.p28, self.p29, self.p30];
        latches.iter().all(|latch| *latch < 16)
            && !is_reserved_setting(self.p25)
            && !is_reserved_setting(self.p27)
            && self.added_are_valid(device)
    }

    /// Those that request Q-6 adds: 2 for a P3 whose bits 1..0 are 3, "or one over 15". A part that the device does not have holds 0.
    fn added_are_valid(&self, device: Device) -> bool {
        let added = [self.p3, self.p5, self.p6, self.p17];
        match device {
            Device::Em73862 => added == [0; 4],
            Device::Em73P982 => added.iter().all(|latch| *latch < 16) && !shows_no_bank(self.p3),
        }
    }
}

impl Machine {
    /// P9.3, which chooses the bank.
    pub fn bank(&self) -> u8 {
        self.ports.p9 >> 3
    }

    /// "RAM by HL: bank P9.3, HR high."
    pub fn place_by_hl(&self) -> Result<usize, u8> {
        place_in_bank(self.bank(), self.hr << 4 | self.lr)
    }

    /// "Direct x: same bank."
    pub fn place_by_x(&self, x: u8) -> Result<usize, u8> {
        place_in_bank(self.bank(), x)
    }
}

/// Where in `ram` the nibble with this address in this bank is, or 31.
fn place_in_bank(bank: u8, address: u8) -> Result<usize, u8> {
    let address = address as usize;
    if bank == 0 && address < BANK_0_SIZE {
        Ok(address)
    } else if bank == 1 && address < BANK_1_SIZE {
        Ok(BANK_0_SIZE + address)
    } else {
        Err(numbers::ABSENT_RAM)
    }
}

#[cfg(test)]
mod tests {
    use super::*;

    #[test]
    fn the_last_nibbles_of_both_banks() {
        assert_eq!(place_in_bank(0, 0xF3), Ok(0xF3));
        assert_eq!(place_in_bank(0, 0xF4), Err(31));
        assert_eq!(place_in_bank(1, 0x7F), Ok(RAM_SIZE - 1));
        assert_eq!(place_in_bank(1, 0x80), Err(31));
    }

    fn refuses(device: Device, change: fn(&mut Machine)) {
        let mut machine = fresh(device);
        change(&mut machine);
        assert!(!is_valid(device, &machine), "{machine:?}");
        assert_eq!(reset(device, &machine), Err(2));
    }

    #[test]
    fn ranges() {
        let spoil: [fn(&mut Machine); 12] = [
            |m| m.acc = 16,
            |m| m.pc = 8192,
            |m| m.dp = 4096,
            |m| m.il = 0b01_0000,
            |m| m.il = 0b100_0000,
            |m| m.time_base = 4,
            |m| m.time_base = 1 << 22,
            |m| m.ram[371] = 16,
            |m| m.ports.p25 = 8,
            |m| m.ports.p27 = 11,
            |m| m.mode = Mode::Sleep,
            |m| m.due = 1,
        ];
        for device in Device::ALL {
            assert!(is_valid(device, &fresh(device)));
            spoil.into_iter().for_each(|change| refuses(device, change));
        }
    }

    #[test]
    fn modes_are_tied_to_p16() {
        for (p16, sleep, hold) in [(4, true, false), (7, false, true), (3, false, false), (14, true, false)] {
            let mut machine = fresh(Device::Em73862);
            machine.ports.p16 = p16;
            for (mode, fits) in [(Mode::Running, true), (Mode::Sleep, sleep), (Mode::Hold, hold)] {
                machine.mode = mode;
                assert_eq!(is_valid(Device::Em73862, &machine), fits);
            }
        }
    }

    #[test]
    fn what_the_em73862_does_not_have_is_0() {
        let spoil: [fn(&mut Machine); 6] = [
            |m| m.ports.p3 = 1,
            |m| m.ports.p5 = 1,
            |m| m.ports.p6 = 1,
            |m| m.ports.p17 = 15,
            |m| m.last_frame.speech = 1,
            |m| m.last_frame.p4 = 2,
        ];
        spoil.into_iter().for_each(|change| refuses(Device::Em73862, change));
    }

    #[test]
    fn what_the_em73p982_adds_has_its_ranges() {
        let spoil: [fn(&mut Machine); 9] = [
            |m| m.ports.p3 = 3,
            |m| m.ports.p3 = 15,
            |m| m.ports.p3 = 16,
            |m| m.ports.p5 = 16,
            |m| m.ports.p6 = 16,
            |m| m.ports.p17 = 16,
            |m| m.last_frame.speech = 2,
            |m| m.last_frame.p4 = 16,
            |m| m.ports.p4 = 16,
        ];
        spoil.into_iter().for_each(|change| refuses(Device::Em73P982, change));
        let mut machine = fresh(Device::Em73P982);
        (machine.ports.p3, machine.ports.p5, machine.ports.p6, machine.ports.p17) = (14, 15, 15, 0);
        (machine.last_frame.p4, machine.last_frame.speech) = (0, 1);
        assert!(is_valid(Device::Em73P982, &machine));
    }
}

//! The ports.

use crate::device::Device;
use crate::machine::{is_reserved_setting, mode_entered_by, Machine, Mode};
use crate::numbers;
use crate::rom::shows_no_bank;
use crate::surroundings::Surroundings;

impl Machine {
    /// "Readable ports: 0, 4, 8, 9." Reading or testing P4 or P8 sets the latch to 15.
    pub fn read_port(&mut self, around: &Surroundings, port: u8) -> Result<u8, u8> {
        match port {
            0 => Ok(around.frame.p0),
            4 => {
                self.ports.p4 = 15;
                Ok(p4_pins(around))
            }
            8 => {
                self.ports.p8 = 15;
                Ok(around.frame.p8)
            }
            9 => Ok(self.ports.p9),
            _ => Err(numbers::ABSENT_PORT),
        }
    }

    /// Writes a port and sets SF; or stops with 33 or 34.
    pub fn write_port(&mut self, device: Device, port: u8, value: u8) -> Result<(), u8> {
        let latch = self.latch(device, port)?;
        if is_reserved(port, value) {
            return Err(numbers::RESERVED_SETTING);
        }
        *latch = value;
        if port == 16 {
            self.save_power(value);
        }
        self.sf = true;
        Ok(())
    }

    /// "Set and clear use the latch."
    pub fn change_port_bit(&mut self, device: Device, port: u8, bit: u8, set: bool) -> Result<(), u8> {
        let old = *self.latch(device, port)?;
        let new = if set { old | 1 << bit } else { old & !(1 << bit) };
        self.write_port(device, port, new)
    }

    /// "Writable, settable and clearable: 4, 8, 9, 16, 23, 24, 25, 27 to 30." On the EM73P982 "ports 3, 5, 6 and 17 are writable".
    fn latch(&mut self, device: Device, port: u8) -> Result<&mut u8, u8> {
        let ports = &mut self.ports;
        let added = device == Device::Em73P982;
        match port {
            3 if added => Ok(&mut ports.p3),
            5 if added => Ok(&mut ports.p5),
            6 if added => Ok(&mut ports.p6),
            17 if added => Ok(&mut ports.p17),
            4 => Ok(&mut ports.p4),
            8 => Ok(&mut ports.p8),
            9 => Ok(&mut ports.p9),
            16 => Ok(&mut ports.p16),
            23 => Ok(&mut ports.p23),
            24 => Ok(&mut ports.p24),
            25 => Ok(&mut ports.p25),
            27 => Ok(&mut ports.p27),
            28 => Ok(&mut ports.p28),
            29 => Ok(&mut ports.p29),
            30 => Ok(&mut ports.p30),
            _ => Err(numbers::ABSENT_PORT),
        }
    }

    /// "Writing P16 with bit 2 set enters hold (bits 1..0 = 3) or sleep; the time base becomes 0,
    /// [..] sleep clears P27. With bit 2 clear P16 only keeps the value."
    fn save_power(&mut self, p16: u8) {
        let Some(mode) = mode_entered_by(p16) else { return };
        self.mode = mode;
        self.time_base = 0;
        if mode == Mode::Sleep {
            self.ports.p27 = 0;
        }
    }
}

/// 34: P25 and P27 with 10xx, "also when P3 bits 1..0 would become 3".
fn is_reserved(port: u8, value: u8) -> bool {
    match port {
        3 => shows_no_bank(value),
        25 | 27 => is_reserved_setting(value),
        _ => false,
    }
}

/// "P4 reads 1110 plus P4.0, or 15 with SOUND enabled." On the EM73P982 it "is read whole; bit 0 reads 1 with SOUND enabled".
fn p4_pins(around: &Surroundings) -> u8 {
    let sound = around.options.sound as u8;
    match around.options.device {
        Device::Em73862 => 0b1110 | around.frame.p4 | sound,
        Device::Em73P982 => around.frame.p4 | sound,
    }
}

//! The sound pin: the generator of P30, P23 and P24 as the request describes it, a pulse at a time.

use crate::numbers;

/// Pulses a call may take.
pub const MOST_PULSES: u32 = 65_535;

/// "48 pulses over the limit, 49 TF of zero while tone or random is on"
pub const PULSES_OVER_THE_LIMIT: u8 = 48;
pub const TF_OF_ZERO_WHILE_ON: u8 = 49;

const MOST_OF_A_PORT: u8 = 15;
const MOST_OF_A_MODE: u8 = 3;
const NINE_ONES: u16 = 0b1_1111_1111;

#[derive(Clone, Copy, Debug, PartialEq, Eq)]
pub struct Sound {
    /// P30 bits 1..0: 0 disabled, 1 tone, 2 random, 3 both.
    pub mode: u8,
    pub asleep: bool,
    pub tf: u8,
    pub count: u8,
    pub tone: bool,
    /// The last nine random bits, bit 0 the latest.
    pub bits: u16,
    /// P24 as last written.
    pub p24: u8,
}

/// "At the start the tone is high and TF 255", "nine ones at the start"; also after a reset.
pub fn sound_start() -> Sound {
    Sound { mode: 0, asleep: false, tf: 255, count: 0, tone: true, bits: NINE_ONES, p24: MOST_OF_A_PORT }
}

impl Sound {
    fn checked(self) -> Result<Sound, u8> {
        let inside = self.mode <= MOST_OF_A_MODE && self.p24 <= MOST_OF_A_PORT;
        let nine_bits = self.bits != 0 && self.bits <= NINE_ONES;
        if inside && nine_bits && self.count <= self.tf {
            Ok(self)
        } else {
            Err(numbers::RECORD_RANGE)
        }
    }

    fn taking(self, value: u8) -> Result<Sound, u8> {
        let sound = self.checked()?;
        if value > MOST_OF_A_PORT {
            return Err(numbers::RECORD_RANGE);
        }
        Ok(sound)
    }

    pub fn write_p30(self, value: u8) -> Result<Sound, u8> {
        Ok(Sound { mode: value & 3, ..self.taking(value)? })
    }

    pub fn write_p24(self, value: u8) -> Result<Sound, u8> {
        Ok(Sound { p24: value, ..self.taking(value)? })
    }

    /// "TF is taken when P23 is written, with P24 as it stands, and the count restarts"
    pub fn write_p23(self, value: u8) -> Result<Sound, u8> {
        let sound = self.taking(value)?;
        Ok(Sound { tf: sound.p24 << 4 | value, count: 0, ..sound })
    }

    pub fn sleep(self) -> Result<Sound, u8> {
        Ok(Sound { asleep: true, ..self.checked()? })
    }

    pub fn wake(self) -> Result<Sound, u8> {
        Ok(Sound { asleep: false, ..self.checked()? })
    }

    pub fn advance(self, pulses: u32) -> Result<Sound, u8> {
        let mut sound = self.checked()?;
        if pulses > MOST_PULSES {
            return Err(PULSES_OVER_THE_LIMIT);
        }
        if sound.tf == 0 && sound.mode != 0 {
            return Err(TF_OF_ZERO_WHILE_ON);
        }
        for _ in 0..pulses {
            sound.pulse();
        }
        Ok(sound)
    }

    /// "A tone toggles after every TF + 1 pulses"; "disabled or asleep nothing advances"
    fn pulse(&mut self) {
        if self.asleep || self.mode == 0 {
            return;
        }
        if self.count < self.tf {
            self.count += 1;
            return;
        }
        self.count = 0;
        self.tone = !self.tone;
        let before = |places: u32| self.bits >> (places - 1) & 1;
        let next = before(9) ^ before(5);
        self.bits = (self.bits << 1 | next) & NINE_ONES;
    }

    /// Whether the pin is high.
    pub fn output(self) -> Result<bool, u8> {
        let sound = self.checked()?;
        let random = sound.bits & 1 == 1;
        Ok(match sound.mode {
            _ if sound.asleep => true,
            0 => true,
            1 => sound.tone,
            2 => random,
            _ => sound.tone && random,
        })
    }
}

#[cfg(test)]
mod tests {
    use super::*;

    /// The sheet's example: BFREQ = 10, TF = 00110001B gives 60 kHz / 50 / 2 = 600 Hz, so a level lasts 50 pulses.
    #[test]
    fn sheet_example() {
        let sound = sound_start().write_p30(0b1001).unwrap().write_p24(0b0011).unwrap().write_p23(0b0001).unwrap();
        assert_eq!(sound.advance(49).unwrap().output(), Ok(true));
        assert_eq!(sound.advance(50).unwrap().output(), Ok(false));
        assert_eq!(sound.advance(100).unwrap().output(), Ok(true));
    }

    #[test]
    fn bits_repeat_after_511() {
        let sound = sound_start().write_p30(2).unwrap().write_p24(0).unwrap().write_p23(1).unwrap();
        let earlier = (1..511).filter(|bits| sound.advance(2 * bits).unwrap().bits == sound.bits);
        assert_eq!(earlier.count(), 0);
        assert_eq!(sound.advance(2 * 511).unwrap().bits, sound.bits);
    }
}

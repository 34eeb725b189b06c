//! The stack: four nibbles a level, at 0C0h + 4n.

use crate::machine::Machine;
use crate::numbers;

const STACK_START: usize = 0xC0;

/// The highest level: its last nibble is 0F3h.
const LAST_LEVEL: u8 = 12;

impl Machine {
    /// "A call keeps the three flag bits of its nibble."
    pub fn call(&mut self, target: u16, return_to: u16) -> Result<(), u8> {
        let level = self.level_below()?;
        let kept_flags = self.ram[place_of_level(level) + 3] & 0b1110;
        self.push(level, return_to, kept_flags);
        self.pc = target;
        Ok(())
    }

    /// "Acceptance pushes PC and flags, sets SF, clears EI and that latch."
    pub fn accept(&mut self, latch: u8, entry: u16) -> Result<(), u8> {
        let level = self.level_below()?;
        let flags = (self.cf as u8) << 1 | (self.zf as u8) << 2 | (self.sf as u8) << 3;
        self.push(level, self.pc, flags);
        self.pc = entry;
        self.sf = true;
        self.ei = false;
        self.il &= !latch;
        Ok(())
    }

    /// "RET and RTI read level SP, then raise it: 0 to 12." Gives PC and the flags' nibble.
    pub fn pop(&mut self) -> Result<(u16, u8), u8> {
        if self.sp > LAST_LEVEL {
            return Err(numbers::STACK_LEVEL);
        }
        let place = place_of_level(self.sp);
        let nibble = |offset: usize| self.ram[place + offset] as u16;
        let flags = self.ram[place + 3];
        let pc = nibble(0) | nibble(1) << 4 | nibble(2) << 8 | (nibble(3) & 1) << 12;
        self.sp += 1;
        Ok((pc, flags))
    }

    /// "A call or acceptance lowers SP first, so SP must be 1 to 13."
    fn level_below(&self) -> Result<u8, u8> {
        if (1..=LAST_LEVEL + 1).contains(&self.sp) {
            Ok(self.sp - 1)
        } else {
            Err(numbers::STACK_LEVEL)
        }
    }

    /// "PC3..0, PC7..4, PC11..8, then PC12, CF, ZF, SF from bit 0 up."
    fn push(&mut self, level: u8, pc: u16, flags: u8) {
        let place = place_of_level(level);
        self.sp = level;
        self.ram[place] = (pc & 15) as u8;
        self.ram[place + 1] = (pc >> 4 & 15) as u8;
        self.ram[place + 2] = (pc >> 8 & 15) as u8;
        self.ram[place + 3] = (pc >> 12 & 1) as u8 | flags;
    }
}

/// Stack levels are in bank 0, whatever P9.3 is.
fn place_of_level(level: u8) -> usize {
    STACK_START + 4 * level as usize
}

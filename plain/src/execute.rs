//! What each row does. Every check that can stop a row comes before its first change, so that a
//! stopped row has changed nothing.

use crate::code::Decoded;
use crate::machine::Machine;
use crate::numbers;
use crate::rom::{Rom, ADDRESSES};
use crate::rows::Row;
use crate::surroundings::Surroundings;

/// Executes one row: changes the record, or gives the number of the stop.
pub fn execute(m: &mut Machine, around: &Surroundings, decoded: Decoded) -> Result<(), u8> {
    let Decoded { row, a, b } = decoded;
    let device = around.options.device;
    let own_address = m.pc;
    let next = (m.pc + row.bytes()) % ADDRESSES as u16;
    let k = a as u8;
    let x = a as u8;
    let y = a as usize;
    match row {
        // Data transfer
        Row::Lda => m.load(m.ram[m.place_by_x(x)?]),
        Row::Ldam => m.load(m.ram[m.place_by_hl()?]),
        Row::Ldax => m.load(table_byte(around.rom, m.dp) & 15),
        Row::Ldaxi => {
            m.load(table_byte(around.rom, m.dp) >> 4);
            m.dp = (m.dp + 1) % 4096;
        }
        Row::Ldh => {
            m.hr = k;
            m.sf = true;
        }
        Row::Ldhl => {
            let low = m.place_by_x(x)?;
            let high = m.place_by_x(x + 1)?;
            m.lr = m.ram[low];
            m.hr = m.ram[high];
            m.sf = true;
        }
        Row::Ldia => m.load(k),
        Row::Ldl => {
            m.lr = k;
            m.sf = true;
        }
        Row::Sta => {
            let place = m.place_by_x(x)?;
            m.ram[place] = m.acc;
            m.sf = true;
        }
        Row::Stam => {
            let place = m.place_by_hl()?;
            m.ram[place] = m.acc;
            m.sf = true;
        }
        Row::Stamd => {
            let place = m.place_by_hl()?;
            m.ram[place] = m.acc;
            m.lr = m.difference_to_sf(m.lr, 1);
        }
        Row::Stami => {
            let place = m.place_by_hl()?;
            m.ram[place] = m.acc;
            m.lr = m.sum_to_sf(m.lr, 1);
        }
        Row::Std => {
            m.ram[b as usize] = k;
            m.sf = true;
        }
        Row::Stdmi => {
            let place = m.place_by_hl()?;
            m.ram[place] = k;
            m.lr = m.sum_to_sf(m.lr, 1);
        }
        Row::Tha => m.load(m.hr),
        Row::Tla => m.load(m.lr),

        // Rotate
        Row::Rlca => {
            let shifted_out = m.acc & 8 != 0;
            m.acc = (m.acc << 1 & 15) | m.cf as u8;
            m.rotated(shifted_out);
        }
        Row::Rrca => {
            let shifted_out = m.acc & 1 != 0;
            m.acc = m.acc >> 1 | (m.cf as u8) << 3;
            m.rotated(shifted_out);
        }

        // Arithmetic operation
        Row::Adcam => {
            let memory = m.ram[m.place_by_hl()?];
            let (sum, carry) = add(m.acc, memory, m.cf as u8);
            m.acc = sum;
            m.cf = carry;
            m.zf = sum == 0;
            m.sf = !carry;
        }
        Row::Add => m.ram[b as usize] = m.sum_to_sf(m.ram[b as usize], k),
        Row::Adda => m.acc = m.sum_to_sf(m.acc, k),
        Row::Addam => {
            let memory = m.ram[m.place_by_hl()?];
            m.acc = m.sum_to_sf(m.acc, memory);
        }
        Row::Addh => m.hr = m.sum_to_sf(m.hr, k),
        Row::Addl => m.lr = m.sum_to_sf(m.lr, k),
        Row::Addm => {
            let place = m.place_by_hl()?;
            m.ram[place] = m.sum_to_sf(m.ram[place], k);
        }
        Row::Deca => m.acc = m.difference_to_sf(m.acc, 1),
        Row::Decl => m.lr = m.difference_to_sf(m.lr, 1),
        Row::Decm => {
            let place = m.place_by_hl()?;
            m.ram[place] = m.difference_to_sf(m.ram[place], 1);
        }
        Row::Inca => m.acc = m.sum_to_sf(m.acc, 1),
        Row::Incl => m.lr = m.sum_to_sf(m.lr, 1),
        Row::Incm => {
            let place = m.place_by_hl()?;
            m.ram[place] = m.sum_to_sf(m.ram[place], 1);
        }
        Row::Suba => m.acc = m.difference_to_sf(k, m.acc),
        Row::Sbcam => {
            let memory = m.ram[m.place_by_hl()?];
            let (difference, carry) = subtract(memory, m.acc, !m.cf as u8);
            m.acc = difference;
            m.cf = carry;
            m.zf = difference == 0;
            m.sf = carry;
        }
        Row::Subm => {
            let place = m.place_by_hl()?;
            m.ram[place] = m.difference_to_sf(k, m.ram[place]);
        }

        // Logical operation
        Row::Anda => m.acc = m.logic(m.acc & k),
        Row::Andam => m.acc = m.logic(m.acc & m.ram[m.place_by_hl()?]),
        Row::Andm => {
            let place = m.place_by_hl()?;
            m.ram[place] = m.logic(m.ram[place] & k);
        }
        Row::Ora => m.acc = m.logic(m.acc | k),
        Row::Oram => m.acc = m.logic(m.acc | m.ram[m.place_by_hl()?]),
        Row::Orm => {
            let place = m.place_by_hl()?;
            m.ram[place] = m.logic(m.ram[place] | k);
        }
        Row::Xoram => m.acc = m.logic(m.acc ^ m.ram[m.place_by_hl()?]),

        // Exchange
        Row::Exa => {
            let place = m.place_by_x(x)?;
            m.exchange_with_ram(place);
        }
        Row::Exah => {
            let received = m.hr;
            m.hr = m.acc;
            m.load(received);
        }
        Row::Exal => {
            let received = m.lr;
            m.lr = m.acc;
            m.load(received);
        }
        Row::Exam => {
            let place = m.place_by_hl()?;
            m.exchange_with_ram(place);
        }
        Row::Exhl => {
            let low = m.place_by_x(x)?;
            let high = m.place_by_x(x + 1)?;
            std::mem::swap(&mut m.lr, &mut m.ram[low]);
            std::mem::swap(&mut m.hr, &mut m.ram[high]);
            m.sf = true;
        }

        // Branch
        Row::Sbr | Row::Lbr | Row::Slbr => return m.branch(branch_target(row, a, own_address), next),

        // Compare
        Row::Cmp => m.compare_with_carry(k, m.ram[b as usize]),
        Row::Cpma => m.compare_with_carry(m.ram[m.place_by_x(x)?], m.acc),
        Row::Cmpam => m.compare_with_carry(m.ram[m.place_by_hl()?], m.acc),
        Row::Cmph => {
            m.difference_to_sf(k, m.hr);
        }
        Row::Cmpia => m.compare_with_carry(k, m.acc),
        Row::Cmpl => {
            m.difference_to_sf(k, m.lr);
        }

        // Bit manipulation
        Row::Clm => {
            let place = m.place_by_hl()?;
            m.ram[place] = with_bit(m.ram[place], a as u8, false);
            m.sf = true;
        }
        Row::Sem => {
            let place = m.place_by_hl()?;
            m.ram[place] = with_bit(m.ram[place], a as u8, true);
            m.sf = true;
        }
        Row::Clr => {
            m.ram[y] = with_bit(m.ram[y], b as u8, false);
            m.sf = true;
        }
        Row::Set => {
            m.ram[y] = with_bit(m.ram[y], b as u8, true);
            m.sf = true;
        }
        Row::Clp => m.change_port_bit(device, a as u8, b as u8, false)?,
        Row::Sep => m.change_port_bit(device, a as u8, b as u8, true)?,
        Row::Clpl => m.change_port_bit(device, m.port_by_lr(), m.bit_by_lr(), false)?,
        Row::Sepl => m.change_port_bit(device, m.port_by_lr(), m.bit_by_lr(), true)?,
        Row::Tf => m.sf = !bit_of(m.ram[y], b as u8),
        Row::Tt => m.sf = bit_of(m.ram[y], b as u8),
        Row::Tfa => m.sf = !bit_of(m.acc, a as u8),
        Row::Tfm => m.sf = !bit_of(m.ram[m.place_by_hl()?], a as u8),
        Row::Tfp => m.sf = !bit_of(m.read_port(around, a as u8)?, b as u8),
        Row::Ttp => m.sf = bit_of(m.read_port(around, a as u8)?, b as u8),
        Row::Tfpl => {
            let bit = m.bit_by_lr();
            m.sf = !bit_of(m.read_port(around, m.port_by_lr())?, bit);
        }

        // Subroutine
        Row::Lcall => return m.call(a, next),
        Row::Scall => return m.call(short_call_target(a), next),
        Row::Ret => {
            let (pc, _) = m.pop()?;
            m.pc = pc;
            return Ok(());
        }

        // Input/output
        Row::Ina => {
            let value = m.read_port(around, a as u8)?;
            m.acc = m.logic(value);
        }
        Row::Inm => {
            let place = m.place_by_hl()?;
            let value = m.read_port(around, a as u8)?;
            m.ram[place] = value;
            m.sf = value != 0;
        }
        Row::Out => m.write_port(device, b as u8, k)?,
        Row::Outa => m.write_port(device, a as u8, m.acc)?,
        Row::Outm => m.write_port(device, a as u8, m.ram[m.place_by_hl()?])?,

        // Flag manipulation
        Row::Tfcfc => {
            m.sf = !m.cf;
            m.cf = false;
        }
        Row::Ttcfs => {
            m.sf = m.cf;
            m.cf = true;
        }
        Row::Tzs => m.sf = m.zf,

        // Interrupt control
        Row::Cil => m.keep_latches(a as u8),
        Row::Dicil => {
            m.ei = false;
            m.keep_latches(a as u8);
        }
        Row::Eicil => {
            m.ei = true;
            m.keep_latches(a as u8);
        }
        Row::Exae => {
            std::mem::swap(&mut m.mask, &mut m.acc);
            m.sf = true;
        }
        Row::Rti => {
            let (pc, flags) = m.pop()?;
            m.pc = pc;
            m.cf = bit_of(flags, 1);
            m.zf = bit_of(flags, 2);
            m.sf = bit_of(flags, 3);
            m.ei = true;
            return Ok(());
        }

        // CPU control
        Row::Nop => {}

        // Timer/counter, data pointer and stack pointer control
        Row::Ldadpl => m.load_special(nibble_of(m.dp, 0))?,
        Row::Ldadpm => m.load_special(nibble_of(m.dp, 1))?,
        Row::Ldadph => m.load_special(nibble_of(m.dp, 2))?,
        Row::Ldasp => m.load_special(m.sp)?,
        Row::Ldatal => m.load_special(nibble_of(m.ta, 0))?,
        Row::Ldatam => m.load_special(nibble_of(m.ta, 1))?,
        Row::Ldatah => m.load_special(nibble_of(m.ta, 2))?,
        Row::Ldatbl => m.load_special(nibble_of(m.tb, 0))?,
        Row::Ldatbm => m.load_special(nibble_of(m.tb, 1))?,
        Row::Ldatbh => m.load_special(nibble_of(m.tb, 2))?,
        Row::Stadpl => m.dp = m.store_special(m.dp, 0)?,
        Row::Stadpm => m.dp = m.store_special(m.dp, 1)?,
        Row::Stadph => m.dp = m.store_special(m.dp, 2)?,
        Row::Stasp => m.sp = m.store_special(0, 0)? as u8,
        Row::Statal => m.ta = m.store_special(m.ta, 0)?,
        Row::Statam => m.ta = m.store_special(m.ta, 1)?,
        Row::Statah => m.ta = m.store_special(m.ta, 2)?,
        Row::Statbl => m.tb = m.store_special(m.tb, 0)?,
        Row::Statbm => m.tb = m.store_special(m.tb, 1)?,
        Row::Statbh => m.tb = m.store_special(m.tb, 2)?,
    }
    m.pc = next;
    Ok(())
}

/// "SBR keeps PC bits 12..6 and LBR bit 12 of its own first byte." SLBR names the whole address.
pub fn branch_target(row: Row, field: u16, own_address: u16) -> u16 {
    match row {
        Row::Sbr => (own_address & !0x3F) | field,
        Row::Lbr => (own_address & 0x1000) | field,
        _ => field,
    }
}

/// A sum of nibbles, and whether it has a carry.
pub fn add(left: u8, right: u8, carry_in: u8) -> (u8, bool) {
    let sum = left + right + carry_in;
    (sum & 15, sum > 15)
}

/// A difference of nibbles, and its carry: clear when there is a borrow.
pub fn subtract(left: u8, right: u8, borrow_in: u8) -> (u8, bool) {
    let difference = 16 + left - right - borrow_in;
    (difference & 15, difference > 15)
}

/// "LDAX reads ROM at 1000h + DP", and "table reads use the same window".
fn table_byte(rom: Rom, dp: u16) -> u8 {
    rom.byte(0x1000 + dp)
}

/// "SCALL n: 8n + 6, but 86h for n = 0."
pub fn short_call_target(n: u16) -> u16 {
    if n == 0 {
        0x86
    } else {
        8 * n + 6
    }
}

fn bit_of(value: u8, bit: u8) -> bool {
    value >> bit & 1 != 0
}

fn with_bit(value: u8, bit: u8, set: bool) -> u8 {
    if set {
        value | 1 << bit
    } else {
        value & !(1 << bit)
    }
}

fn nibble_of(value: u16, place: u16) -> u8 {
    (value >> (4 * place) & 15) as u8
}

impl Machine {
    /// Gives ACC a value: Z of the value moved, SF 1.
    fn load(&mut self, value: u8) {
        self.acc = value;
        self.zf = value == 0;
        self.sf = true;
    }

    fn exchange_with_ram(&mut self, place: usize) {
        let received = self.ram[place];
        self.ram[place] = self.acc;
        self.load(received);
    }

    /// C, Z and S (C') of a rotation.
    fn rotated(&mut self, shifted_out: bool) {
        self.cf = shifted_out;
        self.zf = self.acc == 0;
        self.sf = !shifted_out;
    }

    /// A sum with Z, and C' in the S column.
    fn sum_to_sf(&mut self, left: u8, right: u8) -> u8 {
        let (sum, carry) = add(left, right, 0);
        self.zf = sum == 0;
        self.sf = !carry;
        sum
    }

    /// A difference with Z, and C in the S column.
    fn difference_to_sf(&mut self, left: u8, right: u8) -> u8 {
        let (difference, carry) = subtract(left, right, 0);
        self.zf = difference == 0;
        self.sf = carry;
        difference
    }

    /// A comparison with C, Z, and Z' in the S column.
    fn compare_with_carry(&mut self, left: u8, right: u8) {
        let (difference, carry) = subtract(left, right, 0);
        self.cf = carry;
        self.zf = difference == 0;
        self.sf = difference != 0;
    }

    /// A value with Z, and Z' in the S column.
    fn logic(&mut self, value: u8) -> u8 {
        self.zf = value == 0;
        self.sf = value != 0;
        value
    }

    /// "A branch sets SF, taken or not."
    fn branch(&mut self, target: u16, next: u16) -> Result<(), u8> {
        self.pc = if self.sf { target } else { next };
        self.sf = true;
        Ok(())
    }

    fn keep_latches(&mut self, r: u8) {
        self.il &= r;
        self.sf = true;
    }

    /// "Timer, DP and SP rows need P9.3 = 0, else 31."
    fn check_bank_0(&self) -> Result<(), u8> {
        if self.bank() == 0 {
            Ok(())
        } else {
            Err(numbers::ABSENT_RAM)
        }
    }

    fn load_special(&mut self, value: u8) -> Result<(), u8> {
        self.check_bank_0()?;
        self.load(value);
        Ok(())
    }

    /// The value with ACC in the place of one of its nibbles; SF 1.
    fn store_special(&mut self, value: u16, place: u16) -> Result<u16, u8> {
        self.check_bank_0()?;
        self.sf = true;
        let shift = 4 * place;
        Ok((value & !(15 << shift)) | (self.acc as u16) << shift)
    }

    /// CLPL, SEPL and TFPL: PORT[LR3-2 + 4], bit LR1-0.
    fn port_by_lr(&self) -> u8 {
        (self.lr >> 2) + 4
    }

    fn bit_by_lr(&self) -> u8 {
        self.lr & 3
    }
}

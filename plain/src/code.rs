//! The reader and the writer of single instructions.

use crate::device::Device;
use crate::numbers;
use crate::rom::{given_p3, whole_image, Rom, ADDRESSES};
use crate::rows::Row;

/// An instruction in numbers: a row from 1 to 107, and its operands in the order in which its
/// mnemonic names them. An operand that the row does not have is 0.
#[derive(Clone, Copy, Debug, PartialEq, Eq)]
pub struct Insn {
    pub row: u8,
    pub a: u16,
    pub b: u16,
}

/// An instruction as the step sees it.
#[derive(Clone, Copy, Debug, PartialEq, Eq)]
pub struct Decoded {
    pub row: Row,
    pub a: u16,
    pub b: u16,
}

impl Decoded {
    pub fn insn(self) -> Insn {
        Insn { row: self.row.number(), a: self.a, b: self.b }
    }
}

/// The instruction at an address, through the window of a P3. Refuses with 1, 2, 20, 30 and 35.
pub fn read(device: Device, image: &[u8], p3: u32, address: usize) -> Result<Insn, u8> {
    let image = whole_image(device, image)?;
    let rom = image.through(given_p3(device, p3)?);
    if address >= ADDRESSES {
        return Err(numbers::ADDRESS);
    }
    let decoded = fetch(rom, address as u16)?;
    Ok(decoded.insn())
}

/// The bytes of an instruction. Refuses with 11: "operand outside its field, or the code is
/// unassigned or another row's".
pub fn write(insn: Insn) -> Result<Vec<u8>, u8> {
    let code = encode(insn).ok_or(numbers::WRITER)?;
    let mut three_bytes = [0; 3];
    three_bytes[..code.len()].copy_from_slice(&code);
    match decode(three_bytes) {
        Some(decoded) if decoded.insn() == insn => Ok(code),
        _ => Err(numbers::WRITER),
    }
}

/// The instruction at an address, or 30 or 35. "On the EM73P982 the end means address 1FFFh."
pub fn fetch(rom: Rom, address: u16) -> Result<Decoded, u8> {
    let first = rom.byte(address);
    match ADDRESSES as u16 - address {
        1 => fetch_last(1, (0..=255).find_map(|second| decode([first, second, 0]))),
        2 => fetch_last(2, decode([first, rom.byte(address + 1), 0])),
        _ => decode([first, rom.byte(address + 1), rom.byte(address + 2)]).ok_or(numbers::UNASSIGNED),
    }
}

/// 35: "given when the bytes left before the end are too few but still begin some row; when they begin none it is 30 as
/// before." What the bytes begin is told by any bytes that would follow them; of three bytes is only SLBR, which takes any
/// third.
fn fetch_last(left: u16, begun: Option<Decoded>) -> Result<Decoded, u8> {
    match begun {
        None => Err(numbers::UNASSIGNED),
        Some(decoded) if decoded.row.bytes() > left => Err(numbers::PAST_END),
        Some(decoded) => Ok(decoded),
    }
}

/// Puts the operands in the letters of the row's code.
fn encode(insn: Insn) -> Option<Vec<u8>> {
    let sheet = Row::from_number(insn.row)?.sheet();
    let mut fields = Vec::new();
    let mut letters = sheet.operands.chars();
    for operand in [insn.a, insn.b] {
        match letters.next() {
            Some(letter) => fields.push((letter, field_of(sheet.row, operand)?)),
            None if operand == 0 => {}
            None => return None,
        }
    }
    let mut code = Vec::new();
    for bit in sheet.code.chars().rev().filter(|c| *c != ' ') {
        code.push(match bit {
            '0' => 0,
            '1' => 1,
            letter => take_low_bit(&mut fields, letter),
        });
    }
    if fields.iter().any(|(_, rest)| *rest != 0) {
        return None;
    }
    code.reverse();
    let mut bytes: Vec<u8> = code.chunks(8).map(byte_of_bits).collect();
    if sheet.row == Row::Slbr {
        bytes[0] = if insn.a >= 0x1000 { 0x55 } else { 0x57 };
    }
    Some(bytes)
}

/// What stands in the letters for an operand: of LDHL and EXHL x without its two zeros, of SLBR
/// a without the bit that chooses the first byte.
fn field_of(row: Row, operand: u16) -> Option<u16> {
    match row {
        Row::Ldhl | Row::Exhl => (operand % 4 == 0).then_some(operand / 4),
        Row::Slbr => (operand < 0x2000).then_some(operand % 0x1000),
        _ => Some(operand),
    }
}

fn take_low_bit(fields: &mut [(char, u16)], letter: char) -> u8 {
    for (name, value) in fields {
        if *name == letter {
            let bit = *value & 1;
            *value >>= 1;
            return bit as u8;
        }
    }
    0
}

fn byte_of_bits(bits: &[u8]) -> u8 {
    bits.iter().fold(0, |byte, bit| byte << 1 | bit)
}

/// The instruction with which these three bytes begin; none where the code is unassigned.
pub fn decode(code: [u8; 3]) -> Option<Decoded> {
    let [first, second, third] = code;
    let low = (first & 15) as u16;
    let bit = (first & 3) as u16;
    let high_of_second = (second >> 4) as u16;
    let low_of_second = (second & 15) as u16;
    match first {
        0x00..=0x3F => one(Row::Sbr, (first & 0x3F) as u16),
        0x40..=0x47 => one(Row::Lcall, (low & 7) << 8 | second as u16),
        0x48 => two(Row::Std, high_of_second, low_of_second),
        0x49 => two(Row::Add, high_of_second, low_of_second),
        0x4A => two(Row::Out, high_of_second, low_of_second),
        0x4B => two(Row::Cmp, high_of_second, low_of_second),
        0x4C => pair_at(Row::Exhl, second),
        0x4D => none(Row::Rti),
        0x4E => pair_at(Row::Ldhl, second),
        0x4F => none(Row::Ret),
        0x50 => none(Row::Rlca),
        0x51 => none(Row::Rrca),
        0x52 => none(Row::Ttcfs),
        0x53 => none(Row::Tfcfc),
        0x54 => None,
        0x55 => long_branch(0x1000, second, third),
        0x56 => none(Row::Nop),
        0x57 => long_branch(0x0000, second, third),
        0x58 => none(Row::Exam),
        0x59 => none(Row::Stam),
        0x5A => none(Row::Ldam),
        0x5B => none(Row::Tzs),
        0x5C => none(Row::Deca),
        0x5D => none(Row::Decm),
        0x5E => none(Row::Inca),
        0x5F => none(Row::Incm),
        0x60 => none(Row::Clpl),
        0x61 => none(Row::Tfpl),
        0x62 => none(Row::Sepl),
        0x63 => decode_latches(second),
        0x64 => none(Row::Exal),
        0x65 => none(Row::Ldax),
        0x66 => none(Row::Exah),
        0x67 => none(Row::Ldaxi),
        0x68 => direct(Row::Exa, second),
        0x69 => decode_store(second),
        0x6A => decode_load(second),
        0x6B => direct(Row::Cpma, second),
        0x6C => decode_zero_page_bit(second),
        0x6D => decode_port_bit(second),
        0x6E => decode_immediate(second),
        0x6F => decode_input_output(second),
        0x70 => none(Row::Adcam),
        0x71 => none(Row::Addam),
        0x72 => none(Row::Sbcam),
        0x73 => none(Row::Cmpam),
        0x74 => none(Row::Tla),
        0x75 => none(Row::Exae),
        0x76 => none(Row::Tha),
        0x77 => None,
        0x78 => none(Row::Oram),
        0x79 => none(Row::Xoram),
        0x7A => None,
        0x7B => none(Row::Andam),
        0x7C => none(Row::Decl),
        0x7D => none(Row::Stamd),
        0x7E => none(Row::Incl),
        0x7F => none(Row::Stami),
        0x80..=0x8F => one(Row::Ldl, low),
        0x90..=0x9F => one(Row::Ldh, low),
        0xA0..=0xAF => one(Row::Stdmi, low),
        0xB0..=0xBF => one(Row::Cmpia, low),
        0xC0..=0xCF => one(Row::Lbr, low << 8 | second as u16),
        0xD0..=0xDF => one(Row::Ldia, low),
        0xE0..=0xEF => one(Row::Scall, low),
        0xF0..=0xF3 => one(Row::Clm, bit),
        0xF4..=0xF7 => one(Row::Sem, bit),
        0xF8..=0xFB => one(Row::Tfa, bit),
        0xFC..=0xFF => one(Row::Tfm, bit),
    }
}

fn none(row: Row) -> Option<Decoded> {
    two(row, 0, 0)
}

fn one(row: Row, a: u16) -> Option<Decoded> {
    two(row, a, 0)
}

fn two(row: Row, a: u16, b: u16) -> Option<Decoded> {
    Some(Decoded { row, a, b })
}

/// "A direct x of F4h or more that no such row names is unassigned."
fn direct(row: Row, x: u8) -> Option<Decoded> {
    if x < 0xF4 {
        one(row, x as u16)
    } else {
        None
    }
}

/// LDHL and EXHL: xxxx xx00.
fn pair_at(row: Row, x: u8) -> Option<Decoded> {
    if x % 4 == 0 {
        direct(row, x)
    } else {
        None
    }
}

/// "SLBR: 55h goes to the upper 4 KiB, 57h to the lower, second byte 1100 aaaa."
fn long_branch(half: u16, second: u8, third: u8) -> Option<Decoded> {
    if second >> 4 == 0b1100 {
        one(Row::Slbr, half | (second as u16 & 15) << 8 | third as u16)
    } else {
        None
    }
}

fn decode_latches(second: u8) -> Option<Decoded> {
    let r = (second & 0b11_1111) as u16;
    match second >> 6 {
        0b01 => one(Row::Eicil, r),
        0b10 => one(Row::Dicil, r),
        0b11 => one(Row::Cil, r),
        _ => None,
    }
}

/// "A row with more bits fixed wins over a wider one."
fn decode_store(second: u8) -> Option<Decoded> {
    match second {
        0xF4 => none(Row::Statal),
        0xF5 => none(Row::Statam),
        0xF6 => none(Row::Statah),
        0xF8 => none(Row::Statbl),
        0xF9 => none(Row::Statbm),
        0xFA => none(Row::Statbh),
        0xFC => none(Row::Stadpl),
        0xFD => none(Row::Stadpm),
        0xFE => none(Row::Stadph),
        0xFF => none(Row::Stasp),
        x => direct(Row::Sta, x),
    }
}

fn decode_load(second: u8) -> Option<Decoded> {
    match second {
        0xF4 => none(Row::Ldatal),
        0xF5 => none(Row::Ldatam),
        0xF6 => none(Row::Ldatah),
        0xF8 => none(Row::Ldatbl),
        0xF9 => none(Row::Ldatbm),
        0xFA => none(Row::Ldatbh),
        0xFC => none(Row::Ldadpl),
        0xFD => none(Row::Ldadpm),
        0xFE => none(Row::Ldadph),
        0xFF => none(Row::Ldasp),
        x => direct(Row::Lda, x),
    }
}

fn decode_zero_page_bit(second: u8) -> Option<Decoded> {
    let row = match second >> 6 {
        0b00 => Row::Tf,
        0b01 => Row::Set,
        0b10 => Row::Tt,
        _ => Row::Clr,
    };
    two(row, (second & 15) as u16, (second >> 4 & 3) as u16)
}

fn decode_port_bit(second: u8) -> Option<Decoded> {
    let row = match second >> 6 {
        0b00 => Row::Tfp,
        0b01 => Row::Sep,
        0b10 => Row::Ttp,
        _ => Row::Clp,
    };
    two(row, (second & 15) as u16, (second >> 4 & 3) as u16)
}

fn decode_immediate(second: u8) -> Option<Decoded> {
    let row = match second >> 4 {
        0b0001 => Row::Addl,
        0b0011 => Row::Cmpl,
        0b0100 => Row::Ora,
        0b0101 => Row::Adda,
        0b0110 => Row::Anda,
        0b0111 => Row::Suba,
        0b1001 => Row::Addh,
        0b1011 => Row::Cmph,
        0b1100 => Row::Orm,
        0b1101 => Row::Addm,
        0b1110 => Row::Andm,
        0b1111 => Row::Subm,
        _ => return None,
    };
    one(row, (second & 15) as u16)
}

fn decode_input_output(second: u8) -> Option<Decoded> {
    let five_bits = (second & 31) as u16;
    let four_bits = (second & 15) as u16;
    match second >> 4 {
        0b0000 | 0b0001 => one(Row::Outa, five_bits),
        0b0100 => one(Row::Ina, four_bits),
        0b1000 | 0b1001 => one(Row::Outm, five_bits),
        0b1100 => one(Row::Inm, four_bits),
        _ => None,
    }
}

#[cfg(test)]
mod tests {
    use super::*;
    use crate::rom::IMAGE_SIZE;
    use crate::rows::SHEET;

    fn read(image: &[u8], address: usize) -> Result<Insn, u8> {
        super::read(Device::Em73862, image, 0, address)
    }

    #[test]
    fn as_many_pairs_are_assigned_as_the_readings_count() {
        let mut assigned = 0;
        for first in 0..=255 {
            for second in 0..=255 {
                assigned += decode([first, second, 0]).is_some() as u32;
            }
        }
        assert_eq!(assigned, 63_582);
    }

    #[test]
    fn what_is_read_is_written_back() {
        for first in 0..=255u8 {
            for second in 0..=255u8 {
                for third in [0, 0x5A, 0xFF] {
                    let code = [first, second, third];
                    let Some(decoded) = decode(code) else { continue };
                    let length = decoded.row.bytes() as usize;
                    assert_eq!(write(decoded.insn()), Ok(code[..length].to_vec()));
                }
            }
        }
    }

    #[test]
    fn what_is_written_is_read_back() {
        let mut written = [false; 108];
        for sheet in &SHEET {
            for a in 0..=0x2100 {
                let highest_b = if a < 20 { 17 } else { 0 };
                for b in 0..=highest_b {
                    let insn = Insn { row: sheet.row.number(), a, b };
                    let Ok(code) = write(insn) else { continue };
                    assert_eq!(code.len(), sheet.bytes as usize);
                    let mut image = [0x54; IMAGE_SIZE];
                    image[..code.len()].copy_from_slice(&code);
                    assert_eq!(read(&image, 0), Ok(insn));
                    written[sheet.row.number() as usize] = true;
                }
            }
        }
        assert_eq!(written.iter().filter(|w| **w).count(), 107);
    }

    #[test]
    fn the_writer_refuses() {
        let lda = Row::Lda.number();
        let refused = [
            (0, 0, 0),
            (108, 0, 0),
            (lda, 0xF4, 0),
            (lda, 0xF7, 0),
            (lda, 256, 0),
            (lda, 0, 1),
            (Row::Ldam.number(), 1, 0),
            (Row::Ldhl.number(), 0x41, 0),
            (Row::Ldhl.number(), 0xF4, 0),
            (Row::Slbr.number(), 0x2000, 0),
            (Row::Std.number(), 16, 0),
            (Row::Std.number(), 0, 16),
            (Row::Sep.number(), 9, 4),
        ];
        for (row, a, b) in refused {
            assert_eq!(write(Insn { row, a, b }), Err(11));
        }
        assert_eq!(write(Insn { row: Row::Sep.number(), a: 9, b: 3 }), Ok(vec![0x6D, 0x79]));
        assert_eq!(write(Insn { row: Row::Slbr.number(), a: 0x1234, b: 0 }), Ok(vec![0x55, 0xC2, 0x34]));
        assert_eq!(write(Insn { row: Row::Slbr.number(), a: 0x0234, b: 0 }), Ok(vec![0x57, 0xC2, 0x34]));
    }

    #[test]
    fn the_reader_refuses_in_the_tables_order() {
        assert_eq!(read(&[0x54; 8191], 8192), Err(1));
        assert_eq!(read(&[0x54; 8192], 8192), Err(20));
        assert_eq!(read(&[0x54; 8192], 8191), Err(30));
    }

    #[test]
    fn the_fetch_ends_with_the_image() {
        let at_the_end = |bytes: &[u8]| {
            let mut image = [0; IMAGE_SIZE];
            image[IMAGE_SIZE - bytes.len()..].copy_from_slice(bytes);
            read(&image, IMAGE_SIZE - bytes.len())
        };
        assert_eq!(at_the_end(&[0xC1]), Err(35));
        assert_eq!(at_the_end(&[0x55]), Err(35));
        assert_eq!(at_the_end(&[0x54]), Err(30));
        assert_eq!(at_the_end(&[0x56]), Ok(Insn { row: Row::Nop.number(), a: 0, b: 0 }));
        assert_eq!(at_the_end(&[0x55, 0xC0]), Err(35));
        assert_eq!(at_the_end(&[0x55, 0x00]), Err(30));
        assert_eq!(at_the_end(&[0x68, 0xF4]), Err(30));
        assert_eq!(at_the_end(&[0xC1, 0x23]), Ok(Insn { row: Row::Lbr.number(), a: 0x123, b: 0 }));
        assert_eq!(at_the_end(&[0x57, 0xC1, 0x23]), Ok(Insn { row: Row::Slbr.number(), a: 0x123, b: 0 }));
    }
}

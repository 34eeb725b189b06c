//! Images as Intel HEX: document 02, Q-3, by the size of the device's image.

use crate::device::Device;
use crate::numbers;

// Document 02's refusals.
const MALFORMED_LINE: u8 = 40;
const RECORD_SUM: u8 = 41;
const RECORD_TYPE: u8 = 42;
const PAST_THE_IMAGE: u8 = 43;
const GIVEN_TWICE: u8 = 44;
const END_MISSING_OR_TEXT_AFTER: u8 = 45;
const OUTPUT_BUFFER: u8 = 46;

const BYTES_A_RECORD: usize = 16;
const DATA: u8 = 0;
const END: u8 = 1;

/// A refusal, and the line that it speaks of; 0 where it speaks of no line.
#[derive(Clone, Copy, Debug, PartialEq, Eq)]
pub struct HexRefusal {
    pub number: u8,
    pub line: usize,
}

enum Record {
    Data { address: usize, bytes: Vec<u8> },
    End,
}

/// A text's characters: 512 records of 44, for the EM73P982 twice as many, and the end record's 12.
pub fn text_size(device: Device) -> usize {
    device.image_size() / BYTES_A_RECORD * 44 + 12
}

/// "A refused read leaves the image buffer unchanged."
pub fn read_hex(device: Device, text: &[u8], image: &mut [u8]) -> Result<(), HexRefusal> {
    if image.len() != device.image_size() {
        return Err(HexRefusal { number: numbers::IMAGE_SIZE, line: 0 });
    }
    let cells = read_cells(device, text)?;
    for (byte, cell) in image.iter_mut().zip(cells) {
        *byte = cell.unwrap_or(0xFF);
    }
    Ok(())
}

/// The bytes that the text mentions, by address.
fn read_cells(device: Device, text: &[u8]) -> Result<Vec<Option<u8>>, HexRefusal> {
    let mut cells = vec![None; device.image_size()];
    let mut ended = false;
    let mut line = 0;
    for characters in text.split_inclusive(|&c| c == b'\n') {
        line += 1;
        let refuse = |number| HexRefusal { number, line };
        if ended {
            return Err(refuse(END_MISSING_OR_TEXT_AFTER));
        }
        match read_record(without_ending(characters)).map_err(refuse)? {
            Record::End => ended = true,
            Record::Data { address, bytes } => take(&mut cells, address, &bytes).map_err(refuse)?,
        }
    }
    if ended {
        Ok(cells)
    } else {
        Err(HexRefusal { number: END_MISSING_OR_TEXT_AFTER, line: line + 1 })
    }
}

/// "lines ending in LF or CRLF, the last perhaps in none"
fn without_ending(line: &[u8]) -> &[u8] {
    match line.strip_suffix(b"\n") {
        Some(rest) => rest.strip_suffix(b"\r").unwrap_or(rest),
        None => line,
    }
}

fn digit(character: u8) -> Option<u8> {
    (character as char).to_digit(16).map(|value| value as u8)
}

fn read_record(line: &[u8]) -> Result<Record, u8> {
    let digits = line.strip_prefix(b":").ok_or(MALFORMED_LINE)?;
    if digits.len() % 2 != 0 {
        return Err(MALFORMED_LINE);
    }
    let pairs = digits.chunks_exact(2).map(|pair| Some(digit(pair[0])? << 4 | digit(pair[1])?));
    let bytes = pairs.collect::<Option<Vec<u8>>>().ok_or(MALFORMED_LINE)?;
    let (Some(&count), Some(&kind)) = (bytes.first(), bytes.get(3)) else {
        return Err(MALFORMED_LINE);
    };
    if bytes.len() != count as usize + 5 || (kind == END && count != 0) {
        return Err(MALFORMED_LINE);
    }
    if bytes.iter().fold(0u8, |sum, &byte| sum.wrapping_add(byte)) != 0 {
        return Err(RECORD_SUM);
    }
    match kind {
        DATA => Ok(Record::Data {
            address: u16::from_be_bytes([bytes[1], bytes[2]]) as usize,
            bytes: bytes[4..bytes.len() - 1].to_vec(),
        }),
        END => Ok(Record::End),
        _ => Err(RECORD_TYPE),
    }
}

fn take(cells: &mut [Option<u8>], address: usize, bytes: &[u8]) -> Result<(), u8> {
    if bytes.is_empty() {
        return Ok(());
    }
    let taken = cells.get_mut(address..address + bytes.len()).ok_or(PAST_THE_IMAGE)?;
    if taken.iter().any(Option::is_some) {
        return Err(GIVEN_TWICE);
    }
    for (cell, &byte) in taken.iter_mut().zip(bytes) {
        *cell = Some(byte);
    }
    Ok(())
}

/// Whether bytes are a state of a text in chunks, within the ranges that include/em73862_hex.h says.
pub fn is_hex_state(bytes: &[u8]) -> bool {
    if bytes.len() != 550 {
        return false;
    }
    let number = |at: usize| bytes[at..at + 8].iter().rev().fold(0u64, |sum, &byte| sum << 8 | u64::from(byte));
    let told = bytes[538] != 2 || (MALFORMED_LINE..=END_MISSING_OR_TEXT_AFTER).contains(&bytes[539]);
    number(522) <= 523 && number(530) >= 1 && bytes[538] <= 2 && told && bytes[548] <= 1 && bytes[549] <= 1
}

/// "512 records of sixteen bytes in address order and the end record, upper case, LF"; later bytes stay.
pub fn write_hex(device: Device, image: &[u8], text: &mut [u8]) -> Result<(), u8> {
    if image.len() != device.image_size() {
        return Err(numbers::IMAGE_SIZE);
    }
    let size = text_size(device);
    if text.len() < size {
        return Err(OUTPUT_BUFFER);
    }
    let mut written = String::with_capacity(size);
    for (place, bytes) in image.chunks_exact(BYTES_A_RECORD).enumerate() {
        written += &hex_record(BYTES_A_RECORD * place, DATA, bytes);
    }
    written += &hex_record(0, END, &[]);
    text[..size].copy_from_slice(written.as_bytes());
    Ok(())
}

/// A record's line, with LF.
pub fn hex_record(address: usize, kind: u8, bytes: &[u8]) -> String {
    let [high, low] = (address as u16).to_be_bytes();
    let mut fields = vec![bytes.len() as u8, high, low, kind];
    fields.extend(bytes);
    fields.push(fields.iter().fold(0u8, |sum, &byte| sum.wrapping_sub(byte)));
    let digits: String = fields.iter().map(|byte| format!("{byte:02X}")).collect();
    format!(":{digits}\n")
}

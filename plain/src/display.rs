//! The display's dots.

use crate::device::Device;
use crate::machine::{is_valid, Machine};
use crate::numbers;

pub const DISPLAY_SIZE: usize = 40;
const ROWS: usize = 8;
const BYTES_A_ROW: usize = 5;
const DISPLAY_START: usize = 0x20;

/// "Forty bytes, five a row, low nibble first; all zero unless P27 is 11xx. Later bytes stay."
/// Refuses with 2 and 5.
pub fn display(device: Device, machine: &Machine, buffer: &mut [u8]) -> Result<(), u8> {
    if !is_valid(device, machine) {
        return Err(numbers::RECORD_RANGE);
    }
    if buffer.len() < DISPLAY_SIZE {
        return Err(numbers::DISPLAY_BUFFER);
    }
    let enabled = machine.ports.p27 >> 2 == 0b11;
    for row in 0..ROWS {
        for byte in 0..BYTES_A_ROW {
            let place = DISPLAY_START + 16 * row + 2 * byte;
            let dots = machine.ram[place] | machine.ram[place + 1] << 4;
            buffer[BYTES_A_ROW * row + byte] = if enabled { dots } else { 0 };
        }
    }
    Ok(())
}

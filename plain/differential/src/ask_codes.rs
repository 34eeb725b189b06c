//! The reader and the writer of single instructions.

use crate::asker::{Asker, Difference};
use crate::calls::{Call, Image, Kind};
use crate::chance::Chance;
use crate::images::{any_insn, any_p3, ending, given_p3, of_wrong_size, shown, whole, Codes};
use crate::plainly::slots_of;
use plain::{Device, ADDRESSES, SHEET};

fn any_address(chance: &mut Chance) -> u32 {
    match chance.below(4) {
        0 => chance.pick(&[0, 8189, 8190, 8191]),
        1 => chance.pick(&[8192, 8193, 16384, 65536, 65537, 0x8000_0000, u32::MAX]),
        _ => chance.below(ADDRESSES) as u32,
    }
}

pub fn reads(asker: &mut Asker, chance: &mut Chance, codes: &Codes, wanted: u64) -> Result<(), Difference> {
    let device = codes.device;
    every_pair(asker, chance, device)?;
    every_end(asker, chance, device)?;
    while asker.asked(device, Kind::Read) < wanted {
        let image = if chance.one_in(20) { of_wrong_size(chance, device) } else { whole(chance, codes) };
        for _ in 0..64 {
            let (image, address) = if image.len() == device.image_size() && chance.one_in(6) {
                let (image, start) = ending(chance, codes, &image);
                (image, start as u32)
            } else {
                (image.clone(), any_address(chance))
            };
            asker.ask(Call::Read { device, image, p3: given_p3(chance, device, 20), address })?;
        }
    }
    asker.compare_queued()
}

/// All 65,536 pairs of a first and a second byte.
fn every_pair(asker: &mut Asker, chance: &mut Chance, device: Device) -> Result<(), Difference> {
    for sixteen in 0..16 {
        let mut pairs = [0; ADDRESSES];
        for (number, pair) in pairs.chunks_exact_mut(2).enumerate() {
            pair.copy_from_slice(&[(16 * sixteen + number / 256) as u8, number as u8]);
        }
        let p3 = any_p3(chance, device);
        let image = shown(chance, device, p3, &pairs);
        for address in (0..ADDRESSES as u32).step_by(2) {
            asker.ask(Call::Read { device, image: image.clone(), p3, address })?;
        }
    }
    Ok(())
}

/// Each first byte at the last address, and at the one before it with second bytes of each high digit.
fn every_end(asker: &mut Asker, chance: &mut Chance, device: Device) -> Result<(), Difference> {
    for first in 0..=255 {
        for high in 0..16 {
            let second = 16 * high + chance.nibble();
            let (image, p3) = ending_with(chance, device, &[first, second]);
            asker.ask(Call::Read { device, image, p3, address: 8190 })?;
        }
        let (image, p3) = ending_with(chance, device, &[first]);
        asker.ask(Call::Read { device, image, p3, address: 8191 })?;
    }
    Ok(())
}

/// An image whose last addresses show these bytes, and the P3 through which they do.
fn ending_with(chance: &mut Chance, device: Device, last: &[u8]) -> (Image, u32) {
    let mut bytes = [chance.byte(); ADDRESSES];
    bytes[ADDRESSES - last.len()..].copy_from_slice(last);
    let p3 = any_p3(chance, device);
    (shown(chance, device, p3, &bytes), p3)
}

/// Where the pane looks.
struct Look {
    device: Device,
    image: Image,
    p3: u32,
    address: u32,
}

/// Length, row and notation of the same address, the last into buffers about as long as the text.
fn ask_pane(asker: &mut Asker, chance: &mut Chance, look: Look) -> Result<(), Difference> {
    let Look { device, image, p3, address } = look;
    asker.ask(Call::Length { device, image: image.clone(), p3, address })?;
    asker.ask(Call::Row { device, image: image.clone(), p3, address })?;
    let room = chance.pick(&[0, 3, 5, 8, 9, 10, 11, 12, 16, 24]);
    asker.ask(Call::Notation { device, image, p3, address, text: vec![chance.byte(); room] })?;
    Ok(())
}

pub fn panes(asker: &mut Asker, chance: &mut Chance, codes: &Codes, wanted: u64) -> Result<(), Difference> {
    let device = codes.device;
    for first in 0..=255 {
        for high in 0..16 {
            let second = 16 * high + chance.nibble();
            let (image, p3) = ending_with(chance, device, &[first, second]);
            for address in [8190, 8191] {
                ask_pane(asker, chance, Look { device, image: image.clone(), p3, address })?;
            }
        }
    }
    while asker.asked(device, Kind::Notation) < wanted {
        let image = if chance.one_in(20) { of_wrong_size(chance, device) } else { whole(chance, codes) };
        for _ in 0..64 {
            let (p3, address) = (given_p3(chance, device, 20), any_address(chance));
            ask_pane(asker, chance, Look { device, image: image.clone(), p3, address })?;
        }
    }
    asker.compare_queued()
}

pub fn writes(asker: &mut Asker, chance: &mut Chance, wanted: u64) -> Result<(), Difference> {
    every_row(asker)?;
    while asker.asked(Device::Em73862, Kind::Write) < wanted {
        if chance.one_in(2) {
            let (row, a, b) = a_row(chance);
            asker.ask(Call::Write { row, a, b })?;
            continue;
        }
        let row = if chance.one_in(4) { chance.byte() } else { 1 + chance.below(107) as u8 };
        let a = match chance.below(4) {
            0 => 0,
            1 => chance.number() as u16,
            _ => chance.number() as u16 >> (3 + chance.below(13)),
        };
        let b = match chance.below(4) {
            0 | 1 => 0,
            2 => chance.byte(),
            _ => chance.byte() >> (3 + chance.below(3)),
        };
        asker.ask(Call::Write { row, a, b })?;
    }
    asker.compare_queued()
}

/// A row of the sheet with operands that mostly fit.
fn a_row(chance: &mut Chance) -> (u8, u16, u8) {
    let sheet = &SHEET[chance.below(SHEET.len())];
    let insn = any_insn(chance, sheet);
    let (a, b) = slots_of(insn);
    (insn.row, a, b)
}

/// Every row number, of the sheet or not, with operands at, below and over the ends of every field.
fn every_row(asker: &mut Asker) -> Result<(), Difference> {
    const A: [u16; 23] = [
        0, 1, 3, 4, 5, 15, 16, 31, 63, 64, 0xF0, 0xF3, 0xF4, 0xF7, 0xFB, 0xFF, 0x100, 0x7FF, 0x800, 0xFFF, 0x1FFF,
        0x2000, 0xFFFF,
    ];
    const B: [u8; 10] = [0, 1, 3, 4, 15, 16, 17, 31, 32, 255];
    for row in 0..=255 {
        for a in A {
            for b in B {
                asker.ask(Call::Write { row, a, b })?;
            }
        }
    }
    Ok(())
}

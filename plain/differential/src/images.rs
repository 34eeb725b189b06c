//! Images of a device: any bytes, rows of the sheet with some groups favoured, corners, and wrong sizes.

use crate::calls::Image;
use crate::chance::Chance;
use crate::frames::idle;
use crate::records::P3_VALUES;
use plain::{fresh, place_in_image, step, write, Device, Insn, Mode, Options, Row, SheetRow, ADDRESSES, SHEET};

/// Codes of rows, by the plain writer.
pub struct Codes {
    pub device: Device,
    /// By row number less one: codes of that row with any operands.
    any: Vec<Vec<Vec<u8>>>,
    /// Those that go on: no absent port, no reserved setting, no sleep or hold.
    calm: Vec<Vec<Vec<u8>>>,
}

/// What an image has more of, so that what it does together is met often.
struct Favoured {
    rows: &'static [Row],
    /// Codes as they stand, with the operands that matter.
    codes: &'static [&'static [u8]],
}

const FAVOURED: [Favoured; 8] = [
    // Calls and returns, with SP moved.
    Favoured {
        rows: &[Row::Lcall, Row::Scall, Row::Scall, Row::Ret, Row::Ret, Row::Rti, Row::Ldia, Row::Stasp, Row::Ldasp],
        codes: &[&[0xD8, 0x69, 0xFF], &[0xDD, 0x69, 0xFF]],
    },
    // Ports.
    Favoured {
        rows: &[
            Row::Ina,
            Row::Inm,
            Row::Out,
            Row::Outa,
            Row::Outm,
            Row::Clp,
            Row::Sep,
            Row::Clpl,
            Row::Sepl,
            Row::Tfp,
            Row::Ttp,
            Row::Tfpl,
            Row::Ldl,
            Row::Ldia,
        ],
        codes: &[
            &[0x6F, 0x44],
            &[0x6F, 0x48],
            &[0x6D, 0x04],
            &[0x6D, 0x88],
            &[0x6F, 0x17],
            &[0x6F, 0x98],
            &[0x6F, 0x1E],
        ],
    },
    // Timers and interrupts: OUTA to P25, P28 and P29.
    Favoured {
        rows: &[
            Row::Statal,
            Row::Statam,
            Row::Statah,
            Row::Statbl,
            Row::Statbm,
            Row::Statbh,
            Row::Ldatal,
            Row::Ldatah,
            Row::Ldatbm,
            Row::Eicil,
            Row::Eicil,
            Row::Exae,
            Row::Rti,
            Row::Ldia,
            Row::Cil,
            Row::Nop,
        ],
        codes: &[&[0x6F, 0x19], &[0x6F, 0x1C], &[0x6F, 0x1D], &[0xDF, 0x69, 0xF4, 0x69, 0xF5, 0x69, 0xF6]],
    },
    // Sleep and hold: OUTA and OUTM to P16.
    Favoured { rows: &[Row::Ldia, Row::Nop, Row::Inca, Row::Addm], codes: &[&[0x6F, 0x10], &[0x6F, 0x90]] },
    // Branches, and rows that decide them.
    Favoured {
        rows: &[Row::Sbr, Row::Lbr, Row::Slbr, Row::Tfa, Row::Deca, Row::Tzs, Row::Ttcfs, Row::Cmpia, Row::Nop],
        codes: &[&[0xF8, 0x3F], &[0x56, 0x00]],
    },
    // The data pointer and ROM tables.
    Favoured {
        rows: &[Row::Stadpl, Row::Stadpm, Row::Stadph, Row::Ldadpl, Row::Ldadpm, Row::Ldadph, Row::Ldia],
        codes: &[&[0x65], &[0x67]],
    },
    // Settings of P25 and P27, some of them reserved.
    Favoured {
        rows: &[Row::Ldia, Row::Ldia, Row::Inca, Row::Nop],
        codes: &[&[0x6F, 0x19], &[0x6F, 0x1B], &[0x6F, 0x99], &[0x6F, 0x9B]],
    },
    // Unassigned codes.
    Favoured {
        rows: &[Row::Nop, Row::Ldia, Row::Inca, Row::Ldl],
        codes: &[
            &[0x54],
            &[0x77],
            &[0x7A],
            &[0x55, 0xD0],
            &[0x57, 0xB0],
            &[0x63, 0x00],
            &[0x63, 0x3F],
            &[0x6E, 0x00],
            &[0x6E, 0x20],
            &[0x6E, 0x80],
            &[0x6E, 0xA0],
            &[0x6F, 0x20],
            &[0x6F, 0x50],
            &[0x6F, 0xA0],
            &[0x6F, 0xD0],
            &[0x4C, 0x01],
            &[0x4E, 0xF4],
            &[0x6A, 0xF7],
            &[0x69, 0xFB],
            &[0x68, 0xF4],
            &[0x6B, 0xFF],
        ],
    },
];

/// The same of the EM73P982 alone.
const FAVOURED_OF_P982: [Favoured; 3] = [
    // Sleep and hold, with the window moved before and after.
    Favoured {
        rows: &[Row::Ldia, Row::Ldia, Row::Nop, Row::Inca],
        codes: &[&[0x6F, 0x10], &[0x6F, 0x10], &[0x6F, 0x90], &[0x4A, 0x13], &[0x4A, 0x23]],
    },
    // P3, by OUT, OUTA, OUTM, SEP and CLP, and what goes through the window.
    Favoured {
        rows: &[Row::Ldia, Row::Nop, Row::Inca, Row::Slbr, Row::Lbr, Row::Ldax, Row::Ldaxi, Row::Lcall, Row::Ret],
        codes: &[
            &[0x4A, 0x03],
            &[0x4A, 0x13],
            &[0x4A, 0x23],
            &[0x4A, 0xE3],
            &[0x4A, 0x33],
            &[0x6F, 0x03],
            &[0x6F, 0x83],
            &[0x6D, 0x43],
            &[0x6D, 0x53],
            &[0x6D, 0x63],
            &[0x6D, 0xC3],
            &[0x6D, 0xD3],
            &[0x65],
            &[0x67],
        ],
    },
    // P5, P6 and P17, with SEPL and CLPL, and P4's pins.
    Favoured {
        rows: &[Row::Ldl, Row::Ldl, Row::Sepl, Row::Clpl, Row::Ldia, Row::Inca, Row::Nop],
        codes: &[
            &[0x6F, 0x05],
            &[0x6F, 0x06],
            &[0x6F, 0x11],
            &[0x6F, 0x85],
            &[0x6F, 0x86],
            &[0x6F, 0x91],
            &[0x4A, 0x75],
            &[0x4A, 0x96],
            &[0x6D, 0x65],
            &[0x6D, 0xD6],
            &[0x6F, 0x44],
            &[0x6F, 0xC4],
            &[0x6D, 0x04],
            &[0x6D, 0xA4],
        ],
    },
];

impl Codes {
    pub fn new(chance: &mut Chance, device: Device) -> Codes {
        const A_ROW: usize = 64;
        let mut codes = Codes { device, any: Vec::new(), calm: Vec::new() };
        for sheet in &SHEET {
            let fitting = (0..100 * A_ROW).filter_map(|_| write(any_insn(chance, sheet)).ok());
            let any: Vec<Vec<u8>> = fitting.take(A_ROW).collect();
            assert!(any.len() == A_ROW, "the plain writer refuses {} with operands that fit", sheet.mnemonic);
            codes.calm.push(any.iter().filter(|code| goes_on(device, code)).cloned().collect());
            codes.any.push(any);
        }
        codes
    }

    pub fn any_of<'a>(&'a self, chance: &mut Chance, row: Row) -> &'a [u8] {
        let codes = &self.any[row.number() as usize - 1];
        &codes[chance.below(codes.len())]
    }

    /// A code of the row that goes on; where it has none, any.
    pub fn calm_of<'a>(&'a self, chance: &mut Chance, row: Row) -> &'a [u8] {
        let codes = &self.calm[row.number() as usize - 1];
        if codes.is_empty() {
            return self.any_of(chance, row);
        }
        &codes[chance.below(codes.len())]
    }
}

/// A row with operands that mostly fit it.
pub fn any_insn(chance: &mut Chance, sheet: &SheetRow) -> Insn {
    Insn { row: sheet.row.number(), a: operand(chance, sheet.operands, 0), b: operand(chance, sheet.operands, 1) }
}

fn operand(chance: &mut Chance, letters: &str, place: usize) -> u16 {
    match letters.as_bytes().get(place) {
        None => 0,
        Some(b'b') => chance.below(4) as u16,
        Some(b'k' | b'y' | b'n') => chance.below(16) as u16,
        Some(b'p') => chance.below(32) as u16,
        Some(b'r') => chance.below(64) as u16,
        Some(b'x') => chance.below(0xF4) as u16,
        Some(_) => chance.below(ADDRESSES) as u16 >> chance.pick(&[0, 1, 2, 7]),
    }
}

/// Whether a code at address 0 neither stops nor ends running, with room on the stack and ACC and RAM 0.
fn goes_on(device: Device, code: &[u8]) -> bool {
    let mut image = vec![0; device.image_size()];
    image[..code.len()].copy_from_slice(code);
    let mut machine = fresh(device);
    machine.sp = 6;
    let stepped = step(&image, Options { device, wake: 0, sound: false }, &machine, idle(device));
    stepped.is_ok_and(|stepped| stepped.stop == 0 && stepped.machine.mode == Mode::Running)
}

/// A P3 of a record, or 0 on the EM73862.
pub fn any_p3(chance: &mut Chance, device: Device) -> u32 {
    match device {
        Device::Em73862 => 0,
        Device::Em73P982 => chance.pick(&P3_VALUES) as u32,
    }
}

/// A P3 that goes into a call of the reader or the bound: one in so many is refused.
pub fn given_p3(chance: &mut Chance, device: Device, one_in: usize) -> u32 {
    const REFUSED: [u32; 10] = [3, 7, 11, 15, 16, 17, 255, 256, 0x8000_0000, u32::MAX];
    if device == Device::Em73P982 && chance.one_in(one_in) {
        chance.pick(&REFUSED)
    } else {
        any_p3(chance, device)
    }
}

/// An image that shows these bytes at the addresses through the window of a P3; the other banks have any bytes.
pub fn shown(chance: &mut Chance, device: Device, p3: u32, bytes: &[u8; ADDRESSES]) -> Image {
    let mut image = chance.bytes(device.image_size());
    for (address, byte) in bytes.iter().enumerate() {
        image[place_in_image(p3 as u8, address as u16)] = *byte;
    }
    image.into()
}

/// A whole image of any kind.
pub fn whole(chance: &mut Chance, codes: &Codes) -> Image {
    match chance.below(16) {
        0..=2 => chance.bytes(codes.device.image_size()).into(),
        3 => vec![chance.pick(&[0, 0xFF]); codes.device.image_size()].into(),
        4..=5 => rows(chance, codes, |chance, codes, image| {
            let row = SHEET[chance.below(SHEET.len())].row;
            image.extend(codes.any_of(chance, row));
        }),
        6..=8 => calm(chance, codes),
        _ => favouring(chance, codes),
    }
}

/// Rows that go on, so that programs run for long.
pub fn calm(chance: &mut Chance, codes: &Codes) -> Image {
    rows(chance, codes, |chance, codes, image| {
        let row = SHEET[chance.below(SHEET.len())].row;
        // What returns without a call, or changes bank, soon stops all.
        if !matches!(row, Row::Ret | Row::Rti | Row::Stasp | Row::Ldh | Row::Addh) {
            image.extend(codes.calm_of(chance, row));
        }
    })
}

/// Rows of one group by turns with any that go on.
fn favouring(chance: &mut Chance, codes: &Codes) -> Image {
    let group = match codes.device {
        Device::Em73P982 if chance.one_in(3) => &FAVOURED_OF_P982[chance.below(FAVOURED_OF_P982.len())],
        _ => &FAVOURED[chance.below(FAVOURED.len())],
    };
    rows(chance, codes, |chance, codes, image| {
        if chance.one_in(4) {
            image.extend(chance.pick(group.codes));
            return;
        }
        let row = if chance.one_in(3) { SHEET[chance.below(SHEET.len())].row } else { chance.pick(group.rows) };
        image.extend(if chance.one_in(8) { codes.any_of(chance, row) } else { codes.calm_of(chance, row) });
    })
}

/// Fills an image; then, half of the time, puts a code at its end, whole or cut.
fn rows(chance: &mut Chance, codes: &Codes, put: impl Fn(&mut Chance, &Codes, &mut Vec<u8>)) -> Image {
    let size = codes.device.image_size();
    let mut image = Vec::with_capacity(size + 3);
    while image.len() < size {
        put(chance, codes, &mut image);
    }
    image.truncate(size);
    if chance.one_in(2) {
        put_at_end(chance, codes, &mut image);
    }
    image.into()
}

/// Puts a code of some bytes at the end of the addresses, whatever P3 is, most often cut, and says where it begins.
fn put_at_end(chance: &mut Chance, codes: &Codes, image: &mut [u8]) -> usize {
    const LONG: [Row; 9] =
        [Row::Slbr, Row::Slbr, Row::Lbr, Row::Lcall, Row::Sta, Row::Std, Row::Out, Row::Adda, Row::Tt];
    let row = chance.pick(&LONG);
    let code = codes.calm_of(chance, row);
    let left = if chance.one_in(4) { code.len() } else { 1 + chance.below(code.len() - 1) };
    let start = ADDRESSES - left;
    for bank in image.chunks_mut(ADDRESSES / 2).skip(1) {
        let start = bank.len() - left;
        bank[start..].copy_from_slice(&code[..left]);
    }
    start
}

/// The image with such a code at its end, and where that begins.
pub fn ending(chance: &mut Chance, codes: &Codes, image: &Image) -> (Image, u16) {
    let mut bytes = image.to_vec();
    let start = put_at_end(chance, codes, &mut bytes);
    (bytes.into(), start as u16)
}

/// "1 by device size": the other device's size among them.
pub fn of_wrong_size(chance: &mut Chance, device: Device) -> Image {
    let size = device.image_size();
    let other = Device::ALL.map(Device::image_size).into_iter().find(|other| *other != size).unwrap_or(0);
    let wrong =
        if chance.one_in(4) { chance.below(size) } else { chance.pick(&[0, 1, size - 1, size + 1, 2 * size, other]) };
    chance.bytes(if wrong == size { 0 } else { wrong }).into()
}

//! Bounds: handlers that end, that repeat, that reach an excluded row and that call, and path buffers of every length.

use crate::asker::{Asker, Difference};
use crate::calling::{branch, calling, nested};
use crate::calls::{Call, Image, Kind, Paths};
use crate::chance::Chance;
use crate::images::{any_p3, ending, given_p3, of_wrong_size, shown, whole, Codes};
use plain::{bound, worst_of, Bound, Device, Row, ADDRESSES, MOST_PATH_BYTES, SHEET, WORST};

const RTI: u8 = 0x4D;
const RET: u8 = 0x4F;

/// OUT, OUTA, OUTM, SEP and CLP with P3: excluded on the EM73P982, on the EM73862 rows that only stop.
const WRITES_P3: [&[u8]; 5] = [&[0x4A, 0x13], &[0x6F, 0x03], &[0x6F, 0x83], &[0x6D, 0x53], &[0x6D, 0xF3]];

/// An image and the P3 through which it is bounded.
struct Handlers {
    device: Device,
    image: Image,
    p3: u32,
}

pub fn bounds(asker: &mut Asker, chance: &mut Chance, codes: &Codes, wanted: u64) -> Result<(), Difference> {
    bounds_of_the_worst(asker, chance, codes.device)?;
    while asker.asked(codes.device, Kind::Bound) < wanted {
        match chance.below(20) {
            0 => bounds_of_any_image(asker, chance, codes)?,
            1 => refused_bounds(asker, chance, codes.device)?,
            _ => bounds_of_a_handler(asker, chance, codes)?,
        }
    }
    asker.compare_queued()
}

/// So many bounds of handlers that reach a call, and some that may not.
pub fn calling_bounds(asker: &mut Asker, chance: &mut Chance, codes: &Codes, wanted: usize) -> Result<(), Difference> {
    let device = codes.device;
    let mut asked = 0;
    while asked < wanted {
        let made = if chance.one_in(100) { nested(chance) } else { calling(chance, codes) };
        let p3 = any_p3(chance, device);
        let handlers = Handlers { device, image: shown(chance, device, p3, &made.image), p3 };
        for start in made.starts.iter().chain(&made.others) {
            ask_with_a_buffer(asker, chance, &handlers, (start % ADDRESSES) as u32)?;
        }
        asked += made.starts.len();
    }
    asker.compare_queued()
}

/// The images of plain-worst, whose paths and repetitions are the longest.
fn bounds_of_the_worst(asker: &mut Asker, chance: &mut Chance, device: Device) -> Result<(), Difference> {
    for worst in WORST.into_iter().filter_map(worst_of) {
        let p3 = any_p3(chance, device);
        let handlers = Handlers { device, image: shown(chance, device, p3, &worst.image), p3 };
        for _ in 0..8 {
            ask_with_a_buffer(asker, chance, &handlers, worst.start as u32)?;
        }
        for _ in 0..24 {
            let address = chance_address(chance);
            ask_with_a_buffer(asker, chance, &handlers, address)?;
        }
    }
    Ok(())
}

fn bounds_of_any_image(asker: &mut Asker, chance: &mut Chance, codes: &Codes) -> Result<(), Difference> {
    let device = codes.device;
    let mut handlers = Handlers { device, image: whole(chance, codes), p3: any_p3(chance, device) };
    for _ in 0..4 {
        let address = chance_address(chance);
        ask_with_a_buffer(asker, chance, &handlers, address)?;
    }
    // From the last code itself, and from places before it.
    let (image, start) = ending(chance, codes, &handlers.image);
    handlers.image = image;
    for back in [0, 1, chance.below(24)] {
        ask_with_a_buffer(asker, chance, &handlers, start as u32 - back as u32)?;
    }
    Ok(())
}

fn chance_address(chance: &mut Chance) -> u32 {
    if chance.one_in(8) {
        chance.pick(&[0, 2, 6, 8, 0xA, 0xC, 8190, 8191])
    } else {
        chance.below(ADDRESSES) as u32
    }
}

fn refused_bounds(asker: &mut Asker, chance: &mut Chance, device: Device) -> Result<(), Difference> {
    let image: Image =
        if chance.one_in(2) { of_wrong_size(chance, device) } else { vec![RTI; device.image_size()].into() };
    for address in [0, 8191, 8192, 16384, 65536, u32::MAX] {
        let p3 = given_p3(chance, device, 3);
        let lengths = [0, 1].map(|_| chance.pick(&[0, 1, 2, 3, 40]));
        let [path, deep] = lengths.map(|length| chance.bytes(length));
        let paths = Paths::new(&path, &deep);
        asker.ask(Call::Bound { device, image: image.clone(), p3, address, paths })?;
    }
    Ok(())
}

/// A handler of some rows with branches, from a place of the image on, and some starts within it.
fn bounds_of_a_handler(asker: &mut Asker, chance: &mut Chance, codes: &Codes) -> Result<(), Difference> {
    // Across the end of the image often enough.
    let start = if chance.one_in(4) { ADDRESSES - 1 - chance.below(24) } else { chance.below(ADDRESSES) };
    let handler = handler(chance, codes, start);
    let (device, p3) = (codes.device, any_p3(chance, codes.device));
    let handlers = Handlers { device, image: shown(chance, device, p3, &handler), p3 };
    for turn in 0..8 {
        let offset = if turn == 0 { 0 } else { chance.below(8) };
        ask_with_a_buffer(asker, chance, &handlers, ((start + offset) % ADDRESSES) as u32)?;
    }
    Ok(())
}

fn handler(chance: &mut Chance, codes: &Codes, start: usize) -> [u8; ADDRESSES] {
    // Whatever leaves the handler returns, or reaches an excluded row, or repeats at once.
    let mut image = [chance.pick(&[RTI, RTI, RTI, RTI, RET, 0]); ADDRESSES];
    let length = chance.pick(&[1, 3, 8, 20, 40, 120]);
    let backward_one_in = chance.pick(&[5, 50, 1_000_000, 1_000_000]);
    let excluded_one_in = chance.pick(&[20, 1_000_000, 1_000_000, 1_000_000]);
    let mut at = start;
    let put = |image: &mut [u8; ADDRESSES], at: &mut usize, code: &[u8]| {
        for byte in code {
            image[*at % ADDRESSES] = *byte;
            *at += 1;
        }
    };
    for _ in 0..length {
        let row = SHEET[chance.below(SHEET.len())].row;
        if chance.one_in(2 * excluded_one_in) {
            put(&mut image, &mut at, chance.pick(&WRITES_P3));
        } else if chance.one_in(excluded_one_in) {
            let row = chance.pick(&[Row::Ret, Row::Scall, Row::Lcall, Row::Eicil, Row::Stasp]);
            put(&mut image, &mut at, codes.any_of(chance, row));
        } else if chance.one_in(4) {
            let target = if chance.one_in(backward_one_in) {
                at.wrapping_sub(chance.below(12))
            } else {
                at + 1 + chance.below(24)
            };
            let code = branch(chance, at % ADDRESSES, target % ADDRESSES);
            put(&mut image, &mut at, &code);
        } else if !has_its_own_turn(row) {
            put(&mut image, &mut at, codes.calm_of(chance, row));
        }
    }
    if !chance.one_in(8) {
        put(&mut image, &mut at, &[RTI]);
    }
    image
}

/// Rows that are excluded, call or end a path, which come only where they are meant to, and branches, which need a target.
pub fn has_its_own_turn(row: Row) -> bool {
    let leaves = matches!(row, Row::Lcall | Row::Scall | Row::Ret | Row::Rti | Row::Sbr | Row::Lbr | Row::Slbr);
    leaves || matches!(row, Row::Eicil | Row::Stasp)
}

/// Asks with path buffers of no bytes, of too few, of just enough or of more; mostly neither is short.
fn ask_with_a_buffer(
    asker: &mut Asker,
    chance: &mut Chance,
    handlers: &Handlers,
    address: u32,
) -> Result<(), Difference> {
    let Handlers { device, image, p3 } = handlers;
    let [mut path, mut deep] = [vec![0; MOST_PATH_BYTES], vec![0; MOST_PATH_BYTES]];
    let needed = match bound(*device, image, *p3, address, &mut path, &mut deep) {
        Bound::Cycles { path_bytes, deep_bytes, .. } => [path_bytes, deep_bytes],
        _ => [0, 0],
    };
    let are_enough = match chance.below(9) {
        0 => [false, true],
        1 => [true, false],
        2 => [false, false],
        _ => [true, true],
    };
    let [path, deep] = [0, 1].map(|which| {
        let room =
            if are_enough[which] { enough_room(chance, needed[which]) } else { short_room(chance, needed[which]) };
        chance.bytes(room)
    });
    let (device, p3, image) = (*device, *p3, image.clone());
    asker.ask(Call::Bound { device, image, p3, address, paths: Paths::new(&path, &deep) })?;
    Ok(())
}

fn enough_room(chance: &mut Chance, needed: usize) -> usize {
    match chance.below(4) {
        0 => needed + 1,
        1 => needed + chance.below(60),
        _ => needed,
    }
}

/// Too few bytes, where some are needed.
fn short_room(chance: &mut Chance, needed: usize) -> usize {
    match chance.below(4) {
        0 => 0,
        1 => needed.saturating_sub(1),
        2 => needed.saturating_sub(2),
        _ => chance.below(needed.max(1)),
    }
}

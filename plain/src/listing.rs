//! The runner's listing (document 01), and another emulator's against it (document 02, Q-13).

use crate::{fresh, numbers, step, Device, Machine, Options};

pub const HEADER: &str = "PC A H L S CZS C X";

/// What the runner prints for a step, without the LF.
pub fn step_line(m: &Machine, cycles: u32, stop: u8) -> String {
    format!(
        "{:04X} {:X} {:X} {:X} {:X} {}{}{} {} {:02}",
        m.pc, m.acc, m.hr, m.lr, m.sp, m.cf as u8, m.zf as u8, m.sf as u8, cycles, stop
    )
}

/// Where a listing differs first: lines from 1, fields 1 to 8, 0 for a missing or an extra line, the header or spacing.
#[derive(Clone, Copy, Debug, PartialEq, Eq)]
pub enum Compared {
    Same,
    Differs { line: u64, field: u8 },
}

/// The lines that the runner prints, each with its LF; or 1 for an image of another size, 3 for a line that is no frame.
pub fn listing_lines(device: Device, image: &[u8], script: &[u8]) -> Result<Vec<String>, u8> {
    if image.len() != device.image_size() {
        return Err(numbers::IMAGE_SIZE);
    }
    let options = Options { device, wake: 0xFF, sound: false };
    let mut machine = fresh(device);
    let mut lines = vec![format!("{HEADER}\n")];
    for line in script.split_inclusive(|&c| c == b'\n') {
        let stepped = step(image, options, &machine, line.strip_suffix(b"\n").unwrap_or(line))?;
        machine = stepped.machine;
        lines.push(step_line(&machine, stepped.cycles, stepped.stop) + "\n");
        if stepped.stop != numbers::NONE {
            break;
        }
    }
    Ok(lines)
}

/// A listing against what the runner prints.
pub fn compare_listing(device: Device, image: &[u8], script: &[u8], listing: &[u8]) -> Result<Compared, u8> {
    let ours = listing_lines(device, image, script)?;
    let theirs: Vec<&[u8]> = listing.split_inclusive(|&c| c == b'\n').collect();
    for place in 0..ours.len().max(theirs.len()) {
        let field = match (ours.get(place), theirs.get(place)) {
            (Some(our), Some(their)) if our.as_bytes() == *their => continue,
            (Some(our), Some(their)) if place > 0 => field(our, their),
            _ => 0,
        };
        return Ok(Compared::Differs { line: place as u64 + 1, field });
    }
    Ok(Compared::Same)
}

/// The first field of a line that differs; 0 where theirs is not eight fields with single blanks between and an LF.
fn field(our: &str, their: &[u8]) -> u8 {
    let Some(body) = their.strip_suffix(b"\n") else { return 0 };
    let fields: Vec<&[u8]> = body.split(|&c| c == b' ').collect();
    if fields.len() != 8 || fields.iter().any(|field| field.is_empty()) {
        return 0;
    }
    let ours = our.trim_end_matches('\n').split(' ');
    let differs = ours.zip(fields).position(|(our, their)| our.as_bytes() != their);
    differs.map_or(0, |place| place as u8 + 1)
}

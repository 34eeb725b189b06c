//! Texts of Intel HEX: good ones in every layout, and ones that are damaged in one place or two.

use crate::chance::Chance;
use plain::{hex_record, Device};

/// A good text: records of any size in any order, of either case, lines ending in LF or CRLF, the last perhaps in none.
pub fn good(device: Device, chance: &mut Chance) -> Vec<Vec<u8>> {
    let mut lines = data_lines(device, chance);
    for _ in 0..lines.len() {
        let (one, other) = (chance.below(lines.len()), chance.below(lines.len()));
        lines.swap(one, other);
    }
    let address = if chance.one_in(4) { chance.below(0x10000) } else { 0 };
    lines.push(hex_record(address, 1, &[]).into_bytes());
    let layout = chance.below(4);
    for line in &mut lines {
        lay_out(chance, layout, line);
    }
    if chance.one_in(3) {
        let last = lines.last_mut().expect("there is the end record");
        last.truncate(last.iter().position(|&c| c == b'\n' || c == b'\r').unwrap_or(last.len()));
    }
    lines
}

/// Records that do not overlap, in address order: some of an image, or all of it.
fn data_lines(device: Device, chance: &mut Chance) -> Vec<Vec<u8>> {
    let end = device.image_size();
    let mut lines = Vec::new();
    let whole = chance.one_in(400);
    let most = if whole { end } else { chance.below(12) };
    let mut address = if whole || chance.one_in(2) { 0 } else { chance.below(end) };
    while lines.len() < most && address < end {
        let size = match chance.below(8) {
            0 => 0,
            1 => chance.below(256),
            2 => 32,
            3 | 4 => 16,
            _ => 1 + chance.below(20),
        };
        let size = if whole { size.max(16) } else { size }.min(end - address);
        let place = if size == 0 { chance.below(0x10000) } else { address };
        lines.push(hex_record(place, 0, &chance.bytes(size)).into_bytes());
        address += size;
        if !whole && chance.one_in(3) {
            address += chance.below(600);
        }
    }
    lines
}

/// The case of its digits, and its ending: those of the whole text, or of this line alone.
fn lay_out(chance: &mut Chance, layout: usize, line: &mut Vec<u8>) {
    let (lower, crlf) = if layout == 3 { (chance.one_in(2), chance.one_in(2)) } else { (layout == 1, layout == 2) };
    if lower {
        line.make_ascii_lowercase();
    }
    if layout == 3 && chance.one_in(4) {
        for character in line.iter_mut().filter(|_| chance.one_in(2)) {
            character.make_ascii_uppercase();
        }
    }
    if crlf {
        line.insert(line.len() - 1, b'\r');
    }
}

/// Damage in one place.
pub fn damage(device: Device, chance: &mut Chance, lines: &mut Vec<Vec<u8>>) {
    if lines.is_empty() {
        return;
    }
    let at = chance.below(lines.len());
    let place = chance.below(lines[at].len().max(1));
    let inside = place < lines[at].len();
    match chance.below(16) {
        0 if inside => lines[at][place] = chance.byte(),
        1 if inside => lines[at][place] = chance.pick(b"0123456789ABCDEFabcdef:\r\n gG@`/"),
        2 if inside => {
            lines[at].remove(place);
        }
        3 if inside => lines[at].insert(place, chance.pick(b"0Ff:\r\n \t\0")),
        4 => lines.insert(at, lines[at].clone()),
        5 => {
            lines.pop();
        }
        6 => lines.push(chance.pick(&[&b"\n"[..], b"\r\n", b" ", b"\r", b":00000001FF\n", b"x", b":"]).to_vec()),
        7 => {
            lines.insert(at, chance.pick(&[&b"\n"[..], b"\r\n", b":\n", b":00\n", b"; comment\n", b"\r\r\n"]).to_vec())
        }
        8 => lines.insert(at, hex_record(chance.below(0x10000), chance.byte(), &chance.bytes(2)).into_bytes()),
        9 => lines.insert(at, hex_record(0, chance.pick(&[2, 3, 4, 5]), &chance.bytes(2)).into_bytes()),
        10 => lines.insert(at, any_record(chance, device.image_size() - 40, 80).into_bytes()),
        11 => lines.insert(at, any_record(chance, 0, device.image_size()).into_bytes()),
        12 => lines.insert(at, hex_record(0, 1, &chance.bytes(1)).into_bytes()),
        13 => {
            let other = chance.below(lines.len());
            lines.swap(at, other);
        }
        14 => lines.truncate(at),
        _ => {
            let kept = chance.below(lines[at].len() + 1);
            lines[at].truncate(kept);
        }
    }
}

/// A data record of up to 40 bytes, from one of some addresses on.
fn any_record(chance: &mut Chance, from: usize, addresses: usize) -> String {
    let address = from + chance.below(addresses);
    let size = chance.below(41);
    hex_record(address, 0, &chance.bytes(size))
}

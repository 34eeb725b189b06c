//! Images, scripts and listings: each listing is the runner's with nothing, one or two places changed, cut or added.

use crate::chance::Chance;
use plain::{fresh, listing_lines, step, Device, Mode, Options, HEADER};

/// One in ten has any bytes, and mostly stops soon; of the others each byte is an instruction that goes on with the next.
pub fn image(chance: &mut Chance, device: Device) -> Vec<u8> {
    let size = if chance.one_in(50) {
        chance.pick(&[0, 1, 8192, 16384, device.image_size() - 1])
    } else {
        device.image_size()
    };
    if chance.one_in(10) {
        return chance.bytes(size);
    }
    let calm = calm_codes(device);
    (0..size).map(|_| if chance.one_in(200) { chance.byte() } else { chance.pick(&calm) }).collect()
}

fn calm_codes(device: Device) -> Vec<u8> {
    let options = Options { device, wake: 0xFF, sound: false };
    let frame = vec![b'0'; device.frame_length()];
    (0..=255)
        .filter(|&code| {
            let image = vec![code; device.image_size()];
            let stepped = step(&image, options, &fresh(device), &frame).expect("zeros are a frame");
            stepped.stop == 0 && stepped.machine.pc == 1 && stepped.machine.mode == Mode::Running
        })
        .collect()
}

/// Up to 40 frames; in one of fifteen a line that is none; of some the last line has no LF.
pub fn script(chance: &mut Chance, device: Device) -> Vec<u8> {
    let count = chance.below(41);
    let mut lines: Vec<Vec<u8>> = (0..count).map(|_| frame(chance, device)).collect();
    if chance.one_in(15) {
        let place = chance.below(count + 1);
        lines.insert(place, bad_line(chance, device));
    }
    let mut script: Vec<u8> = lines.iter().flat_map(|line| [line.as_slice(), b"\n"].concat()).collect();
    if chance.one_in(5) {
        script.pop();
    }
    script
}

fn frame(chance: &mut Chance, device: Device) -> Vec<u8> {
    let mut digits: Vec<u8> =
        (0..device.frame_length()).map(|_| b"0123456789ABCDEF"[chance.nibble() as usize]).collect();
    let last = digits.len() - 1;
    digits[last] = chance.pick(b"01");
    digits
}

fn bad_line(chance: &mut Chance, device: Device) -> Vec<u8> {
    let mut line = frame(chance, device);
    match chance.below(5) {
        0 => line.clear(),
        1 => line.push(b'\r'),
        2 => line.truncate(chance.below(line.len())),
        3 => line.extend(b"000000000000"),
        _ => *line.last_mut().expect("a frame has digits") = b'G',
    }
    line
}

/// Of a script that is refused a header and some lines, since nothing of them counts.
pub fn listing(chance: &mut Chance, device: Device, image: &[u8], script: &[u8]) -> Vec<u8> {
    let lines =
        listing_lines(device, image, script).unwrap_or(vec![format!("{HEADER}\n"), "0001 0 0 0 0 011 1 00\n".into()]);
    let mut lines: Vec<Vec<u8>> = lines.into_iter().map(String::into_bytes).collect();
    for _ in 0..chance.pick(&[0, 1, 1, 1, 2]) {
        change(chance, &mut lines);
    }
    let mut listing = lines.concat();
    match chance.below(40) {
        0 => listing.truncate(chance.below(listing.len() + 1)),
        1 => _ = listing.pop(),
        2 => listing.push(chance.pick(b"\n\r 0")),
        _ => {}
    }
    listing
}

/// A place of a line changed, cut or added, or a whole line.
fn change(chance: &mut Chance, lines: &mut Vec<Vec<u8>>) {
    if lines.is_empty() {
        return;
    }
    let number = chance.below(lines.len());
    let line = &mut lines[number];
    let place = chance.below(line.len().max(1));
    match chance.below(12) {
        0..=5 if !line.is_empty() => line[place] = chance.pick(b"0123456789ABCDEFaf \t\r\nx"),
        6 if !line.is_empty() => _ = line.remove(place),
        7 => line.insert(place, chance.pick(b"0123456789ABCDEFaf \t\r\nx")),
        8 => _ = lines.remove(number),
        9 => {
            let copy = line.clone();
            lines.insert(number, copy);
        }
        10 => lines.push(b"0001 0 0 0 0 011 1 00\n".to_vec()),
        _ => {
            if line.ends_with(b"\n") {
                line.insert(line.len() - 1, b'\r');
            }
        }
    }
}

//! Frames: pins that change now and then, their characters, and characters that are no frame.

use crate::chance::Chance;
use plain::{Device, Frame};

/// Pins of which a step changes some.
pub struct Pins {
    device: Device,
    now: Frame,
    /// How seldom they change: one in so many steps.
    seldom: usize,
}

impl Pins {
    pub fn new(chance: &mut Chance, device: Device, last: Frame) -> Pins {
        Pins { device, now: last, seldom: chance.pick(&[1, 2, 2, 8, 1000]) }
    }

    /// The next frame's characters.
    pub fn next(&mut self, chance: &mut Chance) -> Vec<u8> {
        if chance.one_in(self.seldom) {
            // P8 has the pins of the interrupts and of the timers.
            self.now.p8 ^= 1 << chance.below(4);
            if chance.one_in(4) {
                self.now.p8 = chance.nibble();
            }
            if chance.one_in(4) {
                self.now.p0 ^= 1 << chance.below(4);
            }
            match self.device {
                Device::Em73862 if chance.one_in(8) => self.now.p4 ^= 1,
                Device::Em73862 => {}
                Device::Em73P982 => self.change_what_is_added(chance),
            }
        }
        characters(chance, self.device, self.now)
    }

    fn change_what_is_added(&mut self, chance: &mut Chance) {
        if chance.one_in(4) {
            self.now.p4 = chance.nibble();
        }
        if chance.one_in(3) {
            self.now.speech = chance.one_in(3) as u8;
        }
    }
}

/// The frame of the fresh record.
pub fn idle(device: Device) -> &'static [u8] {
    match device {
        Device::Em73862 => b"FF1",
        Device::Em73P982 => b"FFF0",
    }
}

fn characters(chance: &mut Chance, device: Device, frame: Frame) -> Vec<u8> {
    let cases = chance.byte();
    let mut text =
        vec![digit(frame.p0, cases & 1 != 0), digit(frame.p8, cases & 2 != 0), digit(frame.p4, cases & 4 != 0)];
    if device == Device::Em73P982 {
        text.push(b'0' + frame.speech);
    }
    text
}

fn digit(value: u8, upper: bool) -> u8 {
    match value {
        0..=9 => b'0' + value,
        _ if upper => b'A' + value - 10,
        _ => b'a' + value - 10,
    }
}

/// As many characters as a frame has, of which at least one is no digit in its place.
pub fn bad(chance: &mut Chance, device: Device) -> Vec<u8> {
    const AROUND_THE_DIGITS: [u8; 12] = [b'/', b':', b'@', b'G', b'`', b'g', b' ', b'\n', 0, 0xFF, 0x80, 0xB1];
    let mut frame = characters(chance, device, Frame::idle(device));
    frame[..2].copy_from_slice(&[digit(chance.nibble(), false), digit(chance.nibble(), true)]);
    let last = frame.len() - 1;
    match chance.below(4) {
        // The last digit is 0 or 1 on both devices.
        0 => frame[last] = chance.pick(b"239AFaf"),
        _ => frame[chance.below(last + 1)] = chance.pick(&AROUND_THE_DIGITS),
    }
    frame
}

/// What a step refuses for a frame: bad characters, or good ones that are not as many as a frame's.
pub fn bad_of_any_length(chance: &mut Chance, device: Device) -> Vec<u8> {
    match chance.below(4) {
        0 => {
            let length = chance.below(9);
            let other = if length == device.frame_length() { length + 1 } else { length };
            b"FF10FF10F"[..other].to_vec()
        }
        _ => bad(chance, device),
    }
}

#[cfg(test)]
mod tests {
    use super::*;

    #[test]
    fn bad_frames_are_no_frames_and_the_pins_are() {
        let mut chance = Chance::new(5);
        for device in Device::ALL {
            assert_eq!(Frame::parse(device, idle(device)), Some(Frame::idle(device)));
            let mut pins = Pins::new(&mut chance, device, Frame::idle(device));
            for _ in 0..2_000 {
                assert_eq!(Frame::parse(device, &bad(&mut chance, device)), None);
                assert_eq!(Frame::parse(device, &bad_of_any_length(&mut chance, device)), None);
                let text = pins.next(&mut chance);
                assert_eq!(Frame::parse(device, &text), Some(pins.now));
            }
        }
    }
}

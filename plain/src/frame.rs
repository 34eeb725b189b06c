//! Frames: what the pins show during one step.

use crate::device::Device;

/// "A frame is three hexadecimal digits, either case: P0, P8, P4.0 (0 or 1)." On the EM73P982 "P4 has four pins, so its frame digit
/// is 0 to 15", and there is "a fourth frame digit", 0 or 1.
#[derive(Clone, Copy, Debug, PartialEq, Eq)]
pub struct Frame {
    pub p0: u8,
    pub p8: u8,
    /// Of the EM73862 P4.0 alone.
    pub p4: u8,
    /// 1 where the speech ends; 0 on the EM73862.
    pub speech: u8,
}

impl Frame {
    /// The frame of the fresh record: FF1, or FFF0.
    pub fn idle(device: Device) -> Frame {
        match device {
            Device::Em73862 => Frame { p0: 15, p8: 15, p4: 1, speech: 0 },
            Device::Em73P982 => Frame { p0: 15, p8: 15, p4: 15, speech: 0 },
        }
    }

    /// The frame that these characters are, if they are one and nothing more.
    pub fn parse(device: Device, text: &[u8]) -> Option<Frame> {
        let (pins, speech) = match (device, text) {
            (Device::Em73862, pins) => (pins, 0),
            (Device::Em73P982, [pins @ .., speech]) => (pins, hexadecimal_digit(*speech)?),
            (Device::Em73P982, []) => return None,
        };
        let [p0, p8, p4] = pins else { return None };
        let frame =
            Frame { p0: hexadecimal_digit(*p0)?, p8: hexadecimal_digit(*p8)?, p4: hexadecimal_digit(*p4)?, speech };
        frame.is_valid(device).then_some(frame)
    }

    pub fn is_valid(&self, device: Device) -> bool {
        let (p4_limit, speech_limit) = match device {
            Device::Em73862 => (2, 1),
            Device::Em73P982 => (16, 2),
        };
        self.p0 < 16 && self.p8 < 16 && self.p4 < p4_limit && self.speech < speech_limit
    }

    /// P0.0 to P0.3 in bits 0 to 3, P8.0 to P8.3 in bits 4 to 7.
    pub fn wake_pins(&self) -> u8 {
        self.p0 | self.p8 << 4
    }
}

fn hexadecimal_digit(character: u8) -> Option<u8> {
    match character {
        b'0'..=b'9' => Some(character - b'0'),
        b'A'..=b'F' => Some(character - b'A' + 10),
        b'a'..=b'f' => Some(character - b'a' + 10),
        _ => None,
    }
}

#[cfg(test)]
mod tests {
    use super::*;

    #[test]
    fn either_case_and_nothing_else() {
        let frame = Frame { p0: 10, p8: 15, p4: 0, speech: 0 };
        assert_eq!(Frame::parse(Device::Em73862, b"aF0"), Some(frame));
        assert_eq!(Frame::parse(Device::Em73862, b"Af0"), Some(frame));
        for bad in [&b""[..], b"FF", b"FF2", b"FFF1", b"FG1", b"FF ", b"FF1\n"] {
            assert_eq!(Frame::parse(Device::Em73862, bad), None);
        }
    }

    #[test]
    fn four_digits_on_the_em73p982() {
        let frame = Frame { p0: 1, p8: 2, p4: 14, speech: 1 };
        assert_eq!(Frame::parse(Device::Em73P982, b"12E1"), Some(frame));
        assert_eq!(Frame::parse(Device::Em73P982, b"12e1"), Some(frame));
        assert_eq!(Frame::parse(Device::Em73P982, b"FFF0"), Some(Frame::idle(Device::Em73P982)));
        for bad in [&b""[..], b"FF1", b"FFF", b"FFF2", b"FFFF", b"FFG0", b"FFF ", b"FFF00", b"FFF0\n"] {
            assert_eq!(Frame::parse(Device::Em73P982, bad), None);
        }
    }
}

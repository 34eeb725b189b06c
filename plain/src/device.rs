//! The two devices: document 01's EM73862, and the EM73P982 of request Q-6.

#[derive(Clone, Copy, Debug, PartialEq, Eq)]
pub enum Device {
    Em73862,
    Em73P982,
}

impl Device {
    pub const ALL: [Device; 2] = [Device::Em73862, Device::Em73P982];

    pub fn name(self) -> &'static str {
        match self {
            Device::Em73862 => "EM73862",
            Device::Em73P982 => "EM73P982",
        }
    }

    pub fn named(name: &str) -> Option<Device> {
        Device::ALL.into_iter().find(|device| device.name() == name)
    }

    /// A program's words without the `--device NAME` that they may begin with, and the device: the EM73862 where they do not. None where
    /// no device has that name.
    pub fn chosen(words: &[String]) -> Option<(Device, &[String])> {
        match words {
            [option, words @ ..] if option == "--device" => {
                let (name, others) = words.split_first()?;
                Some((Device::named(name)?, others))
            }
            _ => Some((Device::Em73862, words)),
        }
    }

    /// "image is not 8,192 bytes"; "an image of 16,384 bytes in four banks of 4 KiB".
    pub fn image_size(self) -> usize {
        match self {
            Device::Em73862 => 8192,
            Device::Em73P982 => 16384,
        }
    }

    /// "A frame is three hexadecimal digits"; on the EM73P982 there is "a fourth frame digit".
    pub fn frame_length(self) -> usize {
        match self {
            Device::Em73862 => 3,
            Device::Em73P982 => 4,
        }
    }
}

#[cfg(test)]
mod tests {
    use super::*;

    #[test]
    fn words_choose_the_device() {
        let chosen = |words: &[&str]| {
            let words: Vec<String> = words.iter().map(|word| word.to_string()).collect();
            Device::chosen(&words).map(|(device, others)| (device, others.join(" ")))
        };
        assert_eq!(chosen(&[]), Some((Device::Em73862, String::new())));
        assert_eq!(chosen(&["image", "--device"]), Some((Device::Em73862, "image --device".to_string())));
        assert_eq!(chosen(&["--device", "EM73862", "image"]), Some((Device::Em73862, "image".to_string())));
        assert_eq!(chosen(&["--device", "EM73P982", "image"]), Some((Device::Em73P982, "image".to_string())));
        assert_eq!((chosen(&["--device"]), chosen(&["--device", "em73p982", "image"])), (None, None));
    }
}

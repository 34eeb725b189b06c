//! Images, and what of them stands at an address.

use crate::device::Device;
use crate::numbers;

/// Addresses are 0000h to 1FFFh on both devices.
pub const ADDRESSES: usize = 8192;

/// The image of the EM73862.
pub const IMAGE_SIZE: usize = 8192;

const BANK_SIZE: usize = 4096;

/// An image that is as long as its device's.
#[derive(Clone, Copy)]
pub struct Image<'a>(&'a [u8]);

/// An image through the window of a P3.
#[derive(Clone, Copy)]
pub struct Rom<'a> {
    image: &'a [u8],
    p3: u8,
}

/// The image, or 1 "by device size".
pub fn whole_image(device: Device, image: &[u8]) -> Result<Image<'_>, u8> {
    if image.len() == device.image_size() {
        Ok(Image(image))
    } else {
        Err(numbers::IMAGE_SIZE)
    }
}

/// "The reader and the bound take P3 as an input": 2 for one that no record can have. The EM73862 has no P3, and none is looked at.
pub fn given_p3(device: Device, p3: u32) -> Result<u8, u8> {
    match device {
        Device::Em73862 => Ok(0),
        Device::Em73P982 if p3 < 16 && !shows_no_bank(p3 as u8) => Ok(p3 as u8),
        Device::Em73P982 => Err(numbers::RECORD_RANGE),
    }
}

/// P3 bits 1..0 = 3.
pub fn shows_no_bank(p3: u8) -> bool {
    p3 & 3 == 3
}

/// "Addresses 0000h to 0FFFh are bank 0; 1000h to 1FFFh are bank 1, 2 or 3 for P3 bits 1..0 = 0, 1, 2". The EM73862's P3 is 0, and
/// its image is two banks.
pub fn place_in_image(p3: u8, address: u16) -> usize {
    let address = address as usize;
    if address < BANK_SIZE {
        address
    } else {
        address + BANK_SIZE * (p3 & 3) as usize
    }
}

impl<'a> Image<'a> {
    pub fn through(self, p3: u8) -> Rom<'a> {
        Rom { image: self.0, p3 }
    }
}

impl Rom<'_> {
    pub fn byte(self, address: u16) -> u8 {
        self.image[place_in_image(self.p3, address)]
    }
}

#[cfg(test)]
mod tests {
    use super::*;

    #[test]
    fn each_window_shows_its_bank() {
        for (p3, bank) in [(0, 1), (1, 2), (2, 3), (4, 1), (13, 2), (14, 3)] {
            assert_eq!(place_in_image(p3, 0x0FFF), 0x0FFF);
            assert_eq!((place_in_image(p3, 0x1000), place_in_image(p3, 0x1FFF)), (bank * 4096, bank * 4096 + 4095));
        }
    }

    #[test]
    fn images_and_inputs_by_device() {
        let sizes =
            |device| [0, 8191, 8192, 8193, 16383, 16384, 16385].map(|size| whole_image(device, &vec![0; size]).is_ok());
        assert_eq!(sizes(Device::Em73862), [false, false, true, false, false, false, false]);
        assert_eq!(sizes(Device::Em73P982), [false, false, false, false, false, true, false]);
        for p3 in [3, 7, 11, 15, 16, 17, 256, u32::MAX] {
            assert_eq!((given_p3(Device::Em73P982, p3), given_p3(Device::Em73862, p3)), (Err(2), Ok(0)));
        }
        for p3 in [0, 1, 2, 4, 14] {
            assert_eq!((given_p3(Device::Em73P982, p3), given_p3(Device::Em73862, p3)), (Ok(p3 as u8), Ok(0)));
        }
    }
}

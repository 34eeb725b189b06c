//! Document 01's worked handler and one that calls, with path buffers that are a byte short, that fit and that are longer.

use super::{answer, Case};
use crate::calls::{Call, Image, Paths};
use plain::numbers::PATH_BUFFER;
use plain::Device;

/// A handler's rows with their addresses, its start, its N and depth, and its two paths.
struct Handler {
    name: &'static str,
    codes: &'static [(usize, &'static [u8])],
    start: u16,
    most: u32,
    depth: u32,
    path: &'static [u16],
    deep: &'static [u16],
}

const HANDLERS: [Handler; 2] = [
    Handler {
        name: "document 01",
        codes: &[(0x10, &[0x6A, 0x20, 0x6E, 0x61, 0x18, 0xD1, 0x69, 0x21, 0x4D])],
        start: 0x10,
        most: 10,
        depth: 0,
        path: &[0x10, 0x12, 0x14, 0x15, 0x16, 0x18],
        deep: &[0x10, 0x12, 0x14, 0x15, 0x16, 0x18],
    },
    // TFA 0, SBR 0105; SCALL 000E, NOP, RTI; NOP, SCALL 000E, NOP, NOP, RTI. The routine: TFA 0, SBR 0011, RET, RET.
    Handler {
        name: "a handler that calls",
        codes: &[
            (0x100, &[0xF8, 0x05, 0xE1, 0x56, 0x4D, 0x56, 0xE1, 0x56, 0x56, 0x4D]),
            (0x0E, &[0xF8, 0x11, 0x4F, 0x56, 0x4F]),
        ],
        start: 0x100,
        most: 2 + 1 + 2 + 5 + 2 + 2,
        depth: 1,
        path: &[0x100, 0x101, 0x105, 0x106, 0x0E, 0x0F, 0x11, 0x12, 0x107, 0x108, 0x109],
        deep: &[0x100, 0x101, 0x102, 0x0E, 0x0F, 0x10, 0x103, 0x104],
    },
];

/// What the buffers hold before the call.
const UNSET: u8 = 0xEE;

/// How much longer than their paths the two buffers are; a byte short is less than nothing.
const ROOMS: [[isize; 2]; 7] = [[0, 0], [2, 0], [0, 3], [-1, 0], [0, -1], [-1, -1], [-2, 40]];

impl Handler {
    fn image(&self, device: Device) -> Image {
        let mut image = vec![0; device.image_size()];
        for (address, code) in self.codes {
            image[*address..address + code.len()].copy_from_slice(code);
        }
        image.into()
    }

    /// "23 gives the bytes needed for the first that is short, N's before depth's", and no buffer changes then.
    fn case(&self, device: Device, more: [isize; 2]) -> Case {
        let paths = [self.path, self.deep].map(|path| path.iter().flat_map(|at| at.to_le_bytes()).collect::<Vec<u8>>());
        let [path_room, deep_room] = [0, 1].map(|which| (paths[which].len() as isize + more[which]) as usize);
        let given = Paths::new(&vec![UNSET; path_room], &vec![UNSET; deep_room]);
        let (image, address) = (self.image(device), self.start as u32);
        let call = Call::Bound { device, image, p3: 0, address, paths: given.clone() };
        let mut buffer = call.changing().to_vec();
        let short = (0..2).find(|which| more[*which] < 0);
        if short.is_none() {
            let (path, deep) = given.apart(&mut buffer);
            path[..paths[0].len()].copy_from_slice(&paths[0]);
            deep[..paths[1].len()].copy_from_slice(&paths[1]);
        }
        let expected = match short {
            None => answer(0, &[self.most, self.depth], buffer),
            Some(which) => answer(PATH_BUFFER, &[paths[which].len() as u32, 0], buffer),
        };
        Case { name: format!("{}, path buffers of {path_room} and {deep_room} bytes", self.name), call, expected }
    }
}

pub fn cases() -> Vec<Case> {
    let mut cases = Vec::new();
    for (handler, device) in HANDLERS.iter().flat_map(|handler| Device::ALL.map(|device| (handler, device))) {
        cases.extend(ROOMS.map(|more| handler.case(device, more)));
    }
    cases
}

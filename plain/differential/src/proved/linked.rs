//! The archives linked into this program.

use crate::calls::{Answer, Call, Image, MOST_VALUES};
use plain::Device;
use std::sync::Arc;

/// include/em73862.h, include/em73862_pane.h and include/em73p982.h, a slice being a pointer and a length.
pub mod header {
    extern "C" {
        pub fn em73862_fresh(record: *mut u8, record_length: usize) -> u8;
        pub fn em73862_reset(record: *mut u8, record_length: usize) -> u8;
        pub fn em73862_is_valid(record: *const u8, record_length: usize) -> u8;
        pub fn em73862_step(
            image: *const u8,
            image_length: usize,
            wake: u8,
            sound: u8,
            record: *mut u8,
            record_length: usize,
            frame: *const u8,
            frame_length: usize,
            cycles: *mut u32,
        ) -> u8;
        pub fn em73862_look(
            wake: u8,
            sound: u8,
            record: *mut u8,
            record_length: usize,
            frame: *const u8,
            frame_length: usize,
            cycles: *mut u32,
        ) -> u8;
        pub fn em73862_act(
            image: *const u8,
            image_length: usize,
            wake: u8,
            sound: u8,
            record: *mut u8,
            record_length: usize,
            cycles: *mut u32,
        ) -> u8;
        pub fn em73862_why(
            image: *const u8,
            image_length: usize,
            wake: u8,
            sound: u8,
            record: *const u8,
            record_length: usize,
            frame: *const u8,
            frame_length: usize,
            holds: *mut u8,
            source: *mut u8,
            sources: *mut u8,
        ) -> u8;
        pub fn em73862_run(
            image: *const u8,
            image_length: usize,
            wake: u8,
            sound: u8,
            record: *mut u8,
            record_length: usize,
            frames: *const u8,
            frames_length: usize,
            steps: *mut u32,
            cycles: *mut u32,
        ) -> u8;
        pub fn em73862_display(record: *const u8, record_length: usize, dots: *mut u8, dots_length: usize) -> u8;
        pub fn em73862_read(
            image: *const u8,
            image_length: usize,
            address: u32,
            row: *mut u8,
            a: *mut u16,
            b: *mut u8,
        ) -> u8;
        pub fn em73862_write(row: u8, a: u16, b: u8, length: *mut u8, b0: *mut u8, b1: *mut u8, b2: *mut u8) -> u8;
        pub fn em73862_bound(
            image: *const u8,
            image_length: usize,
            address: u32,
            path: *mut u8,
            path_length: usize,
            deep: *mut u8,
            deep_length: usize,
            value: *mut u32,
            depth: *mut u32,
        ) -> u8;
        pub fn em73862_length(
            image: *const u8,
            image_length: usize,
            address: u32,
            bytes: *mut u8,
            cycles: *mut u8,
        ) -> u8;
        pub fn em73862_row(
            image: *const u8,
            image_length: usize,
            address: u32,
            row: *mut u8,
            first: *mut u16,
            second: *mut u16,
            goes: *mut u16,
            bytes: *mut u8,
            cycles: *mut u8,
        ) -> u8;
        pub fn em73862_notation(
            image: *const u8,
            image_length: usize,
            address: u32,
            text: *mut u8,
            text_length: usize,
            length: *mut u32,
        ) -> u8;
        pub fn em73p982_fresh(record: *mut u8, record_length: usize) -> u8;
        pub fn em73p982_reset(record: *mut u8, record_length: usize) -> u8;
        pub fn em73p982_is_valid(record: *const u8, record_length: usize) -> u8;
        pub fn em73p982_step(
            image: *const u8,
            image_length: usize,
            wake: u8,
            sound: u8,
            record: *mut u8,
            record_length: usize,
            frame: *const u8,
            frame_length: usize,
            cycles: *mut u32,
        ) -> u8;
        pub fn em73p982_look(
            wake: u8,
            sound: u8,
            record: *mut u8,
            record_length: usize,
            frame: *const u8,
            frame_length: usize,
            cycles: *mut u32,
        ) -> u8;
        pub fn em73p982_act(
            image: *const u8,
            image_length: usize,
            wake: u8,
            sound: u8,
            record: *mut u8,
            record_length: usize,
            cycles: *mut u32,
        ) -> u8;
        pub fn em73p982_why(
            image: *const u8,
            image_length: usize,
            wake: u8,
            sound: u8,
            record: *const u8,
            record_length: usize,
            frame: *const u8,
            frame_length: usize,
            holds: *mut u8,
            source: *mut u8,
            sources: *mut u8,
        ) -> u8;
        pub fn em73p982_run(
            image: *const u8,
            image_length: usize,
            wake: u8,
            sound: u8,
            record: *mut u8,
            record_length: usize,
            frames: *const u8,
            frames_length: usize,
            steps: *mut u32,
            cycles: *mut u32,
        ) -> u8;
        pub fn em73p982_display(record: *const u8, record_length: usize, dots: *mut u8, dots_length: usize) -> u8;
        pub fn em73p982_read(
            image: *const u8,
            image_length: usize,
            p3: u32,
            address: u32,
            row: *mut u8,
            a: *mut u16,
            b: *mut u8,
        ) -> u8;
        pub fn em73p982_bound(
            image: *const u8,
            image_length: usize,
            p3: u32,
            address: u32,
            path: *mut u8,
            path_length: usize,
            deep: *mut u8,
            deep_length: usize,
            value: *mut u32,
            depth: *mut u32,
        ) -> u8;
        pub fn em73p982_length(
            image: *const u8,
            image_length: usize,
            p3: u32,
            address: u32,
            bytes: *mut u8,
            cycles: *mut u8,
        ) -> u8;
        pub fn em73p982_row(
            image: *const u8,
            image_length: usize,
            p3: u32,
            address: u32,
            row: *mut u8,
            first: *mut u16,
            second: *mut u16,
            goes: *mut u16,
            bytes: *mut u8,
            cycles: *mut u8,
        ) -> u8;
        pub fn em73p982_notation(
            image: *const u8,
            image_length: usize,
            p3: u32,
            address: u32,
            text: *mut u8,
            text_length: usize,
            length: *mut u32,
        ) -> u8;
    }
}

/// What the numbers that come back hold before a call: one that a call leaves alone shows.
const UNSET: u8 = 0xAA;
const UNSET_16: u16 = 0xAAAA;
const UNSET_32: u32 = 0xAAAA_AAAA;

const MARGIN: [u8; 16] = [0xA5; 16];

#[derive(Default)]
pub struct Proved {
    /// The image of the last call that had one, and a copy of it that no call sees.
    image: Option<(Image, Vec<u8>)>,
}

impl Proved {
    pub fn answers(&mut self, calls: &[Call]) -> Vec<Answer> {
        calls.iter().map(|call| self.answer(call)).collect()
    }

    fn answer(&mut self, call: &Call) -> Answer {
        self.copy_image(call);
        let steady = call.steady().to_vec();
        let given = call.changing();
        let mut held = [&MARGIN, given, &MARGIN].concat();
        let inside = MARGIN.len()..MARGIN.len() + given.len();
        let (number, values) = ask(call, &mut held[inside.clone()]);
        let margins_kept = held[..inside.start] == MARGIN && held[inside.end..] == MARGIN;
        let image_kept = !self.image.as_ref().is_some_and(|(image, copy)| image[..] != copy[..]);
        Answer {
            number,
            values,
            buffer: held[inside].to_vec(),
            others_kept: margins_kept && image_kept && call.steady() == steady,
        }
    }

    fn copy_image(&mut self, call: &Call) {
        let Some(image) = call.image() else { return };
        if !self.image.as_ref().is_some_and(|(held, _)| Arc::ptr_eq(held, image)) {
            self.image = Some((image.clone(), image.to_vec()));
        }
    }
}

/// Values that a call does not have are 0.
fn values_of<const N: usize>(given: [u32; N]) -> [u32; MOST_VALUES] {
    let mut values = [0; MOST_VALUES];
    values[..N].copy_from_slice(&given);
    values
}

/// Makes the call with `buffer` for the one that it may change.
fn ask(call: &Call, buffer: &mut [u8]) -> (u8, [u32; MOST_VALUES]) {
    match call {
        Call::Fresh { .. } | Call::Reset { .. } | Call::IsValid { .. } | Call::Display { .. } => {
            (ask_record(call, buffer), [0; MOST_VALUES])
        }
        Call::Step { .. } | Call::Look { .. } | Call::Act { .. } => ask_step(call, buffer),
        Call::Run { .. } => ask_run(call, buffer),
        Call::Why { .. } => ask_why(call, buffer),
        Call::Read { .. } | Call::Length { .. } | Call::Row { .. } => ask_row(call),
        Call::Bound { .. } => ask_bound(call, buffer),
        Call::Notation { .. } => ask_notation(call, buffer),
        Call::Write { row, a, b } => {
            let [mut written, mut b0, mut b1, mut b2] = [UNSET; 4];
            // SAFETY: each pointer is that of a number of this function.
            let number = unsafe { header::em73862_write(*row, *a, *b, &mut written, &mut b0, &mut b1, &mut b2) };
            (number, values_of([written, b0, b1, b2].map(u32::from)))
        }
    }
}

/// The one of two calls that is the device's.
fn of<T>(device: Device, em73862: T, em73p982: T) -> T {
    match device {
        Device::Em73862 => em73862,
        Device::Em73P982 => em73p982,
    }
}

type OnRecord = unsafe extern "C" fn(*mut u8, usize) -> u8;
type OnSteadyRecord = unsafe extern "C" fn(*const u8, usize) -> u8;
type OnDots = unsafe extern "C" fn(*const u8, usize, *mut u8, usize) -> u8;

fn ask_record(call: &Call, buffer: &mut [u8]) -> u8 {
    let (changing, length) = (buffer.as_mut_ptr(), buffer.len());
    // SAFETY: each pointer is that of a whole slice with its length beside it; only `buffer` changes, which is lent to this call alone.
    unsafe {
        match call {
            Call::Fresh { device, .. } => {
                of::<OnRecord>(*device, header::em73862_fresh, header::em73p982_fresh)(changing, length)
            }
            Call::Reset { device, .. } => {
                of::<OnRecord>(*device, header::em73862_reset, header::em73p982_reset)(changing, length)
            }
            Call::IsValid { device, .. } => {
                of::<OnSteadyRecord>(*device, header::em73862_is_valid, header::em73p982_is_valid)(changing, length)
            }
            Call::Display { device, record, .. } => {
                let display = of::<OnDots>(*device, header::em73862_display, header::em73p982_display);
                display(record.as_ptr(), record.len(), changing, length)
            }
            _ => unreachable!("{} is asked elsewhere", call.kind().name()),
        }
    }
}

type Step = unsafe extern "C" fn(*const u8, usize, u8, u8, *mut u8, usize, *const u8, usize, *mut u32) -> u8;
type Look = unsafe extern "C" fn(u8, u8, *mut u8, usize, *const u8, usize, *mut u32) -> u8;
type Act = unsafe extern "C" fn(*const u8, usize, u8, u8, *mut u8, usize, *mut u32) -> u8;

fn ask_step(call: &Call, buffer: &mut [u8]) -> (u8, [u32; MOST_VALUES]) {
    let (changing, length) = (buffer.as_mut_ptr(), buffer.len());
    let mut cycles = UNSET_32;
    let cycles_at: *mut u32 = &mut cycles;
    // SAFETY: each pointer is that of a whole slice with its length beside it, or of a number; only `buffer` and the numbers change.
    let number = unsafe {
        match call {
            Call::Step { device, image, wake, sound, frame, .. } => {
                let step = of::<Step>(*device, header::em73862_step, header::em73p982_step);
                let (pins, characters) = (frame.as_ptr(), frame.len());
                step(image.as_ptr(), image.len(), *wake, *sound, changing, length, pins, characters, cycles_at)
            }
            Call::Look { device, wake, sound, frame, .. } => {
                let look = of::<Look>(*device, header::em73862_look, header::em73p982_look);
                look(*wake, *sound, changing, length, frame.as_ptr(), frame.len(), cycles_at)
            }
            Call::Act { device, image, wake, sound, .. } => {
                let act = of::<Act>(*device, header::em73862_act, header::em73p982_act);
                act(image.as_ptr(), image.len(), *wake, *sound, changing, length, cycles_at)
            }
            _ => unreachable!("{} is asked elsewhere", call.kind().name()),
        }
    };
    (number, values_of([cycles]))
}

type Run = unsafe extern "C" fn(*const u8, usize, u8, u8, *mut u8, usize, *const u8, usize, *mut u32, *mut u32) -> u8;

fn ask_run(call: &Call, buffer: &mut [u8]) -> (u8, [u32; MOST_VALUES]) {
    let Call::Run { device, image, wake, sound, frames, .. } = call else { unreachable!("this is no run") };
    let run = of::<Run>(*device, header::em73862_run, header::em73p982_run);
    let (changing, length) = (buffer.as_mut_ptr(), buffer.len());
    let (pins, characters) = (frames.as_ptr(), frames.len());
    let (mut steps, mut cycles) = (UNSET_32, UNSET_32);
    // SAFETY: each pointer is that of a whole slice with its length beside it, or of a number; only `buffer` and the numbers change.
    let number = unsafe {
        let (image, size) = (image.as_ptr(), image.len());
        run(image, size, *wake, *sound, changing, length, pins, characters, &mut steps, &mut cycles)
    };
    (number, values_of([steps, cycles]))
}

type Why =
    unsafe extern "C" fn(*const u8, usize, u8, u8, *const u8, usize, *const u8, usize, *mut u8, *mut u8, *mut u8) -> u8;

fn ask_why(call: &Call, buffer: &mut [u8]) -> (u8, [u32; MOST_VALUES]) {
    let Call::Why { device, image, wake, sound, frame, .. } = call else { unreachable!("this is no why") };
    let why = of::<Why>(*device, header::em73862_why, header::em73p982_why);
    let (record, length) = (buffer.as_ptr(), buffer.len());
    let (pins, characters) = (frame.as_ptr(), frame.len());
    let [mut holds, mut source, mut sources] = [UNSET; 3];
    // SAFETY: each pointer is that of a whole slice with its length beside it, or of a number; only the numbers change.
    let number = unsafe {
        let (image, size) = (image.as_ptr(), image.len());
        why(image, size, *wake, *sound, record, length, pins, characters, &mut holds, &mut source, &mut sources)
    };
    (number, values_of([holds, source, sources].map(u32::from)))
}

fn ask_row(call: &Call) -> (u8, [u32; MOST_VALUES]) {
    let [mut x, mut y, mut z] = [UNSET; 3];
    let [mut i, mut j, mut k] = [UNSET_16; 3];
    // SAFETY: each pointer is that of a whole slice with its length beside it, or of a number; only the numbers change.
    unsafe {
        match call {
            Call::Read { device, image, p3, address } => {
                let (at, n) = (image.as_ptr(), image.len());
                let number = match device {
                    Device::Em73862 => header::em73862_read(at, n, *address, &mut x, &mut i, &mut y),
                    Device::Em73P982 => header::em73p982_read(at, n, *p3, *address, &mut x, &mut i, &mut y),
                };
                (number, values_of([x as u32, i as u32, y as u32]))
            }
            Call::Length { device, image, p3, address } => {
                let (at, n) = (image.as_ptr(), image.len());
                let number = match device {
                    Device::Em73862 => header::em73862_length(at, n, *address, &mut x, &mut y),
                    Device::Em73P982 => header::em73p982_length(at, n, *p3, *address, &mut x, &mut y),
                };
                (number, values_of([x, y].map(u32::from)))
            }
            Call::Row { device, image, p3, address } => {
                let (at, n, words) = (image.as_ptr(), image.len(), [&mut i, &mut j, &mut k]);
                let [a, b, c] = words.map(|word| word as *mut u16);
                let number = match device {
                    Device::Em73862 => header::em73862_row(at, n, *address, &mut x, a, b, c, &mut y, &mut z),
                    Device::Em73P982 => header::em73p982_row(at, n, *p3, *address, &mut x, a, b, c, &mut y, &mut z),
                };
                (number, [x as u32, i as u32, j as u32, k as u32, y as u32, z as u32])
            }
            _ => unreachable!("{} is asked elsewhere", call.kind().name()),
        }
    }
}

fn ask_bound(call: &Call, buffer: &mut [u8]) -> (u8, [u32; MOST_VALUES]) {
    let Call::Bound { device, image, p3, address, paths } = call else {
        unreachable!("{} is asked elsewhere", call.kind().name())
    };
    let (path, deep) = paths.apart(buffer);
    let (at, n) = (image.as_ptr(), image.len());
    let (to, room, deep, deep_room) = (path.as_mut_ptr(), path.len(), deep.as_mut_ptr(), deep.len());
    let (mut value, mut depth) = (UNSET_32, UNSET_32);
    // SAFETY: each pointer is that of a whole slice with its length beside it, or of a number; only the two buffers and the numbers change.
    let number = unsafe {
        match device {
            Device::Em73862 => {
                header::em73862_bound(at, n, *address, to, room, deep, deep_room, &mut value, &mut depth)
            }
            Device::Em73P982 => {
                header::em73p982_bound(at, n, *p3, *address, to, room, deep, deep_room, &mut value, &mut depth)
            }
        }
    };
    (number, values_of([value, depth]))
}

fn ask_notation(call: &Call, buffer: &mut [u8]) -> (u8, [u32; MOST_VALUES]) {
    let Call::Notation { device, image, p3, address, .. } = call else {
        unreachable!("{} is asked elsewhere", call.kind().name())
    };
    let (at, n, to, room) = (image.as_ptr(), image.len(), buffer.as_mut_ptr(), buffer.len());
    let mut size = UNSET_32;
    // SAFETY: each pointer is that of a whole slice with its length beside it, or of a number; only `buffer` and the number change.
    let number = unsafe {
        match device {
            Device::Em73862 => header::em73862_notation(at, n, *address, to, room, &mut size),
            Device::Em73P982 => header::em73p982_notation(at, n, *p3, *address, to, room, &mut size),
        }
    };
    (number, values_of([size]))
}

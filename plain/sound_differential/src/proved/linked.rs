//! The archive linked into this program.

use crate::calls::{Answer, Call, Kind, UNSET};

/// include/em73862_sound.h, a slice being a pointer and a length.
mod header {
    extern "C" {
        pub fn em73862_sound_start(state: *mut u8, state_length: usize) -> u8;
        pub fn em73862_sound_write_p30(state: *mut u8, state_length: usize, value: u8) -> u8;
        pub fn em73862_sound_write_p24(state: *mut u8, state_length: usize, value: u8) -> u8;
        pub fn em73862_sound_write_p23(state: *mut u8, state_length: usize, value: u8) -> u8;
        pub fn em73862_sound_sleep(state: *mut u8, state_length: usize) -> u8;
        pub fn em73862_sound_wake(state: *mut u8, state_length: usize) -> u8;
        pub fn em73862_sound_advance(state: *mut u8, state_length: usize, pulses: u32) -> u8;
        pub fn em73862_sound_output(state: *const u8, state_length: usize, level: *mut u8) -> u8;
    }
}

const MARGIN: [u8; 4] = [0xA5; 4];

pub struct Proved;

impl Proved {
    #[allow(clippy::new_without_default)]
    pub fn new() -> Proved {
        Proved
    }

    pub fn answers(&mut self, calls: &[Call]) -> Vec<Answer> {
        calls.iter().map(answer).collect()
    }
}

fn answer(call: &Call) -> Answer {
    let mut held = [&MARGIN, &call.state[..], &MARGIN].concat();
    let inside = MARGIN.len()..MARGIN.len() + call.state.len();
    let (number, level) = ask(call, &mut held[inside.clone()]);
    let others_kept = held[..inside.start] == MARGIN && held[inside.end..] == MARGIN;
    Answer { number, level, state: held[inside].to_vec(), others_kept }
}

/// Every pointer below is that of a whole slice or of a number, with the slice's length beside it, as the header asks.
fn ask(call: &Call, buffer: &mut [u8]) -> (u8, u8) {
    let (state, length) = (buffer.as_mut_ptr(), buffer.len());
    let value = call.value;
    let mut level = UNSET;
    let number = unsafe {
        match call.kind {
            Kind::Start => header::em73862_sound_start(state, length),
            Kind::WriteP30 => header::em73862_sound_write_p30(state, length, value as u8),
            Kind::WriteP24 => header::em73862_sound_write_p24(state, length, value as u8),
            Kind::WriteP23 => header::em73862_sound_write_p23(state, length, value as u8),
            Kind::Sleep => header::em73862_sound_sleep(state, length),
            Kind::Wake => header::em73862_sound_wake(state, length),
            Kind::Advance => header::em73862_sound_advance(state, length, value),
            Kind::Output => header::em73862_sound_output(state, length, &mut level),
        }
    };
    (number, level)
}

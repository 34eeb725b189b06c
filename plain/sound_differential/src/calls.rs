//! The eight calls of include/em73862_sound.h as values, and the plain generator's answer to each.

use plain::{numbers, sound_start, Sound};

pub const STATE_BYTES: usize = 8;

/// What a level holds before a call: one that a call leaves alone shows.
pub const UNSET: u8 = 0xAA;

#[derive(Clone, Copy, Debug, PartialEq, Eq)]
pub enum Kind {
    Start,
    WriteP30,
    WriteP24,
    WriteP23,
    Sleep,
    Wake,
    Advance,
    Output,
}

impl Kind {
    pub const ALL: [Kind; 8] = [
        Kind::Start,
        Kind::WriteP30,
        Kind::WriteP24,
        Kind::WriteP23,
        Kind::Sleep,
        Kind::Wake,
        Kind::Advance,
        Kind::Output,
    ];
}

/// value: what a port is written with, or the pulses.
#[derive(Clone, Debug)]
pub struct Call {
    pub kind: Kind,
    pub value: u32,
    pub state: Vec<u8>,
}

#[derive(Clone, Debug, PartialEq, Eq)]
pub struct Answer {
    pub number: u8,
    pub level: u8,
    pub state: Vec<u8>,
    pub others_kept: bool,
}

/// The bytes of a state, as the header has them.
pub fn bytes_of(sound: &Sound) -> Vec<u8> {
    let [low, high] = sound.bits.to_le_bytes();
    vec![sound.mode, sound.asleep as u8, sound.tf, sound.count, sound.tone as u8, low, high, sound.p24]
}

fn sound_of(bytes: &[u8]) -> Result<Sound, u8> {
    let &[mode, asleep, tf, count, tone, low, high, p24] = bytes else { return Err(numbers::RECORD_RANGE) };
    if asleep > 1 || tone > 1 {
        return Err(numbers::RECORD_RANGE);
    }
    let bits = u16::from_le_bytes([low, high]);
    Ok(Sound { mode, asleep: asleep == 1, tf, count, tone: tone == 1, bits, p24 })
}

pub fn plainly(call: &Call) -> Answer {
    if call.kind == Kind::Output {
        let (number, level) = match sound_of(&call.state).and_then(Sound::output) {
            Ok(high) => (numbers::NONE, high as u8),
            Err(number) => (number, 0),
        };
        return Answer { number, level, state: call.state.clone(), others_kept: true };
    }
    let (number, state) = match changed(call) {
        Ok(sound) => (numbers::NONE, bytes_of(&sound)),
        Err(number) => (number, call.state.clone()),
    };
    Answer { number, level: UNSET, state, others_kept: true }
}

fn changed(call: &Call) -> Result<Sound, u8> {
    if call.kind == Kind::Start {
        return if call.state.len() == STATE_BYTES { Ok(sound_start()) } else { Err(numbers::RECORD_RANGE) };
    }
    let sound = sound_of(&call.state)?;
    match call.kind {
        Kind::WriteP30 => sound.write_p30(call.value as u8),
        Kind::WriteP24 => sound.write_p24(call.value as u8),
        Kind::WriteP23 => sound.write_p23(call.value as u8),
        Kind::Sleep => sound.sleep(),
        Kind::Wake => sound.wake(),
        _ => sound.advance(call.value),
    }
}

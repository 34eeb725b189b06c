//! The archives in a server, server.c.

use crate::calls::{Answer, Call, Image, Kind, MOST_VALUES};
use archives::Server;
use plain::Device;
use std::io::{self, Read, Write};
use std::sync::Arc;

/// Not a call: gives the image of those that follow.
const TAKE_IMAGE: u32 = 0;

pub struct Proved {
    server: Server,
    /// The image that the server has.
    image: Option<Image>,
}

impl Default for Proved {
    fn default() -> Proved {
        Proved { server: Server::start("em73862-server"), image: None }
    }
}

impl Proved {
    pub fn answers(&mut self, calls: &[Call]) -> Vec<Answer> {
        let Proved { server, image } = self;
        server.answers(calls, |requests, calls| send(requests, image, calls), receive)
    }
}

fn send(requests: &mut impl Write, held: &mut Option<Image>, calls: &[Call]) -> io::Result<()> {
    for call in calls {
        if let Some(image) = call.image() {
            let is_held = held.as_ref().is_some_and(|held| Arc::ptr_eq(held, image));
            if !is_held {
                send_request(requests, [TAKE_IMAGE, 0, 0, 0, 0], &[], image)?;
                *held = Some(image.clone());
            }
        }
        let [first, second, third] = numbers_of(call);
        let words = [code_of(call.kind()), device_of(call), first, second, third];
        send_request(requests, words, call.changing(), call.steady())?;
    }
    requests.flush()
}

/// server.c's `struct request`, then the two buffers.
fn send_request(requests: &mut impl Write, words: [u32; 5], changing: &[u8], steady: &[u8]) -> io::Result<()> {
    let lengths = [changing.len() as u32, steady.len() as u32];
    let mut head = [0; 28];
    for (place, word) in head.chunks_exact_mut(4).zip(words.into_iter().chain(lengths)) {
        place.copy_from_slice(&word.to_le_bytes());
    }
    requests.write_all(&head)?;
    requests.write_all(changing)?;
    requests.write_all(steady)
}

/// server.c's `struct answer`, then the buffer that the call may change.
fn receive(answers: &mut impl Read, call: &Call) -> io::Result<Answer> {
    let mut head = [0; 8 + 4 * MOST_VALUES];
    answers.read_exact(&mut head)?;
    let word = |at: usize| u32::from_le_bytes([head[4 * at], head[4 * at + 1], head[4 * at + 2], head[4 * at + 3]]);
    let mut values = [0; MOST_VALUES];
    for (at, value) in values.iter_mut().enumerate() {
        *value = word(2 + at);
    }
    let mut buffer = vec![0; call.changing().len()];
    answers.read_exact(&mut buffer)?;
    Ok(Answer { number: word(0) as u8, values, buffer, others_kept: word(1) == 1 })
}

fn code_of(kind: Kind) -> u32 {
    match kind {
        Kind::Fresh => 1,
        Kind::Reset => 2,
        Kind::IsValid => 3,
        Kind::Step => 4,
        Kind::Run => 5,
        Kind::Display => 6,
        Kind::Read => 7,
        Kind::Write => 8,
        Kind::Bound => 9,
        Kind::Look => 10,
        Kind::Act => 11,
        Kind::Length => 12,
        Kind::Row => 13,
        Kind::Notation => 14,
        Kind::Why => 15,
    }
}

fn device_of(call: &Call) -> u32 {
    match call.device() {
        Device::Em73862 => 0,
        Device::Em73P982 => 1,
    }
}

fn numbers_of(call: &Call) -> [u32; 3] {
    match call {
        Call::Step { wake, sound, .. }
        | Call::Look { wake, sound, .. }
        | Call::Act { wake, sound, .. }
        | Call::Run { wake, sound, .. }
        | Call::Why { wake, sound, .. } => [*wake as u32, *sound as u32, 0],
        Call::Bound { p3, address, paths, .. } => [*address, *p3, paths.rooms()[0] as u32],
        Call::Read { p3, address, .. }
        | Call::Length { p3, address, .. }
        | Call::Row { p3, address, .. }
        | Call::Notation { p3, address, .. } => [*address, *p3, 0],
        Call::Write { row, a, b } => [*row as u32, *a as u32, *b as u32],
        Call::Fresh { .. } | Call::Reset { .. } | Call::IsValid { .. } | Call::Display { .. } => [0; 3],
    }
}

//! The archive in a server, server.c. A request and an answer have 24 bytes each.

use crate::calls::{Answer, Call, Kind};
use archives::Server;
use std::io::{Read, Write};

const HEAD: usize = 12;
const MESSAGE: usize = 24;

pub struct Proved(Server);

impl Proved {
    #[allow(clippy::new_without_default)]
    pub fn new() -> Proved {
        Proved(Server::start("em73862-sound-server"))
    }

    pub fn answers(&mut self, calls: &[Call]) -> Vec<Answer> {
        let send = |requests: &mut archives::Requests, calls: &[Call]| {
            calls.iter().try_for_each(|call| requests.write_all(&request(call)))?;
            requests.flush()
        };
        self.0.answers(calls, send, |answers, call| {
            let mut bytes = [0; MESSAGE];
            answers.read_exact(&mut bytes)?;
            Ok(answer(call, &bytes))
        })
    }
}

/// server.c's `struct request`.
fn request(call: &Call) -> [u8; MESSAGE] {
    let mut bytes = [0; MESSAGE];
    for (place, word) in bytes.chunks_exact_mut(4).zip([code_of(call.kind), call.value, call.state.len() as u32]) {
        place.copy_from_slice(&word.to_le_bytes());
    }
    bytes[HEAD..HEAD + call.state.len()].copy_from_slice(&call.state);
    bytes
}

/// server.c's `struct answer`.
fn answer(call: &Call, bytes: &[u8]) -> Answer {
    let state = bytes[HEAD..HEAD + call.state.len()].to_vec();
    Answer { number: bytes[0], level: bytes[4], state, others_kept: bytes[8] == 1 }
}

fn code_of(kind: Kind) -> u32 {
    match kind {
        Kind::Start => 1,
        Kind::WriteP30 => 2,
        Kind::WriteP24 => 3,
        Kind::WriteP23 => 4,
        Kind::Sleep => 5,
        Kind::Wake => 6,
        Kind::Advance => 7,
        Kind::Output => 8,
    }
}

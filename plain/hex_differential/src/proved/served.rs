//! The archive in a server, server.c.

use super::{Answer, Call};
use archives::Server;
use plain::Device;
use std::io::{self, Read, Write};

pub struct Proved(Server);

impl Proved {
    #[allow(clippy::new_without_default)]
    pub fn new() -> Proved {
        Proved(Server::start("em73862-hex-server"))
    }

    pub fn answers(&mut self, device: Device, calls: &[Call]) -> Vec<Answer> {
        self.0.answers(calls, |requests, calls| send(requests, device, calls), receive)
    }
}

/// server.c's `struct request`, then the two buffers and the chunks.
fn send(requests: &mut impl Write, device: Device, calls: &[Call]) -> io::Result<()> {
    for call in calls {
        let code: u32 = match call {
            Call::Read { .. } => 1,
            Call::Write { .. } => 2,
            Call::Chunks { .. } => 3,
            Call::State { .. } => 4,
        };
        let lengths = call.lengths();
        let place = u32::from(device == Device::Em73P982);
        for word in [place, code, call.steady().len() as u32, call.changing().len() as u32, lengths.len() as u32] {
            requests.write_all(&word.to_le_bytes())?;
        }
        requests.write_all(call.steady())?;
        requests.write_all(call.changing())?;
        for length in lengths {
            requests.write_all(&length.to_le_bytes())?;
        }
    }
    requests.flush()
}

/// server.c's `struct answer`, then the buffer where it was changed.
fn receive(answers: &mut impl Read, call: &Call) -> io::Result<Answer> {
    let mut head = [0; 24];
    answers.read_exact(&mut head)?;
    let word = |at: usize| u32::from_le_bytes([head[at], head[at + 1], head[at + 2], head[at + 3]]);
    let mut buffer = call.changing().to_vec();
    if word(4) == 1 {
        answers.read_exact(&mut buffer)?;
    }
    let line = u64::from(word(16)) | u64::from(word(20)) << 32;
    Ok(Answer {
        number: word(0) as u8,
        line: if matches!(call, Call::Write { .. }) { 0 } else { line as usize },
        told: word(8) as usize,
        repeated: matches!(call, Call::Chunks { .. } | Call::State { .. }) && word(12) == 1,
        buffer,
    })
}

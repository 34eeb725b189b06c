//! The archives in a server, server.c.

use super::{Answer, Call};
use archives::Server;
use plain::Device;
use std::io::{self, Read, Write};

pub struct Proved(Server);

impl Proved {
    #[allow(clippy::new_without_default)]
    pub fn new() -> Proved {
        Proved(Server::start("em73862-compare-server"))
    }

    pub fn answers(&mut self, calls: &[Call]) -> Vec<Answer> {
        self.0.answers(calls, send, |answers, _| receive(answers))
    }
}

/// The image is the one of the request before.
const IMAGE_BEFORE: u32 = u32::MAX;

/// server.c's `struct request`, then the image, where it is another, the script and the listing.
fn send(requests: &mut impl Write, calls: &[Call]) -> io::Result<()> {
    let mut before: Option<&[u8]> = None;
    for call in calls {
        let image = call.image.as_slice();
        let known = before == Some(image);
        before = Some(image);
        let device = (call.device != Device::Em73862) as u32;
        let length = if known { IMAGE_BEFORE } else { image.len() as u32 };
        for word in [device, length, call.script.len() as u32, call.listing.len() as u32] {
            requests.write_all(&word.to_le_bytes())?;
        }
        if !known {
            requests.write_all(image)?;
        }
        requests.write_all(&call.script)?;
        requests.write_all(&call.listing)?;
    }
    requests.flush()
}

/// server.c's `struct answer`.
fn receive(answers: &mut impl Read) -> io::Result<Answer> {
    let mut head = [0; 16];
    answers.read_exact(&mut head)?;
    let word = |at: usize| u32::from_le_bytes([head[at], head[at + 1], head[at + 2], head[at + 3]]);
    let line = u64::from(word(8)) | u64::from(word(12)) << 32;
    Ok(Answer { number: word(0) as u8, line, field: word(4) as u8 })
}

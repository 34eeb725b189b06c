//! The archive linked into this program.

use super::{Answer, Call};
use plain::Device;

type Read = unsafe extern "C" fn(*const u8, usize, *mut u8, usize, *mut usize) -> u8;
type Write = unsafe extern "C" fn(*const u8, usize, *mut u8, usize) -> u8;
type Start = unsafe extern "C" fn(*mut u8, usize) -> u8;
type Feed = unsafe extern "C" fn(*mut u8, usize, *const u8, usize, *mut u8, usize, *const u8, usize, *mut usize) -> u8;
type End = unsafe extern "C" fn(*mut u8, usize, *mut u8, usize, *mut u8, usize, *mut usize) -> u8;

/// A device's calls: include/em73862_hex.h and include/em73p982_hex.h, a slice being a pointer and a length.
#[derive(Clone, Copy)]
struct Calls {
    read: Read,
    write: Write,
    start: Start,
    feed: Feed,
    end: End,
    work_bytes: usize,
    image_bytes: usize,
}

macro_rules! header {
    ($read:ident, $write:ident, $start:ident, $feed:ident, $end:ident) => {
        extern "C" {
            fn $read(text: *const u8, text_length: usize, image: *mut u8, image_length: usize, line: *mut usize) -> u8;
            fn $write(image: *const u8, image_length: usize, text: *mut u8, text_length: usize) -> u8;
            fn $start(state: *mut u8, state_length: usize) -> u8;
            fn $feed(
                state: *mut u8,
                state_length: usize,
                chunk: *const u8,
                chunk_length: usize,
                work: *mut u8,
                work_length: usize,
                image: *const u8,
                image_length: usize,
                line: *mut usize,
            ) -> u8;
            fn $end(
                state: *mut u8,
                state_length: usize,
                work: *mut u8,
                work_length: usize,
                image: *mut u8,
                image_length: usize,
                line: *mut usize,
            ) -> u8;
        }
    };
}

header!(em73862_hex_read, em73862_hex_write, em73862_hex_start, em73862_hex_feed, em73862_hex_end);
header!(em73p982_hex_read, em73p982_hex_write, em73p982_hex_start, em73p982_hex_feed, em73p982_hex_end);

fn calls_of(device: Device) -> Calls {
    match device {
        Device::Em73862 => Calls {
            read: em73862_hex_read,
            write: em73862_hex_write,
            start: em73862_hex_start,
            feed: em73862_hex_feed,
            end: em73862_hex_end,
            work_bytes: 9_216,
            image_bytes: 8_192,
        },
        Device::Em73P982 => Calls {
            read: em73p982_hex_read,
            write: em73p982_hex_write,
            start: em73p982_hex_start,
            feed: em73p982_hex_feed,
            end: em73p982_hex_end,
            work_bytes: 18_432,
            image_bytes: 16_384,
        },
    }
}

pub struct Proved;

impl Proved {
    #[allow(clippy::new_without_default)]
    pub fn new() -> Proved {
        Proved
    }

    pub fn answers(&mut self, device: Device, calls: &[Call]) -> Vec<Answer> {
        let header = calls_of(device);
        calls.iter().map(|call| answer(header, call)).collect()
    }
}

/// Every pointer below is that of a whole slice or of a number, with the slice's length beside it, as the header asks.
fn answer(header: Calls, call: &Call) -> Answer {
    let steady = call.steady();
    let mut buffer = call.changing().to_vec();
    match call {
        Call::Read { .. } => {
            let mut line = 0xAAAA_AAAA;
            let number =
                unsafe { (header.read)(steady.as_ptr(), steady.len(), buffer.as_mut_ptr(), buffer.len(), &mut line) };
            Answer { number, line, told: 0, repeated: false, buffer }
        }
        Call::Chunks { text, .. } => in_chunks(header, text, call.lengths(), buffer),
        Call::State { state, .. } => judged(header, state, buffer),
        Call::Write { .. } => {
            let number = unsafe { (header.write)(steady.as_ptr(), steady.len(), buffer.as_mut_ptr(), buffer.len()) };
            Answer { number, line: 0, told: 0, repeated: false, buffer }
        }
    }
}

/// The headers: the number of a buffer that is no state, the one while nothing is told, and the state's size.
const NO_STATE: u8 = 2;
const MORE: u8 = 255;
const STATE_BYTES: usize = 550;

#[derive(Clone, PartialEq)]
struct Buffers {
    state: Vec<u8>,
    work: Vec<u8>,
}

struct Reader {
    header: Calls,
    buffers: Buffers,
}

impl Reader {
    fn of(header: Calls, state: Vec<u8>) -> Reader {
        Reader { header, buffers: Buffers { state, work: vec![0x5A; header.work_bytes] } }
    }

    fn start(header: Calls) -> Reader {
        let mut state = vec![0x5A; STATE_BYTES];
        unsafe { (header.start)(state.as_mut_ptr(), state.len()) };
        Reader::of(header, state)
    }

    fn feed(&mut self, chunk: &[u8], image: &[u8]) -> (u8, usize) {
        let Buffers { state, work } = &mut self.buffers;
        let mut line = 0xAAAA_AAAA;
        let number = unsafe {
            (self.header.feed)(
                state.as_mut_ptr(),
                state.len(),
                chunk.as_ptr(),
                chunk.len(),
                work.as_mut_ptr(),
                work.len(),
                image.as_ptr(),
                image.len(),
                &mut line,
            )
        };
        (number, line)
    }

    fn end(&mut self, image: &mut [u8]) -> (u8, usize) {
        let Buffers { state, work } = &mut self.buffers;
        let mut line = 0xAAAA_AAAA;
        let number = unsafe {
            (self.header.end)(
                state.as_mut_ptr(),
                state.len(),
                work.as_mut_ptr(),
                work.len(),
                image.as_mut_ptr(),
                image.len(),
                &mut line,
            )
        };
        (number, line)
    }
}

fn in_chunks(header: Calls, text: &[u8], lengths: &[u32], mut buffer: Vec<u8>) -> Answer {
    let mut reader = Reader::start(header);
    let mut at = 0;
    let mut told = 0;
    let mut answer = (MORE, 0);
    for (place, &length) in lengths.iter().enumerate() {
        answer = reader.feed(&text[at..at + length as usize], &buffer);
        at += length as usize;
        if answer.0 != MORE {
            told = place + 1;
            break;
        }
    }
    if told == 0 {
        answer = reader.end(&mut buffer);
    }
    let (then, image_then) = (reader.buffers.clone(), buffer.clone());
    let again = [reader.feed(text, &buffer), reader.end(&mut buffer)];
    let repeated =
        buffer.len() != header.image_bytes || (again == [answer; 2] && reader.buffers == then && buffer == image_then);
    Answer { number: answer.0, line: answer.1, told, repeated, buffer: image_then }
}

fn judged(header: Calls, state: &[u8], mut buffer: Vec<u8>) -> Answer {
    let mut reader = Reader::of(header, state.to_vec());
    let (then, image_then) = (reader.buffers.clone(), buffer.clone());
    let fed = reader.feed(&[], &buffer);
    if fed.0 != NO_STATE {
        return Answer { number: 0, line: 0, told: 0, repeated: true, buffer };
    }
    let ended = reader.end(&mut buffer);
    let stays = fed == (NO_STATE, 0) && ended == fed && reader.buffers == then && buffer == image_then;
    Answer { number: NO_STATE, line: 0, told: 0, repeated: stays, buffer }
}

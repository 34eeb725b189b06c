//! Request Q-6: "Refusals: 1 by device size, 3 by device frame", and fresh and reset records of the EM73P982.

use super::record::{fresh_p982, with, with_last_frame};
use super::{answer, image_from, refused, Case, ALL_WAKE, NOP, SOUND_OFF};
use crate::calls::{Call, Image};
use crate::layout::RECORD_BYTES;
use plain::numbers::{IMAGE_SIZE, NO_FRAME, RECORD_RANGE, TOO_MANY_FRAMES};
use plain::{Device, MOST_FRAMES};

const DEVICE: Device = Device::Em73P982;

/// The image's length, P3, the frame, and the number of step and of run: 1 comes before 2, and 2 before 3.
const IMAGES: [(usize, u32, &[u8], u8); 7] = [
    (8192, 3, b"FF1", IMAGE_SIZE),
    (16383, 0, b"FFF0", IMAGE_SIZE),
    (16385, 0, b"FFF0", IMAGE_SIZE),
    (0, 0, b"FFF0", IMAGE_SIZE),
    (16384, 3, b"FF1", RECORD_RANGE),
    (16384, 0, b"FF1", NO_FRAME),
    (16384, 0, b"FFF0", 0),
];

/// What is no frame here, and frames in either case.
const NO_FRAMES: [&[u8]; 8] = [b"", b"FF1", b"FFF", b"FFF2", b"FFFF", b"FFG0", b"FFF00", b"FFF0FFF0"];
const EITHER_CASE: [&[u8]; 2] = [b"a5e1", b"A5E1"];

/// The bytes of the most frames that a run takes.
const MOST: usize = MOST_FRAMES * 4;

/// The bytes of frames FFF0, and the number.
const LIMITS: [(usize, u8); 6] =
    [(MOST, 0), (MOST - 1, NO_FRAME), (MOST + 1, TOO_MANY_FRAMES), (MOST + 4, TOO_MANY_FRAMES), (3, NO_FRAME), (0, 0)];

pub fn cases() -> Vec<Case> {
    [images(), frames(), limits(), starts()].into_iter().flatten().collect()
}

fn step(image: Image, record: Vec<u8>, frame: &[u8]) -> Call {
    Call::Step { device: DEVICE, image, wake: ALL_WAKE, sound: SOUND_OFF, record, frame: frame.to_vec() }
}

fn run(image: Image, record: Vec<u8>, frames: &[u8]) -> Call {
    Call::Run { device: DEVICE, image, wake: ALL_WAKE, sound: SOUND_OFF, record, frames: frames.to_vec() }
}

/// The fresh record after so many NOPs, a cycle each.
fn after_nops(count: u32) -> Vec<u8> {
    with(&fresh_p982(), &[("PC", count % 8192), ("time base", 8 * count % (1 << 22))])
}

fn images() -> Vec<Case> {
    let mut cases = Vec::new();
    for (length, p3, frame, number) in IMAGES {
        let image: Image = vec![NOP; length].into();
        let record = with(&fresh_p982(), &[("P3", p3)]);
        let name = format!("image of {length} bytes, P3 {p3}, frame {}", frame.escape_ascii());
        for (call, values) in [
            (step(image.clone(), record.clone(), frame), &[1][..]),
            (run(image.clone(), record.clone(), frame), &[1, 1]),
        ] {
            let expected = if number == 0 { answer(0, values, after_nops(1)) } else { refused(number, &call) };
            cases.push(Case { name: name.clone(), call, expected });
        }
    }
    cases
}

fn frames() -> Vec<Case> {
    let nops = image_from(DEVICE, &[NOP]);
    let mut cases = Vec::new();
    for frame in NO_FRAMES {
        let call = step(nops.clone(), fresh_p982(), frame);
        cases.push(Case { name: format!("frame {}", frame.escape_ascii()), expected: refused(NO_FRAME, &call), call });
    }
    for frame in EITHER_CASE {
        // The digit sets IL0, and P8.0 and P8.2 stay 1: P8 is 5.
        let after = with(&with_last_frame(&after_nops(1), b"A5E1"), &[("IL", 1)]);
        let call = step(nops.clone(), fresh_p982(), frame);
        cases.push(Case { name: format!("frame {}", frame.escape_ascii()), expected: answer(0, &[1], after), call });
    }
    cases
}

fn limits() -> Vec<Case> {
    let nops = image_from(DEVICE, &[NOP]);
    let frames = b"FFF0".repeat(MOST_FRAMES + 1);
    let case = |(bytes, number): (usize, u8)| {
        let call = run(nops.clone(), fresh_p982(), &frames[..bytes]);
        let steps = (bytes / 4) as u32;
        let expected = if number == 0 { answer(0, &[steps, steps], after_nops(steps)) } else { refused(number, &call) };
        Case { name: format!("run of {bytes} bytes of frames"), call, expected }
    };
    LIMITS.into_iter().map(case).collect()
}

/// The fresh record, and one that is reset: RAM, ACC, HR, LR, SP, DP, CF and ZF stay.
fn starts() -> Vec<Case> {
    let device = DEVICE;
    let kept = [("ACC", 7), ("HR", 6), ("SP", 5), ("DP", 0x123), ("CF", 1), ("RAM 17Fh", 9)];
    let others = [("P3", 14), ("P5", 5), ("P6", 6), ("P17", 7), ("PC", 0x1FFF), ("IL", 1)];
    let record = with_last_frame(&with(&fresh_p982(), &[&kept[..], &others].concat()), b"0031");
    let fresh = Call::Fresh { device, record: vec![0xAA; RECORD_BYTES] };
    let short = Call::Fresh { device, record: vec![0xAA; RECORD_BYTES - 1] };
    vec![
        Case { name: "the fresh record".to_string(), expected: answer(0, &[], fresh_p982()), call: fresh },
        Case { name: "a byte short".to_string(), expected: refused(RECORD_RANGE, &short), call: short },
        Case {
            name: "reset".to_string(),
            call: Call::Reset { device, record },
            expected: answer(0, &[], with(&fresh_p982(), &kept)),
        },
    ]
}

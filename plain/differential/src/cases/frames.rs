//! Document 01, "What comes back": images, frames and runs at their limits, and the order of the refusals.

use super::record::{fresh, with, with_last_frame};
use super::{answer, image_from, refused, Case, ALL_WAKE, NOP, SOUND_OFF};
use crate::calls::{Answer, Call, Image};
use plain::numbers::{IMAGE_SIZE as WRONG_IMAGE_SIZE, NO_FRAME, RECORD_RANGE, TOO_MANY_FRAMES, UNASSIGNED};
use plain::{Device, MOST_FRAMES};

const DEVICE: Device = Device::Em73862;
const FRAME_LENGTH: usize = 3;

/// An ACC outside its range.
const BAD_ACC: u32 = 16;

/// The image's length, ACC, the frame, and the number of step and of run: 1 comes before 2, and 2 before 3.
const IMAGES: [(usize, u32, &[u8; 3], u8); 7] = [
    (8191, 0, b"FF1", WRONG_IMAGE_SIZE),
    (8191, BAD_ACC, b"FF2", WRONG_IMAGE_SIZE),
    (8192, BAD_ACC, b"FF2", RECORD_RANGE),
    (8192, 0, b"FF2", NO_FRAME),
    (8192, 0, b"FF1", 0),
    (8193, 0, b"FF1", WRONG_IMAGE_SIZE),
    (0, 0, b"FF1", WRONG_IMAGE_SIZE),
];

/// What is no frame: "A frame is three hexadecimal digits, either case: P0, P8, P4.0 (0 or 1)."
const NO_FRAMES: [&[u8]; 7] = [b"", b"FF", b"FF11", b"FF1FF1", b"FF2", b"FG1", b"GF1"];

const EITHER_CASE: [&[u8; 3]; 2] = [b"a50", b"A50"];

/// The bytes of the most frames that a run takes.
const MOST: usize = MOST_FRAMES * FRAME_LENGTH;

/// A run of NOPs over frames FF1, or over some whose last within the limit is FF2: their bytes, whether it is FF2, ACC, and the
/// number. Number 4 is "run given more bytes than 65,536 frames take", and "4 comes before 3".
const LIMITS: [(usize, bool, u32, u8); 8] = [
    (MOST, false, 0, 0),
    (MOST - 1, false, 0, NO_FRAME),
    (MOST + 1, false, 0, TOO_MANY_FRAMES),
    (MOST + 3, false, 0, TOO_MANY_FRAMES),
    (MOST + 1, false, BAD_ACC, RECORD_RANGE),
    (0, false, 0, 0),
    (MOST, true, 0, NO_FRAME),
    (MOST + 1, true, 0, TOO_MANY_FRAMES),
];

/// A NOP, and then an unassigned code.
const NOP_AND_STOP: [u8; 2] = [NOP, 0x54];

/// Frames at that image, and the last frame where the second step stops, which is that step's own; none where the run is refused.
/// "A run checks all frames first, makes one step a frame, and ends early at a stop."
const STOPS: [(&[u8], Option<&[u8; 3]>); 4] =
    [(b"FF1EF1", Some(b"EF1")), (b"EF1DF1FF1", Some(b"DF1")), (b"EF1DF1FF2", None), (b"EF1DF1FF", None)];

pub fn cases() -> Vec<Case> {
    [images(), step_frames(), limits(), stops()].into_iter().flatten().collect()
}

fn step(image: Image, record: Vec<u8>, frame: &[u8]) -> Call {
    Call::Step { device: DEVICE, image, wake: ALL_WAKE, sound: SOUND_OFF, record, frame: frame.to_vec() }
}

fn run(image: Image, record: Vec<u8>, frames: &[u8]) -> Call {
    Call::Run { device: DEVICE, image, wake: ALL_WAKE, sound: SOUND_OFF, record, frames: frames.to_vec() }
}

/// The fresh record after so many NOPs, a cycle each.
fn after_nops(count: u32) -> Vec<u8> {
    with(&fresh(), &[("PC", count % 8192), ("time base", 8 * count % (1 << 22))])
}

fn images() -> Vec<Case> {
    let mut cases = Vec::new();
    for (length, acc, frame, number) in IMAGES {
        let image: Image = vec![NOP; length].into();
        let record = with(&fresh(), &[("ACC", acc)]);
        let name = format!("image of {length} bytes, ACC {acc}, frame {}", frame.escape_ascii());
        for (call, values) in [
            (step(image.clone(), record.clone(), frame), &[1][..]),
            (run(image.clone(), record.clone(), frame), &[1, 1]),
        ] {
            let expected = if number == 0 { answer(0, values, after_nops(1)) } else { refused(number, &call) };
            cases.push(Case { name: name.clone(), call, expected });
        }
    }
    cases
}

fn step_frames() -> Vec<Case> {
    let nops = image_from(DEVICE, &[NOP]);
    let case = |frame: &[u8], expected: fn(&Call) -> Answer| {
        let call = step(nops.clone(), fresh(), frame);
        Case { name: format!("frame {}", frame.escape_ascii()), expected: expected(&call), call }
    };
    let refused = NO_FRAMES.iter().map(|frame| case(frame, |call| refused(NO_FRAME, call)));
    let read =
        EITHER_CASE.iter().map(|frame| case(*frame, |_| answer(0, &[1], with_last_frame(&after_nops(1), b"A50"))));
    refused.chain(read).collect()
}

fn limits() -> Vec<Case> {
    let nops = image_from(DEVICE, &[NOP]);
    let case = |(bytes, ends_badly, acc, number): (usize, bool, u32, u8)| {
        let mut frames = b"FF1".repeat(MOST_FRAMES + 1);
        if ends_badly {
            frames[MOST - 1] = b'2';
        }
        let call = run(nops.clone(), with(&fresh(), &[("ACC", acc)]), &frames[..bytes]);
        let steps = (bytes / FRAME_LENGTH) as u32;
        let expected = if number == 0 { answer(0, &[steps, steps], after_nops(steps)) } else { refused(number, &call) };
        Case { name: format!("run of {bytes} bytes, a bad frame {ends_badly}, ACC {acc}"), call, expected }
    };
    LIMITS.into_iter().map(case).collect()
}

fn stops() -> Vec<Case> {
    let image = image_from(DEVICE, &NOP_AND_STOP);
    let case = |(frames, last): (&[u8], Option<&[u8; 3]>)| {
        let call = run(image.clone(), fresh(), frames);
        let expected = match last {
            Some(last) => answer(UNASSIGNED, &[1, 1], with_last_frame(&after_nops(1), last)),
            None => refused(NO_FRAME, &call),
        };
        Case { name: format!("run {}, a stop at the second step", frames.escape_ascii()), call, expected }
    };
    STOPS.into_iter().map(case).collect()
}

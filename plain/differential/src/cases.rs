//! Calls whose whole answers were written from the documents: tables, a group of cases a module.

pub mod dots;
pub mod frames;
pub mod memory;
pub mod p982_frames;
pub mod p982_ports;
pub mod p982_window;
pub mod paths;
pub mod record;
pub mod refused_records;
pub mod rows;
pub mod sound;
pub mod waking;
pub mod why;
pub mod worked;

use crate::asker::first_difference;
use crate::calls::{Answer, Call, Image, MOST_VALUES};
use crate::plainly;
use crate::proved::Proved;
use plain::Device;

pub const NOP: u8 = 0x56;

/// Every wake pin enabled.
pub const ALL_WAKE: u8 = 0xFF;

pub const SOUND_OFF: u8 = 0;
pub const SOUND_ON: u8 = 1;

/// A call, and all that must come back.
pub struct Case {
    pub name: String,
    pub call: Call,
    pub expected: Answer,
}

/// The answer with this number, these values and this buffer, all other bytes kept.
pub fn answer(number: u8, values: &[u32], buffer: Vec<u8>) -> Answer {
    let mut all_values = [0; MOST_VALUES];
    all_values[..values.len()].copy_from_slice(values);
    Answer { number, values: all_values, buffer, others_kept: true }
}

/// "A refusal changes no buffer, and sets the numbers that come back to 0."
pub fn refused(number: u8, call: &Call) -> Answer {
    answer(number, &[], call.changing().to_vec())
}

/// An image of NOPs that begins with a code.
pub fn image_from(device: Device, code: &[u8]) -> Image {
    let mut image = vec![NOP; device.image_size()];
    image[..code.len()].copy_from_slice(code);
    image.into()
}

/// A step at an image of NOPs that begins with `code`.
pub struct Step<'a> {
    pub device: Device,
    pub code: &'a [u8],
    pub wake: u8,
    pub sound: u8,
    pub before: Vec<u8>,
    pub frame: &'a [u8],
}

impl Step<'_> {
    /// The case in which the step spends cycles and changes fields. "The last frame is always updated."
    pub fn changes(self, name: &str, cycles: u32, changes: &[(&str, u32)]) -> Case {
        let after = record::with_last_frame(&record::with(&self.before, changes), self.frame);
        self.answered(name, answer(0, &[cycles], after))
    }

    /// The case in which the step stops and its frame has no edge: the record stays, with the new frame.
    pub fn stops(self, name: &str, number: u8) -> Case {
        let after = record::with_last_frame(&self.before, self.frame);
        self.answered(name, answer(number, &[0], after))
    }

    fn answered(self, name: &str, expected: Answer) -> Case {
        let Step { device, code, wake, sound, before, frame } = self;
        let image = image_from(device, code);
        let call = Call::Step { device, image, wake, sound, record: before, frame: frame.to_vec() };
        Case { name: name.to_string(), call, expected }
    }
}

/// Every group of cases but those of the rows, with its name.
pub fn groups() -> Vec<(&'static str, Vec<Case>)> {
    vec![
        ("reading P4 with SOUND and without", sound::cases()),
        ("wake pins and edges", waking::cases()),
        ("images, frames and runs at their limits", frames::cases()),
        ("dots", dots::cases()),
        ("RAM by HL", memory::cases()),
        ("records outside their ranges, and at the ends of them", refused_records::cases()),
        ("path buffers", paths::cases()),
        ("why an interrupt is taken or not", why::cases()),
        ("EM73P982: ports, P4 and speech", p982_ports::cases()),
        ("EM73P982: banks and the window", p982_window::cases()),
        ("EM73P982: images, frames, fresh and reset", p982_frames::cases()),
    ]
}

/// Puts the cases to the proved calls and to the plain emulator; gives what is not as expected.
pub fn failures(proved: &mut Proved, cases: &[Case]) -> Vec<String> {
    let calls: Vec<Call> = cases.iter().map(|case| case.call.clone()).collect();
    let answers = proved.answers(&calls);
    assert_eq!(answers.len(), cases.len());
    let mut failures = Vec::new();
    for (case, proved) in cases.iter().zip(&answers) {
        let kind = case.call.kind();
        let plain = plainly::answer(&case.call);
        for (side, found) in [("proved", proved), ("plain", &plain)] {
            let difference = first_difference(kind, ("expected", &case.expected), (side, found));
            failures.extend(difference.map(|what| format!("{}, {}: {what}", case.name, kind.name())));
        }
    }
    failures
}

#[cfg(test)]
mod tests {
    use super::*;

    #[test]
    fn the_plain_emulator_gives_the_worked_values() {
        let (compared, failures) = worked::judged("plain", |call| plainly::answer(&call));
        assert_eq!(failures, [""; 0]);
        assert!(compared > 100);
    }

    #[test]
    fn the_plain_emulator_gives_every_answer() {
        let rows = rows::cases();
        assert_eq!(rows::gaps(&rows), [""; 0]);
        let rows = rows.into_iter().flat_map(|case| [case.step, case.read]);
        for case in groups().into_iter().flat_map(|(_, cases)| cases).chain(rows) {
            let found = plainly::answer(&case.call);
            let difference = first_difference(case.call.kind(), ("expected", &case.expected), ("plain", &found));
            assert_eq!(difference, None, "{}", case.name);
        }
    }
}

//! Puts each call to both sides, the proved one in batches, and compares all that comes back.

use crate::calls::{Answer, Call, Kind};
use crate::coverage::Coverage;
use crate::layout::{self, RAM, RECORD_BYTES};
use crate::plainly;
use crate::proved::Proved;
use plain::{place_in_image, Device, ADDRESSES};
use std::fmt::Write;

/// The first thing in which the two answers to a call are not the same.
#[derive(Debug)]
pub struct Difference {
    /// Which call it was, counted from 1 over all kinds.
    pub turn: u64,
    pub device: Device,
    pub kind: Kind,
    pub inputs: String,
    pub what: String,
}

/// A batch is asked when it has so many calls or about so many bytes.
const BATCH_CALLS: usize = 4096;
const BATCH_BYTES: usize = 8 << 20;

pub struct Asker {
    proved: Proved,
    queue: Vec<(Call, Answer)>,
    queued_bytes: usize,
    compared: u64,
    coverages: [Coverage; 2],
}

impl Asker {
    pub fn new(proved: Proved) -> Asker {
        Asker { proved, queue: Vec::new(), queued_bytes: 0, compared: 0, coverages: Device::ALL.map(Coverage::new) }
    }

    pub fn coverage(&self, device: Device) -> &Coverage {
        &self.coverages[device as usize]
    }

    /// How many calls of a kind were put into the queue.
    pub fn asked(&self, device: Device, kind: Kind) -> u64 {
        self.coverage(device).asked(kind)
    }

    /// Puts a call into the queue and gives the plain answer, so that a walk can go on from it.
    pub fn ask(&mut self, call: Call) -> Result<&Answer, Difference> {
        if self.queue.len() >= BATCH_CALLS || self.queued_bytes >= BATCH_BYTES {
            self.compare_queued()?;
        }
        let answer = plainly::answer(&call);
        self.coverages[call.device() as usize].count(&call, &answer);
        self.queued_bytes += call.size();
        self.queue.push((call, answer));
        Ok(&self.queue[self.queue.len() - 1].1)
    }

    /// Asks the proved side what is queued.
    pub fn compare_queued(&mut self) -> Result<(), Difference> {
        self.queued_bytes = 0;
        let (calls, plain): (Vec<Call>, Vec<Answer>) = std::mem::take(&mut self.queue).into_iter().unzip();
        let proved = self.proved.answers(&calls);
        assert_eq!(proved.len(), calls.len());
        for ((call, plain), proved) in calls.iter().zip(&plain).zip(&proved) {
            self.compared += 1;
            if let Some(what) = first_difference(call.kind(), ("plain", plain), ("proved", proved)) {
                let (device, kind) = (call.device(), call.kind());
                return Err(Difference { turn: self.compared, device, kind, inputs: in_short(call), what });
            }
        }
        Ok(())
    }
}

/// What is not the same in two answers to a call, each with the words for the side that it is from; the second was asked.
pub fn first_difference(kind: Kind, one: (&str, &Answer), other: (&str, &Answer)) -> Option<String> {
    let ((one_side, one), (other_side, other)) = (one, other);
    let differs = |field: &str, one: u32, other: u32| Some(format!("{field}: {one_side} {one}, {other_side} {other}"));
    if one.number != other.number {
        return differs("number", one.number.into(), other.number.into());
    }
    for (place, name) in kind.values().iter().enumerate() {
        if one.values[place] != other.values[place] {
            return differs(name, one.values[place], other.values[place]);
        }
    }
    let bytes = one.buffer.iter().zip(&other.buffer).enumerate();
    if let Some((place, (one, other))) = bytes.into_iter().find(|(_, (one, other))| one != other) {
        let field = match kind {
            Kind::Display => format!("dots, byte {place}"),
            Kind::Bound => format!("paths, byte {place}"),
            _ => format!("record, byte {place}, {}", layout::field_at(place)),
        };
        return differs(&field, (*one).into(), (*other).into());
    }
    if !other.others_kept {
        return Some(format!("the {other_side} call changed bytes outside its buffer"));
    }
    // All that there is was compared: the rest of both answers is the same by its form.
    (one != other).then(|| "the form of the answers".to_string())
}

/// The bytes from the address that a call is about, through the window of its P3.
fn image_in_short(call: &Call, image: &[u8]) -> String {
    let (p3, start) = match call {
        Call::Read { p3, address, .. }
        | Call::Bound { p3, address, .. }
        | Call::Length { p3, address, .. }
        | Call::Row { p3, address, .. }
        | Call::Notation { p3, address, .. } => (*p3, *address as usize),
        _ => p3_and_pc_of(call.changing()),
    };
    let place = |offset| place_in_image(p3 as u8, ((start + offset) % ADDRESSES) as u16);
    let codes: Vec<u8> = (0..8).filter_map(|offset| image.get(place(offset))).copied().collect();
    format!("image of {} bytes, P3 {p3}, from {start:04X}h {}; ", image.len(), hexadecimal(&codes))
}

/// The inputs in one line: what is needed to see the case. The seed and the turn give the rest.
fn in_short(call: &Call) -> String {
    let mut text = call.image().map_or(String::new(), |image| image_in_short(call, image));
    let _ = match call {
        Call::Fresh { record, .. } | Call::Reset { record, .. } | Call::IsValid { record, .. } => {
            write!(text, "{}", record_in_short(record))
        }
        Call::Step { wake, sound, record, frame, .. } => {
            write!(text, "wake {wake:02X}h, sound {sound}, frame {}, {}", frame.escape_ascii(), record_in_short(record))
        }
        Call::Look { wake, sound, record, frame, .. } | Call::Why { wake, sound, record, frame, .. } => {
            write!(text, "wake {wake:02X}h, sound {sound}, frame {}, {}", frame.escape_ascii(), record_in_short(record))
        }
        Call::Act { wake, sound, record, .. } => {
            write!(text, "wake {wake:02X}h, sound {sound}, {}", record_in_short(record))
        }
        Call::Run { wake, sound, record, frames, .. } => {
            let first = &frames[..frames.len().min(30)];
            let length = frames.len();
            write!(
                text,
                "wake {wake:02X}h, sound {sound}, {length} bytes of frames from {}, {}",
                first.escape_ascii(),
                record_in_short(record)
            )
        }
        Call::Display { record, dots, .. } => {
            write!(text, "{} bytes for dots, {}", dots.len(), record_in_short(record))
        }
        Call::Read { address, .. } | Call::Length { address, .. } | Call::Row { address, .. } => {
            write!(text, "address {address:X}h")
        }
        Call::Notation { address, text: buffer, .. } => {
            write!(text, "address {address:X}h, {} bytes for the text", buffer.len())
        }
        Call::Write { row, a, b } => write!(text, "row {row}, a {a}, b {b}"),
        Call::Bound { address, paths, .. } => {
            let [path, deep] = paths.rooms();
            write!(text, "address {address:X}h, {path} bytes for N's path, {deep} for the depth's")
        }
    };
    text
}

fn p3_and_pc_of(record: &[u8]) -> (u32, usize) {
    layout::machine_of(record).map_or((0, 0), |machine| (machine.ports.p3 as u32, machine.pc as usize))
}

fn record_in_short(record: &[u8]) -> String {
    if record.len() != RECORD_BYTES {
        return format!("record of {} bytes", record.len());
    }
    let ram: String = record[RAM..].iter().map(|nibble| format!("{nibble:X}")).collect();
    format!("record {} RAM {ram}", hexadecimal(&record[..RAM]))
}

fn hexadecimal(bytes: &[u8]) -> String {
    bytes.iter().map(|byte| format!("{byte:02X}")).collect::<Vec<_>>().join(" ")
}

#[cfg(test)]
mod tests {
    use super::*;

    #[test]
    fn every_part_of_an_answer_is_compared() {
        let answer = Answer { number: 0, values: [7, 8, 0, 0, 0, 0], buffer: vec![1; RECORD_BYTES], others_kept: true };
        let difference = |other: &Answer| first_difference(Kind::Run, ("plain", &answer), ("proved", other));
        assert_eq!(difference(&answer), None);
        type Change = fn(&mut Answer);
        let changes: [(Change, &str); 6] = [
            (|answer| answer.number = 30, "number: plain 0, proved 30"),
            (|answer| answer.values[1] = 9, "cycles: plain 8, proved 9"),
            (|answer| answer.buffer[0] = 0, "record, byte 0, ACC: plain 1, proved 0"),
            (|answer| answer.buffer[415] = 0, "record, byte 415, RAM 17Fh: plain 1, proved 0"),
            (|answer| answer.others_kept = false, "the proved call changed bytes outside its buffer"),
            (|answer| answer.values[3] = 1, "the form of the answers"),
        ];
        for (change, what) in changes {
            let mut changed = answer.clone();
            change(&mut changed);
            assert_eq!(difference(&changed).as_deref(), Some(what));
        }
    }
}

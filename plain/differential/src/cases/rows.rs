//! The lines of cases/rows.txt: each row of the sheet, executed from one starting record.

use super::record::{value_of, with, with_last_frame, HOLD, RUNNING, SLEEP};
use super::{answer, Case, ALL_WAKE, SOUND_OFF, SOUND_ON};
use crate::calls::{Call, Image};
use crate::layout::{LAST_FRAME, RECORD_BYTES};
use crate::plainly;
use plain::{Device, IMAGE_SIZE};

const LINES: &str = include_str!("../../cases/rows.txt");

const DEVICE: Device = Device::Em73862;

const ROWS: u8 = 107;

/// The stops that a row can have.
const STOPS: [u8; 4] = [31, 32, 33, 34];

/// A line: the row, the step, and the reading of its code.
pub struct RowCase {
    row: u8,
    pub step: Case,
    pub read: Case,
}

pub fn cases() -> Vec<RowCase> {
    let (start, cases) = LINES.split_once("\n\n").expect("a blank line ends the starting record");
    let start = starting_record(start);
    cases.lines().map(|line| row_case(line, &start)).collect()
}

/// What the lines leave out: rows and stops without a case, and the sheet's order.
pub fn gaps(cases: &[RowCase]) -> Vec<String> {
    let rows = (1..=ROWS).filter(|row| cases.iter().all(|case| case.row != *row));
    let stops = STOPS.iter().filter(|stop| cases.iter().all(|case| case.step.expected.number != **stop));
    let mut gaps: Vec<String> = rows.map(|row| format!("row {row} has no case")).collect();
    gaps.extend(stops.map(|stop| format!("stop {stop} has no case")));
    if !cases.is_sorted_by_key(|case| case.row) {
        gaps.push("the rows are not in the order of the sheet".to_string());
    }
    gaps
}

fn starting_record(lines: &str) -> Vec<u8> {
    let mut record = vec![0; RECORD_BYTES];
    for line in lines.lines() {
        let words: Vec<&str> = line.split_whitespace().collect();
        match words[..] {
            ["start", ref fields @ ..] => {
                for field in fields.chunks(2) {
                    record = with_field(&record, field[0], field[1]);
                }
            }
            [first, ref nibbles @ ..] if first.starts_with("RAM[") => {
                let first = number(&first[4..8]);
                for (place, nibble) in nibbles.iter().enumerate() {
                    let name = format!("RAM {:03X}h", first as usize + place);
                    record = with(&record, &[(&name, number(nibble))]);
                }
            }
            _ => {}
        }
    }
    record
}

fn row_case(line: &str, start: &[u8]) -> RowCase {
    let [code, row, set, spent, changes] = line.split(" | ").collect::<Vec<_>>()[..] else { panic!("{line}") };
    let row = row.split(' ').next().and_then(|row| row.parse().ok()).unwrap_or_else(|| panic!("{line}"));
    let (sound, before) = set_up(start, set);
    let (number, cycles) = what_is_spent(spent);
    let mut after = changed(&before, changes);
    if number == 0 && value_of(&after, "mode") == RUNNING {
        let gained = value_of(&after, "time base") + 8 * cycles;
        after = with(&after, &[("time base", gained % (1 << 22))]);
    }
    let address = value_of(&before, "PC");
    let image = image_with(address as usize, code);
    let read = Call::Read { device: DEVICE, image: image.clone(), p3: 0, address };
    // The line has the operands in the sheet's notation only, so the plain reader says which they are.
    let mut insn = plainly::answer(&read);
    (insn.number, insn.values[0]) = (0, row as u32);
    let (device, wake, frame) = (DEVICE, ALL_WAKE, last_frame(&before));
    let step = Call::Step { device, image, wake, sound, frame, record: before };
    RowCase {
        row,
        read: Case { name: line.to_string(), call: read, expected: insn },
        step: Case { name: line.to_string(), call: step, expected: answer(number, &[cycles], after) },
    }
}

/// SOUND and the record that the words `NAME=VALUE` make of the starting one.
fn set_up(start: &[u8], set: &str) -> (u8, Vec<u8>) {
    let (mut sound, mut record) = (SOUND_OFF, start.to_vec());
    for word in set.split(' ').filter(|word| *word != "-") {
        match word.split_once('=') {
            Some(("SOUND", "1")) => sound = SOUND_ON,
            Some((name, value)) => record = with_field(&record, name, value),
            None => panic!("{set}"),
        }
    }
    (sound, record)
}

/// The number and the cycles of `cycles 2` and of `stop 31, cycles 0`.
fn what_is_spent(spent: &str) -> (u8, u32) {
    let words: Vec<&str> = spent.split([' ', ',']).collect();
    match words[..] {
        ["cycles", cycles] => (0, cycles.parse().expect("the cycles are a number")),
        ["stop", stop, "", "cycles", "0"] => (stop.parse().expect("the stop is a number"), 0),
        _ => panic!("{spent}"),
    }
}

/// The record after changes `NAME BEFORE>AFTER`, of which there are none where a line says `nothing`.
fn changed(before: &[u8], changes: &str) -> Vec<u8> {
    let mut after = before.to_vec();
    let words: Vec<&str> = changes.split(' ').filter(|word| !matches!(*word, "only" | "nothing")).collect();
    for change in words.chunks(2) {
        let [name, values] = change else { panic!("{changes}") };
        let (old, new) = values.split_once('>').unwrap_or_else(|| panic!("{changes}"));
        assert_eq!(with_field(&after, name, old), after, "{changes}: {name} is another before");
        after = with_field(&after, name, new);
    }
    after
}

/// The record with a field's value as a line writes both.
fn with_field(record: &[u8], name: &str, value: &str) -> Vec<u8> {
    if name == "pins" {
        return with_last_frame(record, value.as_bytes());
    }
    let header_name = match name.strip_prefix("RAM[") {
        Some(address) => format!("RAM {}", address.trim_end_matches(']')),
        None if name == "base" => "time base".to_string(),
        None => name.to_string(),
    };
    with(record, &[(&header_name, number(value))])
}

/// Modes by name, the latches in binary with a B, all else hexadecimal, with the paper's h where there is more than a digit.
fn number(text: &str) -> u32 {
    let digits = match text {
        "running" => return RUNNING,
        "sleep" => return SLEEP,
        "hold" => return HOLD,
        _ if text.len() == 7 && text.ends_with('B') => u32::from_str_radix(&text[..6], 2),
        _ => u32::from_str_radix(text.trim_end_matches('h'), 16),
    };
    digits.unwrap_or_else(|_| panic!("{text} is no number"))
}

fn last_frame(record: &[u8]) -> Vec<u8> {
    record[LAST_FRAME..LAST_FRAME + 3].iter().flat_map(|pins| format!("{pins:X}").into_bytes()).collect()
}

/// The byte of an address is the sum of its upper and its lower one, but where the code stands.
fn image_with(at: usize, code: &str) -> Image {
    let mut image: Vec<u8> = (0..IMAGE_SIZE).map(|place| (place + place / 256) as u8).collect();
    for (offset, digits) in code.as_bytes().chunks(2).enumerate() {
        let byte = std::str::from_utf8(digits).ok().and_then(|digits| u8::from_str_radix(digits, 16).ok());
        image[(at + offset) % IMAGE_SIZE] = byte.unwrap_or_else(|| panic!("{code} is no code"));
    }
    image.into()
}

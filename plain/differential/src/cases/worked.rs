//! The worked values of cases/worked.txt, whose first lines say what each line means: sessions of calls, each line put to one side.

use super::record::{fresh, value_of, with};
use super::{ALL_WAKE, SOUND_OFF};
use crate::calls::{Answer, Call, Paths};
use plain::Device;

const DEVICE: Device = Device::Em73862;
const LINES: &str = include_str!("../../cases/worked.txt");
const DOTS_A_ROW: usize = 40;

/// What a value has come to.
struct Session {
    name: String,
    image: Vec<u8>,
    record: Vec<u8>,
    number: u8,
}

fn hexadecimal(word: &str) -> u32 {
    u32::from_str_radix(word, 16).unwrap_or_else(|_| panic!("{word} is no hexadecimal number"))
}

fn decimal(word: &str) -> u32 {
    word.parse().unwrap_or_else(|_| panic!("{word} is no decimal number"))
}

/// The header's name of a field.
fn field(name: &str) -> &str {
    match name {
        "MASK" => "mask",
        "base" => "time base",
        name => name,
    }
}

fn fields(words: &[&str]) -> Vec<(String, u32)> {
    let pairs = words.iter().map(|word| word.split_once('=').unwrap_or_else(|| panic!("{word} is no field")));
    pairs.map(|(name, value)| (field(name).to_string(), hexadecimal(value))).collect()
}

fn cell(address: &str) -> String {
    format!("RAM {address}h")
}

impl Session {
    fn begin(line: &str) -> Session {
        Session { name: line.to_string(), image: vec![0; DEVICE.image_size()], record: fresh(), number: 0 }
    }

    fn put(&mut self, words: &[&str]) {
        let start = hexadecimal(words[0]) as usize;
        for (at, word) in words[1..].iter().enumerate() {
            self.image[start + at] = hexadecimal(word) as u8;
        }
    }

    fn set(&mut self, values: &[(String, u32)]) {
        let values: Vec<(&str, u32)> = values.iter().map(|(name, value)| (name.as_str(), *value)).collect();
        self.record = with(&self.record, &values);
    }

    /// One step by the step, more by a run.
    fn steps(&mut self, words: &[&str], ask: &mut dyn FnMut(Call) -> Answer) {
        let (count, frame) = (decimal(words[0]) as usize, words[1].as_bytes());
        let (device, image, wake, sound) = (DEVICE, self.image.clone().into(), ALL_WAKE, SOUND_OFF);
        let record = self.record.clone();
        let answer = ask(match count {
            1 => Call::Step { device, image, wake, sound, record, frame: frame.to_vec() },
            _ => Call::Run { device, image, wake, sound, record, frames: frame.repeat(count) },
        });
        self.number = answer.number;
        self.record = answer.buffer;
    }

    fn dots(&self, words: &[&str], ask: &mut dyn FnMut(Call) -> Answer) -> bool {
        let row = decimal(words[0]) as usize;
        let on: Vec<usize> = words[1..].iter().map(|word| decimal(word) as usize).collect();
        let shown = ask(Call::Display { device: DEVICE, record: self.record.clone(), dots: vec![0; DOTS_A_ROW] });
        let is_on = |dot: &usize| shown.buffer[5 * row + dot / 8] >> (dot % 8) & 1 == 1;
        shown.number == 0 && (0..DOTS_A_ROW).filter(is_on).eq(on)
    }

    fn bound(&self, words: &[&str], ask: &mut dyn FnMut(Call) -> Answer) -> bool {
        let path: Vec<u8> = words[3..].iter().flat_map(|word| (hexadecimal(word) as u16).to_le_bytes()).collect();
        let paths = Paths::new(&vec![0; path.len()], &vec![0; 2 * DEVICE.image_size()]);
        let (address, image) = (hexadecimal(words[0]), self.image.clone().into());
        let answer = ask(Call::Bound { device: DEVICE, image, p3: 0, address, paths });
        (answer.number as u32, answer.values[0]) == (decimal(words[1]), decimal(words[2]))
            && answer.buffer[..path.len()] == path
    }

    /// What a line does; of one that compares, whether it is as written.
    fn line(&mut self, line: &str, ask: &mut dyn FnMut(Call) -> Answer) -> Option<bool> {
        let words: Vec<&str> = line.split(' ').collect();
        let rest = &words[1..];
        let stands = |(name, value): &(String, u32)| value_of(&self.record, name) == *value;
        match words[0] {
            "gives" => return Some(fields(rest).iter().all(stands)),
            "cell" => return Some(stands(&(cell(rest[0]), hexadecimal(rest[1])))),
            "ends" => return Some(self.number as u32 == decimal(rest[0])),
            "dots" => return Some(self.dots(rest, ask)),
            "bound" => return Some(self.bound(rest, ask)),
            "at" | "rom" => self.put(rest),
            "with" => self.set(&fields(rest)),
            "nibble" => self.set(&[(cell(rest[0]), hexadecimal(rest[1]))]),
            "steps" => self.steps(rest, ask),
            _ => panic!("{line}: no such line"),
        }
        None
    }
}

/// How many lines compare, and those that are not as written, by the answers of one side.
pub fn judged(side: &str, mut ask: impl FnMut(Call) -> Answer) -> (usize, Vec<String>) {
    let mut session = Session::begin("");
    let (mut compared, mut failures) = (0, Vec::new());
    for line in LINES.lines().filter(|line| !line.starts_with(['#', ' '])) {
        if line.starts_with('"') {
            session = Session::begin(line);
        } else if let Some(same) = session.line(line, &mut ask) {
            compared += 1;
            if !same {
                failures.push(format!("{}: {line}: not so by the {side} calls", session.name));
            }
        }
    }
    (compared, failures)
}

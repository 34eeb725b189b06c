//! Handlers that call: routines in the first 2 KiB, which calls reach, and a handler behind them.

use crate::ask_bounds::has_its_own_turn;
use crate::chance::Chance;
use crate::images::Codes;
use plain::{short_call_target, Row, ADDRESSES, SHEET};

const RTI: u8 = 0x4D;
const RET: u8 = 0x4F;
const NOP: u8 = 0x56;

/// A handler's 8,192 bytes and addresses to bound it from.
pub struct Calling {
    pub image: [u8; ADDRESSES],
    /// From these a call is reached.
    pub starts: Vec<usize>,
    /// From these perhaps.
    pub others: Vec<usize>,
}

/// STASP, EICIL, OUTA P16, an unassigned code, OUTA and SEP of P3, RTI and RET.
const WRONG: [&[u8]; 8] =
    [&[0x69, 0xFF], &[0x63, 0x4F], &[0x6F, 0x10], &[0x54], &[0x6F, 0x03], &[0x6D, 0x53], &[RTI], &[RET]];

/// As one row in so many.
const NEVER: usize = 1_000_000;

/// What makes the rows of one image.
struct Maker<'a> {
    chance: &'a mut Chance,
    codes: &'a Codes,
    /// Where routines start. A routine calls those behind it here, so that without other calls there is no recursion.
    entries: Vec<usize>,
    /// One row in so many is wrong, or calls any routine, or goes back to where it stands.
    wrong_one_in: usize,
    recursive_one_in: usize,
    backward_one_in: usize,
    /// Of a hundred rows so many call.
    calls: usize,
}

/// A routine by its place in the entries; the handler has none.
type Number = Option<usize>;

pub fn calling(chance: &mut Chance, codes: &Codes) -> Calling {
    let entries = any_entries(chance);
    let mut maker = Maker {
        entries,
        wrong_one_in: chance.pick(&[20, 100, NEVER, NEVER, NEVER, NEVER]),
        recursive_one_in: chance.pick(&[10, 50, NEVER, NEVER, NEVER, NEVER, NEVER]),
        backward_one_in: chance.pick(&[20, 100, NEVER, NEVER, NEVER, NEVER, NEVER]),
        calls: chance.pick(&[10, 25, 45]),
        chance,
        codes,
    };
    maker.image()
}

/// Some of the sixteen addresses of SCALL, and of others.
fn any_entries(chance: &mut Chance) -> Vec<usize> {
    let apart = chance.pick(&[12, 24, 60]);
    let count = chance.pick(&[1, 3, 8, 25]);
    let mut entries: Vec<usize> = Vec::new();
    for _ in 0..count {
        let entry = if chance.one_in(3) {
            short_call_target(chance.below(16) as u16) as usize
        } else {
            0x100 + apart * chance.below(0x700 / apart)
        };
        if !entries.contains(&entry) {
            entries.push(entry);
        }
    }
    entries
}

impl Maker<'_> {
    fn image(&mut self) -> Calling {
        let mut image = [self.chance.pick(&[RET, RET, RTI, 0]); ADDRESSES];
        for number in 0..self.entries.len() {
            let entry = self.entries[number];
            let others = self.entries.iter().filter(|other| **other > entry).min().copied();
            let room = others.unwrap_or(0x800).min(entry + 64) - entry - 1;
            let room = self.chance.below(room) + 1;
            let code = self.rows(entry, Some(number), room);
            put(&mut image, entry, &[&code[..], &[RET]].concat());
        }
        let start = self.chance.pick(&[0x820, 0xA00, 0xFE0, 0x1000, 0x1234, 0x1FC0]);
        let mut code = Vec::new();
        let mut starts = vec![start, start];
        for _ in 0..self.chance.below(3) {
            code.extend(self.ordinary());
            starts.push(start + code.len());
        }
        code.extend(self.call(0));
        let room = self.chance.pick(&[6, 20, 60, 150]);
        code.extend(self.rows(start + code.len(), None, room));
        code.push(RTI);
        put(&mut image, start, &code);
        let entry = self.chance.below(self.entries.len());
        let others = [start + self.chance.below(code.len()), self.entries[entry]];
        Calling { image, starts, others: vec![others[self.chance.below(2)]] }
    }

    /// Rows of a routine, in at most so many bytes.
    fn rows(&mut self, at: usize, number: Number, room: usize) -> Vec<u8> {
        let mut code = Vec::new();
        loop {
            let part = self.part(at + code.len(), number, room - code.len());
            if code.len() + part.len() > room || self.chance.one_in(25) {
                return code;
            }
            code.extend(part);
        }
    }

    fn part(&mut self, at: usize, number: Number, room: usize) -> Vec<u8> {
        let first = number.map_or(0, |number| number + 1);
        if self.chance.one_in(self.wrong_one_in) {
            self.chance.pick(&WRONG).to_vec()
        } else if self.chance.one_in(self.backward_one_in) {
            let target = (at + ADDRESSES - self.chance.below(6)) % ADDRESSES;
            branch(self.chance, at % ADDRESSES, target)
        } else if self.chance.one_in(self.recursive_one_in) {
            self.call(0)
        } else if first < self.entries.len() && self.chance.below(100) < self.calls {
            self.call(first)
        } else if room > 12 && self.chance.one_in(3) {
            self.choice(at, number, room)
        } else {
            self.ordinary()
        }
    }

    /// A call of one of the routines from a number on: SCALL where it reaches, mostly.
    fn call(&mut self, first: usize) -> Vec<u8> {
        let entry = self.entries[first + self.chance.below(self.entries.len() - first)];
        let short = (0..16u16).find(|n| short_call_target(*n) as usize == entry);
        match short {
            Some(n) if !self.chance.one_in(4) => vec![0xE0 | n as u8],
            _ => call_of(entry),
        }
    }

    fn ordinary(&mut self) -> Vec<u8> {
        let row = SHEET[self.chance.below(SHEET.len())].row;
        match row {
            _ if has_its_own_turn(row) => vec![NOP],
            // P3 and P16 have their turn among the wrong ones.
            Row::Out | Row::Outa | Row::Outm | Row::Sep | Row::Clp => vec![0xD0],
            _ => self.codes.calm_of(self.chance, row).to_vec(),
        }
    }

    /// A test, and two ways. The first may end, or go on into the other. The branches are the longest, so that places are known before
    /// the rows between are.
    fn choice(&mut self, at: usize, number: Number, room: usize) -> Vec<u8> {
        let mut code = self.chance.pick(&[&[0xF8][..], &[NOP], &[0x53], &[0xB0], &[0xD0], &[]]).to_vec();
        let half = (room - 9) / 2;
        let first = self.rows(at + code.len() + 3, number, half);
        let leaves = match self.chance.below(5) {
            0 => vec![number.map_or(RTI, |_| RET)],
            1 | 2 => vec![0xD0, 0, 0, 0],
            _ => Vec::new(),
        };
        let other = at + code.len() + 3 + first.len() + leaves.len();
        let second = self.rows(other, number, half);
        code.extend(long_branch(other % ADDRESSES));
        code.extend(first);
        if leaves.len() == 4 {
            code.push(leaves[0]);
            code.extend(long_branch((other + second.len()) % ADDRESSES));
        } else {
            code.extend(leaves);
        }
        code.extend(second);
        code
    }
}

/// Routines that each call the one before some times, and a handler that costs nearly 65,535 cycles, or far more, by calls of them.
pub fn nested(chance: &mut Chance) -> Calling {
    const FIRST: usize = 0x100;
    const APART: usize = 0x40;
    let mut image = [RET; ADDRESSES];
    let mut costs: Vec<usize> = Vec::new();
    for level in 0..chance.pick(&[4, 7, 12]) {
        let (loads, calls) = (chance.below(4), chance.pick(&[2, 5, 9]));
        let mut code = vec![0xD0; loads];
        let mut cost = loads + 2;
        if let Some(last) = costs.last() {
            code.extend(call_of(FIRST + APART * (level - 1)).repeat(calls));
            cost += calls * (2 + last);
        }
        put(&mut image, FIRST + APART * level, &code);
        costs.push(cost);
    }
    let (mut left, mut at) = (65_533 + chance.below(5) - 2, 0x1000);
    for (level, cost) in costs.iter().enumerate().rev() {
        let calls = (left / (2 + cost)).min(150);
        put(&mut image, at, &call_of(FIRST + APART * level).repeat(calls));
        (at, left) = (at + 2 * calls, left - calls * (2 + cost));
    }
    let loads = left.min(ADDRESSES - at - 1);
    put(&mut image, at, &[&vec![0xD0; loads][..], &[RTI]].concat());
    Calling { image, starts: vec![0x1000, 0x1000, 0x1002], others: vec![FIRST + APART * (costs.len() - 1)] }
}

fn put(image: &mut [u8; ADDRESSES], at: usize, code: &[u8]) {
    for (place, byte) in (at..).zip(code) {
        image[place % ADDRESSES] = *byte;
    }
}

fn call_of(entry: usize) -> Vec<u8> {
    vec![0x40 | (entry >> 8) as u8, entry as u8]
}

fn long_branch(target: usize) -> [u8; 3] {
    [if target >= 0x1000 { 0x55 } else { 0x57 }, 0xC0 | (target >> 8 & 15) as u8, target as u8]
}

/// The shortest branch that gets there, now and then a longer one.
pub fn branch(chance: &mut Chance, at: usize, target: usize) -> Vec<u8> {
    let long = long_branch(target);
    if at >> 6 == target >> 6 && !chance.one_in(4) {
        vec![target as u8 & 0x3F]
    } else if at >> 12 == target >> 12 && !chance.one_in(4) {
        long[1..].to_vec()
    } else {
        long.to_vec()
    }
}

//! The bound against the letter of document 01 and request Q-9 on small handlers: routines are judged one by one, and every path is walked.

use plain::{bound, goes_to, read, Bound, Device, Row, ADDRESSES, MOST_PATH_BYTES};
use std::collections::BTreeSet;

/// An address, and whether SF is known set.
type Place = (u16, bool);

/// A routine by the place at which it starts.
#[derive(Clone, Copy, PartialEq, Eq, PartialOrd, Ord)]
enum Routine {
    Outer(u16),
    Called(u16),
}

enum Seen {
    Excluded,
    End(u32),
    Step(u32, Vec<Place>),
    /// Its cycles, the address it calls and the one behind it.
    Call(u32, u16, u16),
}

/// What is known of SF after a call of an entry.
type After<'a> = &'a dyn Fn(u16) -> bool;

struct Letter<'a> {
    device: Device,
    image: &'a [u8],
    start: u16,
}

impl Letter<'_> {
    fn seen(&self, routine: Routine, (address, known): Place) -> Seen {
        let Ok(insn) = read(self.device, self.image, 0, address as usize) else { return Seen::Excluded };
        let row = Row::from_number(insn.row).unwrap();
        let next = (address + row.bytes()) % ADDRESSES as u16;
        let names = |port| [insn.a, insn.b][(row == Row::Out) as usize] == port;
        let writes = matches!(row, Row::Out | Row::Outa | Row::Outm | Row::Sep | Row::Clp);
        let writes_p3 = self.device == Device::Em73P982 && writes && names(3);
        match (row, routine) {
            (Row::Rti, Routine::Outer(_)) | (Row::Ret, Routine::Called(_)) => Seen::End(row.cycles()),
            (Row::Rti | Row::Ret | Row::Stasp | Row::Eicil, _) => Seen::Excluded,
            _ if writes_p3 || writes && names(16) => Seen::Excluded,
            (Row::Lcall | Row::Scall, _) => Seen::Call(row.cycles(), goes_to(insn, address).unwrap(), next),
            (Row::Sbr | Row::Lbr | Row::Slbr, _) => {
                let target = (goes_to(insn, address).unwrap(), true);
                Seen::Step(row.cycles(), if known { vec![target] } else { vec![(next, true), target] })
            }
            _ => Seen::Step(row.cycles(), vec![(next, row.sets_status())]),
        }
    }

    fn followers(&self, routine: Routine, place: Place, after: After) -> Vec<Place> {
        match self.seen(routine, place) {
            Seen::Excluded | Seen::End(_) => Vec::new(),
            Seen::Step(_, followers) => followers,
            Seen::Call(_, entry, next) => vec![(next, after(entry))],
        }
    }

    /// The places of a routine that are reached from some of them, these included.
    fn reached(&self, routine: Routine, from: Vec<Place>, after: After) -> BTreeSet<Place> {
        let mut reached = BTreeSet::new();
        let mut waiting = from;
        while let Some(place) = waiting.pop() {
            if reached.insert(place) {
                waiting.extend(self.followers(routine, place, after));
            }
        }
        reached
    }

    fn places(&self, routine: Routine, after: After) -> BTreeSet<Place> {
        let start = match routine {
            Routine::Outer(start) => (start, true),
            Routine::Called(entry) => (entry, false),
        };
        self.reached(routine, vec![start], after)
    }

    fn called(&self, routine: Routine, after: After) -> BTreeSet<Routine> {
        let entry = |place| match self.seen(routine, place) {
            Seen::Call(_, entry, _) => Some(Routine::Called(entry)),
            _ => None,
        };
        self.places(routine, after).into_iter().filter_map(entry).collect()
    }

    /// The routines that some reach by calls, these included.
    fn routines(&self, from: BTreeSet<Routine>, after: After) -> BTreeSet<Routine> {
        let mut routines = BTreeSet::new();
        let mut waiting: Vec<Routine> = from.into_iter().collect();
        while let Some(routine) = waiting.pop() {
            if routines.insert(routine) {
                waiting.extend(self.called(routine, after));
            }
        }
        routines
    }

    fn recursive(&self) -> Option<u16> {
        let unknown = |_| false;
        let all = self.routines(BTreeSet::from([Routine::Outer(self.start)]), &unknown);
        let entry = |routine| match routine {
            Routine::Called(entry) if self.routines(self.called(routine, &unknown), &unknown).contains(&routine) => {
                Some(entry)
            }
            _ => None,
        };
        all.into_iter().filter_map(entry).min()
    }

    /// Where there is no recursion.
    fn known_after(&self, entry: u16) -> bool {
        let routine = Routine::Called(entry);
        let places = self.places(routine, &|entry| self.known_after(entry));
        places.into_iter().all(|place| place.1 || !matches!(self.seen(routine, place), Seen::End(_)))
    }

    /// The refusal by 24, 21 or 22.
    fn refusal(&self) -> Option<Bound> {
        if let Some(lowest) = self.recursive() {
            return Some(Bound::Recursion(lowest));
        }
        let after: After = &|entry| self.known_after(entry);
        let (mut excluded, mut repeated) = (Vec::new(), Vec::new());
        for routine in self.routines(BTreeSet::from([Routine::Outer(self.start)]), after) {
            for place in self.places(routine, after) {
                if matches!(self.seen(routine, place), Seen::Excluded) {
                    excluded.push(place.0);
                }
                if self.reached(routine, self.followers(routine, place, after), after).contains(&place) {
                    repeated.push(place.0);
                }
            }
        }
        let excluded = excluded.into_iter().min().map(Bound::Excluded);
        excluded.or(repeated.into_iter().min().map(Bound::Repetition))
    }

    /// Every path to the RTI, the next instruction before the target at every branch.
    fn walk(&self, walk: &mut Walk, mut at: Vec<(Routine, Place)>) {
        let (before, cycles, deepest) = (walk.path.len(), walk.cycles, walk.deepest);
        while let Some((routine, place)) = at.pop() {
            walk.path.push(place.0);
            walk.rows += 1;
            match self.seen(routine, place) {
                Seen::End(cycles) => walk.cycles += cycles,
                Seen::Call(cycles, entry, next) => {
                    walk.cycles += cycles;
                    at.push((routine, (next, self.known_after(entry))));
                    at.push((Routine::Called(entry), (entry, false)));
                    walk.deepest = walk.deepest.max(at.len() as u32 - 1);
                }
                Seen::Step(cycles, followers) => {
                    walk.cycles += cycles;
                    for follower in &followers[..followers.len() - 1] {
                        let mut at = at.clone();
                        at.push((routine, *follower));
                        self.walk(walk, at);
                    }
                    at.push((routine, followers[followers.len() - 1]));
                }
                Seen::Excluded => unreachable!("an excluded row is refused"),
            }
            if walk.rows > MOST_ROWS {
                return;
            }
        }
        walk.end();
        walk.path.truncate(before);
        (walk.cycles, walk.deepest) = (cycles, deepest);
    }
}

/// A walk of more rows is given up.
const MOST_ROWS: usize = 20_000;

/// A path as far as it is walked, and the first of those that cost the most and of those that are the deepest.
#[derive(Default)]
struct Walk {
    path: Vec<u16>,
    cycles: u32,
    deepest: u32,
    rows: usize,
    longest: Option<(u32, Vec<u16>)>,
    deep: Option<(u32, Vec<u16>)>,
}

impl Walk {
    fn end(&mut self) {
        for (best, found) in [(&mut self.longest, self.cycles), (&mut self.deep, self.deepest)] {
            if best.as_ref().is_none_or(|(best, _)| found > *best) {
                *best = Some((found, self.path.clone()));
            }
        }
    }
}

/// Rows in the first page: four routines that SCALL reaches, and a handler at 0030.
fn any_image(device: Device, number: &mut impl FnMut(usize) -> usize) -> Vec<u8> {
    let mut image = vec![0x4F; device.image_size()];
    image[0x30..0x1000].fill(0x4D);
    let calls_any = number(8) == 0;
    let wrong = number(4) == 0;
    let back = number(6) == 0;
    for (start, end) in [(0x0E, 0x15), (0x16, 0x1D), (0x1E, 0x25), (0x26, 0x2F), (0x30, 0x3E)] {
        // Of a routine no branch goes into the handler, which calls them all.
        let last = if start < 0x30 { 0x2F } else { 0x3F };
        for at in start..end {
            let first = if calls_any || start == 0x30 { 1 } else { (start - 6) / 8 + 1 };
            image[at] = match number(12) {
                0 | 1 => 0xD3,
                2 => 0x56,
                3..=5 => 0xF8,
                6 if back => (at - number(4)) as u8,
                6 | 7 => (at + 1 + number(6)).min(last) as u8,
                8 if wrong => [0x4D, 0x4F, 0x54, 0x69, 0x63, number(64) as u8][number(6)],
                9..=11 if first < 5 => 0xE0 | (first + number(5 - first)) as u8,
                _ => 0x5E,
            };
        }
    }
    image
}

#[test]
fn the_bound_is_that_of_the_letter() {
    let mut state = 73862u64;
    let mut number = |limit: usize| {
        state = state.wrapping_mul(6364136223846793005).wrapping_add(1442695040888963407);
        (state >> 33) as usize % limit
    };
    let mut answers = [0; 4];
    for turn in 0..6_000 {
        let device = Device::ALL[turn % 2];
        let image = any_image(device, &mut number);
        let start = 0x30 + number(2) as u16;
        let [mut path, mut deep] = [vec![0; MOST_PATH_BYTES], vec![0; MOST_PATH_BYTES]];
        let found = bound(device, &image, 0, start as u32, &mut path, &mut deep);
        let letter = Letter { device, image: &image, start };
        if let Some(refusal) = letter.refusal() {
            assert_eq!(found, refusal, "turn {turn}: {:02X?}", &image[..0x40]);
            answers[found.number() as usize % 4] += 1;
            continue;
        }
        let mut walk = Walk::default();
        letter.walk(&mut walk, vec![(Routine::Outer(start), (start, true))]);
        if walk.rows > MOST_ROWS {
            continue;
        }
        let Bound::Cycles { most, path_bytes, depth, deep_bytes } = found else { panic!("turn {turn}: {found:?}") };
        let addresses = |path: &[u8]| path.chunks(2).map(|pair| u16::from_le_bytes([pair[0], pair[1]])).collect();
        assert_eq!(walk.longest, Some((most, addresses(&path[..path_bytes]))), "turn {turn}: {:02X?}", &image[..0x40]);
        assert_eq!(walk.deep, Some((depth, addresses(&deep[..deep_bytes]))), "turn {turn}: {:02X?}", &image[..0x40]);
        answers[3] += (depth > 1) as u32;
    }
    // 24, 21, 22, and N with a depth of two or more.
    assert!(answers.iter().all(|count| *count > 500), "{answers:?}");
}

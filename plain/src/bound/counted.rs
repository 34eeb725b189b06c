//! The bound under counts: paths on which no counted row is executed more often in one activation than its count says.
//! Sentences in quotation marks are of the page on counts.

use super::search::{search, After, Reached};
use super::{lowest_excluded, lowest_recursive, put, Bound, Handlers, Place, View, Within, MOST_CYCLES};
use crate::device::Device;
use crate::rom::{given_p3, whole_image, ADDRESSES};
use std::collections::HashMap;

/// "the row at address a .. is executed at most k times in one activation of the routine it stands in"
#[derive(Clone, Copy, Debug, PartialEq, Eq)]
pub struct Count {
    pub address: u32,
    pub most: u32,
}

/// "At most 16".
const MOST_COUNTS: usize = 16;

/// "is over 32,768"
const MOST_NODES: u64 = 32_768;

/// What the bound answers under counts.
#[derive(Clone, Copy, Debug, PartialEq, Eq)]
pub enum Counted {
    AsToday(Bound),
    /// 26: "more than 16 counts, an a over 1FFFh, not strictly ascending, a k of 0 (or over 65,535, where the type allows it)".
    Counts,
    /// 27: "there is no counted path from the start to RTI".
    NoPath,
    /// 28: "the sum .. is over 32,768".
    TooManyTurns,
}

impl Counted {
    pub fn number(self) -> u8 {
        match self {
            Counted::AsToday(bound) => bound.number(),
            Counted::Counts => 26,
            Counted::NoPath => 27,
            Counted::TooManyTurns => 28,
        }
    }
}

/// `bound`, under counts.
pub fn bound_counted(
    device: Device,
    image: &[u8],
    p3: u32,
    address: u32,
    counts: &[Count],
    path: &mut [u8],
    deep: &mut [u8],
) -> Counted {
    let Ok(image) = whole_image(device, image) else {
        return Counted::AsToday(Bound::ImageSize);
    };
    let Ok(p3) = given_p3(device, p3) else {
        return Counted::AsToday(Bound::P3);
    };
    if address as usize >= ADDRESSES {
        return Counted::AsToday(Bound::AddressOver8191);
    }
    if !are_allowed(counts) {
        return Counted::Counts;
    }
    let handlers = Handlers { device, rom: image.through(p3) };
    let start = Place { within: Within::Handler, address: address as u16, known: true };
    if let Some(lowest) = lowest_recursive(&search(handlers, start, After::Unknown)) {
        return Counted::AsToday(Bound::Recursion(lowest));
    }
    let reached = search(handlers, start, After::Exact);
    if let Some(lowest) = lowest_excluded(&reached) {
        return Counted::AsToday(Bound::Excluded(lowest));
    }
    let places = Places::new(&reached, counts);
    if let Some(lowest) = places.lowest_uncounted_loop() {
        return Counted::AsToday(Bound::Repetition(lowest));
    }
    let weighs = places.weighing();
    if places.turns(&weighs) > MOST_NODES {
        return Counted::TooManyTurns;
    }
    Unrolled::new(&reached, counts, &places, &weighs, start).answer(path, deep)
}

fn are_allowed(counts: &[Count]) -> bool {
    let ascending = counts.windows(2).all(|pair| pair[0].address < pair[1].address);
    let good = |count: &Count| (count.address as usize) < ADDRESSES && (1..=65_535).contains(&count.most);
    counts.len() <= MOST_COUNTS && ascending && counts.iter().all(good)
}

/// "A place reached is an address with SF known or not .. counted once whatever the number of routines that share it": by twice the
/// address, and one more where SF is known.
struct Places<'a> {
    counts: &'a [Count],
    reached: Vec<usize>,
    followers: Vec<Vec<usize>>,
}

fn number(place: Place) -> usize {
    2 * place.address as usize + place.known as usize
}

impl<'a> Places<'a> {
    fn new(reached: &Reached, counts: &'a [Count]) -> Self {
        let mut places = Places { counts, reached: Vec::new(), followers: vec![Vec::new(); 2 * ADDRESSES] };
        for place in &reached.finished {
            let followers = reached.view(*place).followers();
            places.followers[number(*place)] = followers.into_iter().flatten().map(number).collect();
            places.reached.push(number(*place));
        }
        places.reached.sort();
        places.reached.dedup();
        places
    }

    fn count_at(&self, place: usize) -> Option<usize> {
        self.counts.iter().position(|count| count.address as usize == place / 2)
    }

    /// The places that one or more steps lead to from any of some, through places that may be gone through.
    fn led_to(&self, from: &[usize], through: impl Fn(usize) -> bool) -> Vec<bool> {
        let mut led_to = vec![false; self.followers.len()];
        let mut open = from.to_vec();
        while let Some(place) = open.pop() {
            for &follower in self.followers[place].iter().filter(|_| through(place)) {
                if !led_to[follower] {
                    led_to[follower] = true;
                    open.push(follower);
                }
            }
        }
        led_to
    }

    /// 22: "a place .. comes back to itself in one or more steps .., no place on the way, itself included, at a counted address".
    fn lowest_uncounted_loop(&self) -> Option<u16> {
        let uncounted = |place: usize| self.count_at(place).is_none();
        let comes_back = |place: &&usize| uncounted(**place) && self.led_to(&[**place], uncounted)[**place];
        self.may_loop().iter().find(comes_back).map(|place| (place / 2) as u16)
    }

    /// The uncounted places from which uncounted steps do not run out: those that come back are among them.
    fn may_loop(&self) -> Vec<usize> {
        let mut left: Vec<bool> = vec![false; self.followers.len()];
        let mut leads_on = vec![0; self.followers.len()];
        let mut before = vec![Vec::new(); self.followers.len()];
        for &place in self.reached.iter().filter(|place| self.count_at(**place).is_none()) {
            left[place] = true;
            for &follower in &self.followers[place] {
                before[follower].push(place);
                leads_on[place] += 1;
            }
        }
        let mut open: Vec<usize> =
            self.reached.iter().copied().filter(|place| !left[*place] || leads_on[*place] == 0).collect();
        while let Some(place) = open.pop() {
            left[place] = false;
            for &earlier in &before[place] {
                leads_on[earlier] -= 1;
                if leads_on[earlier] == 0 {
                    open.push(earlier);
                }
            }
        }
        self.reached.iter().copied().filter(|place| left[*place]).collect()
    }

    /// By place, which counts weigh there: "p stands at a or is reached from a place at a, and a place at a is reached from p in one or
    /// more steps".
    fn weighing(&self) -> Vec<Vec<bool>> {
        let mut weighing = vec![vec![false; self.counts.len()]; self.followers.len()];
        for (index, count) in self.counts.iter().enumerate() {
            let at: Vec<usize> =
                self.reached.iter().copied().filter(|place| place / 2 == count.address as usize).collect();
            let behind = self.led_to(&at, |_| true);
            let ahead = self.leading_to(&at);
            for &place in &self.reached {
                weighing[place][index] = (behind[place] || at.contains(&place)) && ahead[place];
            }
        }
        weighing
    }

    /// The places from which one or more steps lead to any of some.
    fn leading_to(&self, to: &[usize]) -> Vec<bool> {
        let mut before = vec![Vec::new(); self.followers.len()];
        for &place in &self.reached {
            for &follower in &self.followers[place] {
                before[follower].push(place);
            }
        }
        let mut leading = vec![false; self.followers.len()];
        let mut open = to.to_vec();
        while let Some(place) = open.pop() {
            for &earlier in &before[place] {
                if !leading[earlier] {
                    leading[earlier] = true;
                    open.push(earlier);
                }
            }
        }
        leading
    }

    /// "the sum over all places reached of the product of (k + 1) over the counts that weigh there"; of one over the most only that it is.
    fn turns(&self, weighing: &[Vec<bool>]) -> u64 {
        let product = |place: &usize| {
            let factors = self.counts.iter().zip(&weighing[*place]).filter(|(_, weighs)| **weighs);
            factors.fold(1, |product: u64, (count, _)| (product * (count.most as u64 + 1)).min(MOST_NODES + 1))
        };
        self.reached.iter().map(product).sum()
    }
}

/// A place with the numbers of the counts that weigh there.
struct Node {
    place: Place,
    seen: View,
    /// By what the place shows; none where "a number would exceed its k".
    followers: [Option<usize>; 2],
    entry: Option<usize>,
    /// "the largest sum" to the end of the routine, of one over 65,535 only that it is; and the greatest depth. None where no path leads there.
    most: Option<(u32, u32)>,
}

struct Unrolled {
    nodes: Vec<Node>,
}

/// A row with its numbers, a number for each count.
type Standing = (Place, Vec<u32>);

impl Unrolled {
    fn new(reached: &Reached, counts: &[Count], places: &Places, weighing: &[Vec<bool>], start: Place) -> Self {
        let none = vec![0; counts.len()];
        // "Numbers of counts that do not weigh never matter".
        let gone_to = |place: Place, numbers: &[u32]| {
            let mut numbers = numbers.to_vec();
            if let Some(index) = places.count_at(number(place)) {
                numbers[index] += 1;
                if numbers[index] > counts[index].most {
                    return None;
                }
            }
            let weighs = &weighing[number(place)];
            let kept = numbers.iter().zip(weighs).map(|(number, weighs)| if *weighs { *number } else { 0 });
            Some((place, kept.collect()))
        };
        let mut known: HashMap<(usize, Vec<u32>), usize> = HashMap::new();
        let mut standings: Vec<Standing> = Vec::new();
        let mut unrolled = Unrolled { nodes: Vec::new() };
        let mut name = |standing: Standing, standings: &mut Vec<Standing>| {
            let key = (standing.0.index(), standing.1.clone());
            *known.entry(key).or_insert_with(|| {
                standings.push(standing);
                standings.len() - 1
            })
        };
        name(gone_to(start, &none).expect("a count is 1 or more"), &mut standings);
        while unrolled.nodes.len() < standings.len() {
            let (place, numbers) = standings[unrolled.nodes.len()].clone();
            let seen = reached.view(place);
            let follow = |to: Option<Place>, numbers: &[u32]| to.and_then(|place| gone_to(place, numbers));
            let followers = seen.followers().map(|to| follow(to, &numbers));
            let entry = follow(seen.entry(), &none);
            let followers = followers.map(|to| to.map(|to| name(to, &mut standings)));
            let entry = entry.map(|to| name(to, &mut standings));
            unrolled.nodes.push(Node { place, seen, followers, entry, most: None });
        }
        unrolled.measure();
        unrolled
    }

    /// Fills in the largest sums and the greatest depths, what follows a node before the node.
    fn measure(&mut self) {
        let mut entered = vec![false; self.nodes.len()];
        let mut visits = vec![(0, 0)];
        while let Some((id, turn)) = visits.pop() {
            entered[id] = true;
            let node = &self.nodes[id];
            match [node.entry, node.followers[0], node.followers[1]].get(turn) {
                None => self.nodes[id].most = self.measured(id),
                Some(follower) => {
                    visits.push((id, turn + 1));
                    visits.extend(follower.filter(|follower| !entered[*follower]).map(|follower| (follower, 0)));
                }
            }
        }
    }

    fn most(&self, id: Option<usize>) -> Option<(u32, u32)> {
        self.nodes[id?].most
    }

    fn measured(&self, id: usize) -> Option<(u32, u32)> {
        let node = &self.nodes[id];
        let cycles = node.seen.cycles();
        let (most, depth) = match node.seen {
            View::Excluded => return None,
            View::End { .. } => (0, 0),
            View::Call { .. } => {
                let (called, calls) = self.most(node.entry)?;
                let (after, later) = self.most(node.followers[0])?;
                (called + after, later.max(calls + 1))
            }
            View::Step { .. } | View::Fork { .. } => {
                let ways = node.followers.map(|follower| self.most(follower));
                let most = ways.iter().flatten().map(|way| way.0).max()?;
                (most, ways.iter().flatten().map(|way| way.1).max()?)
            }
        };
        Some(((cycles + most).min(MOST_CYCLES + 1), depth))
    }

    fn answer(&self, path: &mut [u8], deep: &mut [u8]) -> Counted {
        let Some((most, depth)) = self.nodes[0].most else {
            return Counted::NoPath;
        };
        if most > MOST_CYCLES {
            return Counted::AsToday(Bound::TooManyCycles);
        }
        let longest = self.path(|next, target, _| next.0 >= target.0, depth);
        let deepest = self.path(|_, _, next_is_deep| next_is_deep, depth);
        let (path_bytes, deep_bytes) = (2 * longest.len(), 2 * deepest.len());
        for (room, needed) in [(path.len(), path_bytes), (deep.len(), deep_bytes)] {
            if room < needed {
                return Counted::AsToday(Bound::PathBuffer(needed));
            }
        }
        put(path, &longest);
        put(deep, &deepest);
        Counted::AsToday(Bound::Cycles { most, path_bytes, depth, deep_bytes })
    }

    /// A path, by whether the next instruction is taken at a fork of which both ways lead to an end: by what both have, and by whether
    /// the depth is reached, or can be after the next instruction.
    fn path(&self, takes_next: impl Fn((u32, u32), (u32, u32), bool) -> bool, depth: u32) -> Vec<u16> {
        let mut addresses = Vec::new();
        // Where each open call goes on, and whether the depth can be reached after that call's own routine.
        let mut open: Vec<(usize, bool)> = Vec::new();
        let mut is_reached = depth == 0;
        let mut at = Some(0);
        while let Some(id) = at {
            let node = &self.nodes[id];
            addresses.push(node.place.address);
            let later = open.last().is_some_and(|(_, later)| *later);
            let can = |way: (u32, u32)| open.len() as u32 + way.1 >= depth;
            at = match node.seen {
                View::Excluded | View::End { .. } => open.pop().map(|(after, _)| after),
                View::Step { .. } | View::Fork { .. } => {
                    let [next, target] = node.followers;
                    match (self.most(next), self.most(target)) {
                        (Some(a), Some(b)) if takes_next(a, b, is_reached || later || can(a)) => next,
                        (Some(_), None) => next,
                        _ => target,
                    }
                }
                View::Call { .. } => {
                    let after = node.followers[0].expect("a path goes on after the call");
                    let can_later = later || can(self.nodes[after].most.expect("a path leads to its end"));
                    open.push((after, can_later));
                    is_reached |= open.len() as u32 == depth;
                    node.entry
                }
            };
        }
        addresses
    }
}

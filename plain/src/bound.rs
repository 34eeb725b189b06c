//! The handler bound of document 01 with request Q-9's calls: the most cycles from a start to an RTI and the greatest depth of calls,
//! with a path for each.

mod counted;
mod search;
#[cfg(test)]
mod tests;

use crate::code::{fetch, Decoded};
use crate::device::Device;
use crate::execute::branch_target;
use crate::notation::goes_to;
use crate::numbers;
use crate::rom::{given_p3, whole_image, Rom, ADDRESSES};
use crate::rows::Row;
pub use counted::{bound_counted, Count, Counted};
use search::{search, After, Reached};

/// "25 N over 65,535."
const MOST_CYCLES: u32 = 65_535;

/// Two bytes an address. A row costs a cycle or more, and neither path costs more than N.
pub const MOST_PATH_BYTES: usize = 2 * MOST_CYCLES as usize;

/// What the bound answers.
#[derive(Clone, Copy, Debug, PartialEq, Eq)]
pub enum Bound {
    /// 1: the image is not as long as its device's.
    ImageSize,
    /// 2: the P3 that was given is over 15, or its bits 1..0 are 3.
    P3,
    /// 20: "address over 8191".
    AddressOver8191,
    /// 24: "a routine that can reach a call of itself", with the "lowest entry address".
    Recursion(u16),
    /// 21: "excluded instruction reachable", with "its lowest address".
    Excluded(u16),
    /// 22: "repetition reachable", with "its lowest address".
    Repetition(u16),
    /// 25: "N over 65,535".
    TooManyCycles,
    /// 23: "path buffer too short", with "the bytes needed for the first that is short, N's before depth's".
    PathBuffer(usize),
    /// N and the greatest depth of calls, each with the bytes that its path took of its buffer.
    Cycles { most: u32, path_bytes: usize, depth: u32, deep_bytes: usize },
}

impl Bound {
    /// The number of a refusal; 0 with an N.
    pub fn number(self) -> u8 {
        match self {
            Bound::ImageSize => numbers::IMAGE_SIZE,
            Bound::P3 => numbers::RECORD_RANGE,
            Bound::AddressOver8191 => numbers::ADDRESS,
            Bound::Recursion(_) => numbers::RECURSION,
            Bound::Excluded(_) => numbers::EXCLUDED,
            Bound::Repetition(_) => numbers::REPETITION,
            Bound::TooManyCycles => numbers::TOO_MANY_CYCLES,
            Bound::PathBuffer(_) => numbers::PATH_BUFFER,
            Bound::Cycles { .. } => numbers::NONE,
        }
    }
}

/// Bounds the handler that starts at an address, in records with this P3. With an N its path stands at the beginning of the first
/// buffer and the depth's at the beginning of the second; "a refusal changes no buffer".
pub fn bound(device: Device, image: &[u8], p3: u32, address: u32, path: &mut [u8], deep: &mut [u8]) -> Bound {
    let Ok(image) = whole_image(device, image) else {
        return Bound::ImageSize;
    };
    let Ok(p3) = given_p3(device, p3) else {
        return Bound::P3;
    };
    if address as usize >= ADDRESSES {
        return Bound::AddressOver8191;
    }
    let handlers = Handlers { device, rom: image.through(p3) };
    let start = Place { within: Within::Handler, address: address as u16, known: true };
    match judged(handlers, start) {
        Err(refusal) => refusal,
        Ok(reached) => answered(&reached, start, path, deep),
    }
}

/// The places that the start reaches, or the refusal by one of them.
fn judged(handlers: Handlers, start: Place) -> Result<Reached, Bound> {
    // "judged with SF unknown after every call"
    if let Some(lowest) = lowest_recursive(&search(handlers, start, After::Unknown)) {
        return Err(Bound::Recursion(lowest));
    }
    let reached = search(handlers, start, After::Exact);
    if let Some(lowest) = lowest_excluded(&reached) {
        return Err(Bound::Excluded(lowest));
    }
    match lowest_repeated(&reached) {
        Some(lowest) => Err(Bound::Repetition(lowest)),
        None => Ok(reached),
    }
}

/// 25, 23, or N and the depth with their paths.
fn answered(reached: &Reached, start: Place, path: &mut [u8], deep: &mut [u8]) -> Bound {
    let most_from = most_cycles(reached);
    let most = most_from[start.index()];
    if most > MOST_CYCLES {
        return Bound::TooManyCycles;
    }
    let deepest_from = deepest(reached);
    let longest = longest_path(reached, start, &most_from);
    let deepest = deepest_path(reached, start, &deepest_from);
    let (path_bytes, deep_bytes) = (2 * longest.len(), 2 * deepest.len());
    for (room, needed) in [(path.len(), path_bytes), (deep.len(), deep_bytes)] {
        if room < needed {
            return Bound::PathBuffer(needed);
        }
    }
    put(path, &longest);
    put(deep, &deepest);
    Bound::Cycles { most, path_bytes, depth: deepest_from[start.index()], deep_bytes }
}

/// "Two bytes each, low first .. Bytes after it stay."
fn put(buffer: &mut [u8], addresses: &[u16]) {
    for (pair, address) in buffer.chunks_exact_mut(2).zip(addresses) {
        pair.copy_from_slice(&address.to_le_bytes());
    }
}

/// Where a place stands. "Places are per routine", but what follows a place is the same in each called routine that has it: so all of
/// them are one here, and a path comes back within one of them exactly where it comes back in all together.
#[derive(Clone, Copy, Debug, PartialEq, Eq)]
enum Within {
    Handler,
    Routine,
}

/// "A place is an address with 'SF known set' or not."
#[derive(Clone, Copy, Debug, PartialEq, Eq)]
struct Place {
    within: Within,
    address: u16,
    known: bool,
}

const PLACES: usize = 4 * ADDRESSES;

impl Place {
    fn index(self) -> usize {
        4 * self.address as usize + 2 * self.within as usize + self.known as usize
    }

    /// Another place of the same routine.
    fn beside(self, address: u16, known: bool) -> Place {
        Place { within: self.within, address, known }
    }
}

/// What the bound sees at a place.
#[derive(Clone, Copy, Debug, PartialEq, Eq)]
enum View {
    /// "Excluded, with no next place."
    Excluded,
    /// "RTI ends a path", and RET a called routine.
    End { cycles: u32 },
    /// One place follows.
    Step { cycles: u32, to: Place },
    /// A branch at an unknown place.
    Fork { cycles: u32, next: Place, target: Place },
    /// "A call is followed to its RET and continues after it."
    Call { cycles: u32, entry: Place, after: Place },
}

impl View {
    fn cycles(self) -> u32 {
        match self {
            View::Excluded => 0,
            View::End { cycles } | View::Step { cycles, .. } => cycles,
            View::Fork { cycles, .. } | View::Call { cycles, .. } => cycles,
        }
    }

    /// The places of the same routine that follow, the next instruction before the target. The step over a call is one step.
    fn followers(self) -> [Option<Place>; 2] {
        match self {
            View::Excluded | View::End { .. } => [None, None],
            View::Step { to, .. } => [Some(to), None],
            View::Fork { next, target, .. } => [Some(next), Some(target)],
            View::Call { after, .. } => [Some(after), None],
        }
    }

    /// The place at which a called routine starts.
    fn entry(self) -> Option<Place> {
        match self {
            View::Call { entry, .. } => Some(entry),
            _ => None,
        }
    }
}

/// Where handlers stand.
#[derive(Clone, Copy)]
struct Handlers<'a> {
    device: Device,
    rom: Rom<'a>,
}

impl Handlers<'_> {
    /// What stands at a place, SF being unknown after a call.
    fn view(self, place: Place) -> View {
        let Ok(decoded) = fetch(self.rom, place.address) else {
            return View::Excluded;
        };
        let row = decoded.row;
        let cycles = row.cycles();
        let next = |known| place.beside((place.address + row.bytes()) % ADDRESSES as u16, known);
        match row {
            _ if self.excludes(decoded, place.within) => View::Excluded,
            Row::Rti | Row::Ret => View::End { cycles },
            // "A called routine starts with SF unknown."
            Row::Lcall | Row::Scall => {
                let address = goes_to(decoded.insn(), place.address).unwrap_or(0);
                let entry = Place { within: Within::Routine, address, known: false };
                View::Call { cycles, entry, after: next(false) }
            }
            // "Branches make it known; one at a known place has only its target, at an unknown place also the next instruction."
            Row::Sbr | Row::Lbr | Row::Slbr => {
                let target = place.beside(branch_target(row, decoded.a, place.address), true);
                if place.known {
                    View::Step { cycles, to: target }
                } else {
                    View::Fork { cycles, next: next(true), target }
                }
            }
            // "A row whose S column is 1 makes it known, any other unknown."
            _ => View::Step { cycles, to: next(row.sets_status()) },
        }
    }

    fn excludes(self, decoded: Decoded, within: Within) -> bool {
        match decoded.row {
            // "RTI inside a called routine is excluded, as is RET in the outer one and any row storing to SP."
            Row::Rti => within == Within::Routine,
            Row::Ret => within == Within::Handler,
            Row::Stasp => true,
            // The only row besides RTI that sets EI.
            Row::Eicil => true,
            // The only rows whose port has the five bits that 16 needs.
            Row::Outa | Row::Outm if decoded.a == 16 => true,
            _ => self.device == Device::Em73P982 && writes_p3(decoded),
        }
    }
}

/// "any row writing P3, by set or clear too". CLPL and SEPL name P4 to P7.
fn writes_p3(decoded: Decoded) -> bool {
    match decoded.row {
        Row::Out => decoded.b == 3,
        Row::Outa | Row::Outm | Row::Sep | Row::Clp => decoded.a == 3,
        _ => false,
    }
}

/// "Refusals: 24 recursion, lowest entry address": a call from where the called routine leads to.
fn lowest_recursive(reached: &Reached) -> Option<u16> {
    let entry = |place: &Place| reached.view(*place).entry().filter(|entry| reached.leads_back(*place, *entry));
    reached.finished.iter().filter_map(entry).map(|entry| entry.address).min()
}

fn lowest_excluded(reached: &Reached) -> Option<u16> {
    let excluded = reached.finished.iter().filter(|place| reached.view(**place) == View::Excluded);
    excluded.map(|place| place.address).min()
}

/// The lowest address of a place that "can be reached from itself in one or more steps".
fn lowest_repeated(reached: &Reached) -> Option<u16> {
    let repeated = reached.finished.iter().filter(|place| {
        let followers = reached.view(**place).followers();
        followers.into_iter().flatten().any(|follower| reached.leads_back(**place, follower))
    });
    repeated.map(|place| place.address).min()
}

/// "The largest sum of cycles to an RTI, RTI included", or to the RET of a called routine, from every place that is reached; of a sum
/// over 65,535 only that it is.
fn most_cycles(reached: &Reached) -> Vec<u32> {
    let mut most_from = vec![0; PLACES];
    for &place in &reached.finished {
        let seen = reached.view(place);
        let most_of = |place: Place| most_from[place.index()];
        let called = seen.entry().map_or(0, most_of);
        let follows = seen.followers().into_iter().flatten().map(most_of).max().unwrap_or(0);
        most_from[place.index()] = (seen.cycles() + called + follows).min(MOST_CYCLES + 1);
    }
    most_from
}

/// The most calls that are open at once from every place that is reached to the end of its routine, those open before not counted.
fn deepest(reached: &Reached) -> Vec<u32> {
    let mut deepest_from = vec![0; PLACES];
    for &place in &reached.finished {
        let seen = reached.view(place);
        let deepest_of = |place: Place| deepest_from[place.index()];
        let called = seen.entry().map_or(0, |entry| 1 + deepest_of(entry));
        let follows = seen.followers().into_iter().flatten().map(deepest_of).max().unwrap_or(0);
        deepest_from[place.index()] = called.max(follows);
    }
    deepest_from
}

/// N's path, "a called routine's addresses standing in their turn": "among equal sums take the next instruction before the target".
fn longest_path(reached: &Reached, start: Place, most_from: &[u32]) -> Vec<u16> {
    let mut addresses = Vec::new();
    let mut open = Vec::new();
    let mut at = Some(start);
    while let Some(place) = at {
        addresses.push(place.address);
        at = match reached.view(place) {
            View::Excluded | View::End { .. } => open.pop(),
            View::Step { to, .. } => Some(to),
            View::Fork { next, target, .. } => {
                Some(if most_from[next.index()] >= most_from[target.index()] { next } else { target })
            }
            View::Call { entry, after, .. } => {
                open.push(after);
                Some(entry)
            }
        };
    }
    addresses
}

/// The depth's path: of all paths with the greatest depth the first, the next instruction being preferred at every branch in the order of
/// the path. So the target is taken only where the depth is not reached and cannot be after the next instruction.
fn deepest_path(reached: &Reached, start: Place, deepest_from: &[u32]) -> Vec<u16> {
    let depth = deepest_from[start.index()] as usize;
    let can_from = |place: Place, open: usize| open + deepest_from[place.index()] as usize >= depth;
    let mut addresses = Vec::new();
    // Where each open call goes on, and whether the depth can be reached after that call's own routine.
    let mut open: Vec<(Place, bool)> = Vec::new();
    let mut is_reached = depth == 0;
    let mut at = Some(start);
    while let Some(place) = at {
        addresses.push(place.address);
        at = match reached.view(place) {
            View::Excluded | View::End { .. } => open.pop().map(|(after, _)| after),
            View::Step { to, .. } => Some(to),
            View::Fork { next, target, .. } => {
                let later = open.last().is_some_and(|(_, later)| *later);
                Some(if is_reached || later || can_from(next, open.len()) { next } else { target })
            }
            View::Call { entry, after, .. } => {
                let later = open.last().is_some_and(|(_, later)| *later);
                open.push((after, later || can_from(after, open.len())));
                is_reached |= open.len() == depth;
                Some(entry)
            }
        };
    }
    addresses
}

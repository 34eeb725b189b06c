//! The places that a start reaches, and which of them lead back to each other.

use super::{Handlers, Place, View, PLACES};

/// What is known of SF after a call.
#[derive(Clone, Copy, PartialEq, Eq)]
pub enum After {
    Unknown,
    /// "Known exactly if every RET reachable in the routine stands at a known place." It can be told where there is no recursion.
    Exact,
}

pub struct Reached<'a> {
    handlers: Handlers<'a>,
    after: After,
    /// The places. Each comes after all that follow it and after the routine that it calls, but for those that lead back to it.
    pub finished: Vec<Place>,
    /// By index: the number of a place's strongly connected component, from 1; 0 while that is not complete.
    component: Vec<u32>,
    /// By index: whether an unknown RET can be reached from a place, within its routine.
    returns_unknown: Vec<bool>,
}

impl Reached<'_> {
    pub fn view(&self, place: Place) -> View {
        self.with_sf_after(self.handlers.view(place))
    }

    /// What the handlers show, with what is known of SF after a call.
    fn with_sf_after(&self, seen: View) -> View {
        match seen {
            View::Call { cycles, entry, after } if self.after == After::Exact => {
                let known = !self.returns_unknown[entry.index()];
                View::Call { cycles, entry, after: Place { known, ..after } }
            }
            seen => seen,
        }
    }

    /// Whether a place can be reached again from the one that follows it, or that it calls.
    pub fn leads_back(&self, place: Place, other: Place) -> bool {
        self.component[place.index()] == self.component[other.index()]
    }
}

/// A place that the search has entered and not left.
struct Visit {
    place: Place,
    /// As the handlers show it: what is known of SF after a call is told when its routine is left.
    seen: View,
    followed: usize,
}

/// Tarjan's search for strongly connected components, by the steps within a routine and the calls. The visits stand in a vector,
/// because a path can be longer than a thread's stack is deep.
struct Search<'a> {
    reached: Reached<'a>,
    /// When a place was entered, from 1; 0 where it was not.
    entered: Vec<u32>,
    /// The earliest entry known to be reached from a place within its component.
    earliest: Vec<u32>,
    entries: u32,
    components: u32,
    /// The places whose component is not complete.
    open: Vec<Place>,
    visits: Vec<Visit>,
}

pub(super) fn search(handlers: Handlers, start: Place, after: After) -> Reached {
    let mut search = Search {
        reached: Reached {
            handlers,
            after,
            finished: Vec::new(),
            component: vec![0; PLACES],
            returns_unknown: vec![false; PLACES],
        },
        entered: vec![0; PLACES],
        earliest: vec![0; PLACES],
        entries: 0,
        components: 0,
        open: Vec::new(),
        visits: Vec::new(),
    };
    search.enter(start);
    while let Some(visit) = search.visits.last_mut() {
        let (place, turn) = (visit.place, visit.followed);
        visit.followed += 1;
        // A called routine comes first: it tells what is known of SF after the call.
        let seen = search.reached.with_sf_after(visit.seen);
        let [next, target] = seen.followers();
        match [seen.entry(), next, target].get(turn) {
            None => search.leave(),
            Some(None) => {}
            Some(Some(follower)) => search.follow(place, *follower),
        }
    }
    search.reached
}

impl Search<'_> {
    fn enter(&mut self, place: Place) {
        self.entries += 1;
        self.entered[place.index()] = self.entries;
        self.earliest[place.index()] = self.entries;
        self.open.push(place);
        let seen = self.reached.handlers.view(place);
        self.visits.push(Visit { place, seen, followed: 0 });
    }

    fn follow(&mut self, place: Place, follower: Place) {
        if self.entered[follower.index()] == 0 {
            self.enter(follower);
        } else if self.reached.component[follower.index()] == 0 {
            self.reaches(place, self.entered[follower.index()]);
        }
    }

    fn reaches(&mut self, place: Place, entry: u32) {
        let earliest = &mut self.earliest[place.index()];
        *earliest = entry.min(*earliest);
    }

    /// Leaves the last visit, and closes its component where it is the first place of one.
    fn leave(&mut self) {
        let Some(Visit { place, seen, .. }) = self.visits.pop() else { return };
        self.reached.finished.push(place);
        self.reached.returns_unknown[place.index()] = self.returns_unknown(place, seen);
        let earliest = self.earliest[place.index()];
        if let Some(before) = self.visits.last().map(|visit| visit.place) {
            self.reaches(before, earliest);
        }
        if earliest == self.entered[place.index()] {
            self.close_component(place);
        }
    }

    /// By the place itself and by those that follow it as far as they are judged; the others are of its component.
    fn returns_unknown(&self, place: Place, seen: View) -> bool {
        let mut followers = self.reached.with_sf_after(seen).followers().into_iter().flatten();
        let ends_unknown = matches!(seen, View::End { .. }) && !place.known;
        ends_unknown || followers.any(|follower| self.reached.returns_unknown[follower.index()])
    }

    fn close_component(&mut self, first: Place) {
        self.components += 1;
        let start = self.open.iter().rposition(|place| *place == first).unwrap_or(0);
        let members = self.open.split_off(start);
        let returns_unknown = members.iter().any(|member| self.reached.returns_unknown[member.index()]);
        for member in members {
            self.reached.component[member.index()] = self.components;
            self.reached.returns_unknown[member.index()] = returns_unknown;
        }
    }
}

//! Modules that spare cores: they are within the threshold, and so can a rest after them be, in the cores that are left for both; and
//! these are the fewest in which a rest can receive what is sent to it.

use super::lookup::Lookup;
use super::words::{EXECUTIONS, INTERNALS, REACHES, SIDE, slacks};
use super::{GRAIN, UNIT};

/// The costs and a threshold, whose slack table stands in the words.
#[derive(Clone, Copy)]
pub struct Sparing<'a> {
    pub costs: &'a Lookup<'a>,
    pub n: u64,
}

/// Where a module begins: after task t and a module of s cores, with q cores of its own, receiving in so many ticks, and so many cores
/// left for it and all after it. No module before: t and s are 0.
#[derive(Clone, Copy)]
pub struct Place {
    pub s: usize,
    pub t: usize,
    pub q: usize,
    received: u64,
    pub left: usize,
}

/// A module from a place to task l: its body, and whether it may have several copies.
#[derive(Clone, Copy)]
pub struct Stretch {
    pub l: usize,
    body: u64,
    replicable: bool,
}

impl Place {
    /// The last task of the longest module of one copy.
    pub fn reach(&self, work: &[u32]) -> usize {
        work[REACHES + self.t * SIDE + self.q] as usize
    }

    /// No task yet.
    pub fn stretch(&self) -> Stretch {
        Stretch {
            l: self.t,
            body: 0,
            replicable: true,
        }
    }
}

/// Whether a rest after task l, of so many cores and `next` in its first module, can receive in the time `sent`. Behind the last task
/// there is none, and `next` is 0.
fn goes_on(work: &[u32], l: usize, next: usize, left: usize, sent: u64) -> bool {
    next == 0 || sent < slacks(work, l, next)[left].into()
}

impl Sparing<'_> {
    /// The place between modules of s and q cores, after task t, or before the first: left are the fewest cores of a rest that can
    /// receive there, one more than the board's where none can.
    pub fn place(&self, work: &[u32], s: usize, t: usize, q: usize) -> Place {
        let received = self.costs.transfer(t, s, q);
        let slacks = slacks(work, t, q);
        let mut left = q;
        while left <= self.costs.cores && u64::from(slacks[left]) <= received {
            left += 1;
        }
        Place {
            s,
            t,
            q,
            received,
            left,
        }
    }

    /// The place of a first module of q cores, where plans of so many cores, the fewest, can begin with one.
    pub fn start(&self, work: &[u32], q: usize, fewest: usize) -> Option<Place> {
        let place = self.place(work, 0, 0, q);
        (place.left == fewest).then_some(place)
    }

    /// One task more.
    pub fn longer(&self, work: &[u32], place: Place, stretch: Stretch) -> Stretch {
        let i = stretch.l * SIDE + place.q;
        let mut body = stretch.body + u64::from(work[EXECUTIONS + i]);
        if place.t < stretch.l {
            body += u64::from(work[INTERNALS + i - SIDE]);
        }
        let l = stretch.l + 1;
        let replicable = stretch.replicable && self.costs.replicable(l);
        Stretch {
            l,
            body,
            replicable,
        }
    }

    /// What r copies that send in so many ticks weigh.
    pub fn price(&self, place: Place, stretch: Stretch, r: usize, sent: u64) -> u32 {
        let ticks = stretch.body + self.costs.dispatch_to(r) + sent;
        (r * place.q) as u32 * UNIT + ticks as u32
    }

    /// Whether r copies that send in so many ticks are within the threshold.
    fn is_within(&self, place: Place, stretch: Stretch, r: usize, sent: u64) -> bool {
        let response = place.received + stretch.body + self.costs.dispatch_to(r) + sent;
        response * GRAIN <= self.n * r as u64
    }

    /// Whether r copies before a module of `next` cores have room.
    fn has_room(&self, place: Place, r: usize, next: usize) -> bool {
        let cores = r * place.q + next;
        place.s + cores <= self.costs.cores && cores <= place.left
    }

    /// The fewest copies that spare cores before a module of `next` cores to which they send in so many ticks, 0 where none do: with
    /// each the slack of what they leave falls.
    pub fn first_fit(
        &self,
        work: &[u32],
        place: Place,
        stretch: Stretch,
        next: usize,
        sent: u64,
    ) -> usize {
        let mut r = 1;
        while self.has_room(place, r, next) {
            if !goes_on(work, stretch.l, next, place.left - r * place.q, sent) {
                return 0;
            }
            if self.is_within(place, stretch, r, sent) {
                return r;
            }
            if !stretch.replicable {
                return 0;
            }
            r += 1;
        }
        0
    }

    /// Whether r copies spare cores before a module of `next` cores to which they send in so many ticks.
    pub fn spares(
        &self,
        work: &[u32],
        place: Place,
        stretch: Stretch,
        (r, next): (usize, usize),
        sent: u64,
    ) -> bool {
        self.has_room(place, r, next)
            && (r == 1 || stretch.replicable)
            && goes_on(work, stretch.l, next, place.left - r * place.q, sent)
            && self.is_within(place, stretch, r, sent)
    }
}

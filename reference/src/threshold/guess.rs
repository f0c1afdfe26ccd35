//! Which threshold to try next in the search for the least one. Any in the bracket is right; a good guess only makes fewer tries
//! likely.

use super::lookup::Lookup;
use super::{GRAIN, TOP, threshold_of};
use crate::plan::Module;

/// The search so far: no plan is within a threshold below `lo`; some plan is within `hi`, or `hi` is TOP + 1. All else is for
/// guesses.
#[derive(Clone, Copy)]
pub struct Hunt {
    pub lo: u64,
    pub hi: u64,
    /// What no plan, most likely, is below.
    pub bound: u64,
    /// The threshold of the best plan of one module, TOP + 1 where there is none.
    pub single: u64,
    /// The fewest cores of a plan within `hi`.
    pub cores: usize,
    /// The tries without a plan since the last with one.
    pub misses: u32,
    /// The tries with a plan since the last without one.
    pub finds: u32,
}

/// The threshold of the module of q cores by itself, in as many copies as the board has room for; TOP + 1 where it breaks a rule.
fn alone(costs: &Lookup, first: usize, last: usize, q: usize) -> u64 {
    if !costs.rules_met(first, last, q) {
        return TOP + 1;
    }
    let copies = if costs.copies_allowed(first, last) {
        costs.cores / q
    } else {
        1
    };
    let module = Module {
        first,
        last,
        copies,
        cores: q,
    };
    threshold_of(costs.response(0, module, 0), copies as u64)
}

/// The least threshold of the module by itself, over all cores.
fn least_alone(costs: &Lookup, first: usize, last: usize) -> u64 {
    let mut least = TOP + 1;
    for q in 1..=costs.cores {
        least = least.min(alone(costs, first, last, q));
    }
    least
}

/// The least core-ticks of a task.
fn area(costs: &Lookup, task: usize) -> u64 {
    let mut least = u64::MAX;
    for q in 1..=costs.cores {
        least = least.min(costs.execution(task, q) * q as u64);
    }
    least
}

/// What no plan, most likely, is below: the work spread over all cores, and each task by itself.
fn bound(costs: &Lookup) -> u64 {
    let (mut most, mut sum) = (0, 0);
    for task in 1..=costs.tasks {
        most = most.max(least_alone(costs, task, task));
        sum += area(costs, task);
    }
    most.max(sum * GRAIN / costs.cores as u64)
}

impl Hunt {
    /// Before the first try.
    pub fn start(costs: &Lookup) -> Hunt {
        Hunt {
            lo: 0,
            hi: TOP + 1,
            bound: bound(costs),
            single: least_alone(costs, 1, costs.tasks),
            cores: 0,
            misses: 0,
            finds: 0,
        }
    }

    /// A threshold to try on a board of so many cores, from `lo` to `hi` - 1, where `lo` is below `hi`.
    pub fn choose(&self, cores: usize) -> u64 {
        let guess = if TOP < self.hi {
            self.begin()
        } else {
            self.go_on(cores)
        };
        guess.clamp(self.lo, self.hi - 1)
    }

    /// While no plan is known: about that of one module, or up from the bound.
    fn begin(&self) -> u64 {
        let bound = self.bound.min(TOP + 1);
        let lo = self.lo.max(bound);
        if self.single <= 2 * lo {
            if self.lo < self.single {
                return self.single - 1;
            }
            return self.single;
        }
        if bound < self.single / 8 && self.single <= TOP {
            return lo + (self.single - lo) / 2;
        }
        self.step_up(lo, bound)
    }

    /// A step up from the bound, four times as far after a try without a plan; after two, the greatest threshold, which decides
    /// whether there is a plan at all.
    fn step_up(&self, lo: u64, bound: u64) -> u64 {
        let far = bound / 2 + 1;
        match self.misses {
            0 => lo + far,
            1 => lo + 4 * far,
            _ => TOP,
        }
    }

    /// The lower end, or the bound where that lies in the bracket.
    fn raised(&self) -> u64 {
        if self.lo < self.bound && self.bound < self.hi {
            return self.bound;
        }
        self.lo
    }

    /// Once a plan is known: where it leaves cores, fewer ticks in proportion; else just below it, now and then halfway.
    fn go_on(&self, cores: usize) -> u64 {
        let lo = self.raised();
        let middle = (lo + self.hi) / 2;
        let below = self.hi - 1;
        if self.cores < cores {
            let in_proportion = self.hi * (2 * self.cores as u64 + 1) / (2 * cores as u64);
            return match self.misses {
                0 if lo < in_proportion => in_proportion,
                0 => middle,
                1 if self.hi / 16 < self.hi - lo => middle,
                _ => below,
            };
        }
        if self.misses == 0 && self.finds % 7 == 6 {
            return middle;
        }
        below
    }
}

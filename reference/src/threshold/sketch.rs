//! Some plan within a threshold, read off its slack table and judged: its own bottleneck may be far below.

use super::lookup::Lookup;
use super::words::slacks;
use super::{GRAIN, TOP, judged, slack, threshold_of};
use crate::plan::{self, Module, PLAN_BYTES};

/// A threshold that some plan is within, TOP + 1 where what was read off is no plan; and the fewest cores of a plan within the table's
/// threshold.
#[derive(Clone, Copy)]
pub struct Found {
    pub threshold: u64,
    pub cores: usize,
}

/// A threshold and its slack table.
struct Within<'a> {
    costs: &'a Lookup<'a>,
    work: &'a [u32],
    n: u64,
}

/// The first module of a rest, and the cores of the one after it, 0 at the end of the chain.
#[derive(Clone, Copy)]
struct Onward {
    module: Module,
    next: usize,
}

/// What a rest starts with: the module after task t has q cores and receives in so many ticks, and so many cores are left for it and
/// all after it.
#[derive(Clone, Copy)]
struct Rest {
    t: usize,
    q: usize,
    received: u64,
    room: usize,
}

impl Within<'_> {
    /// Of the next modules that can lead a rest of so many cores, the cores of the one with the cheapest transfer, and that transfer;
    /// none where none can.
    fn next_cores(&self, l: usize, q: usize, room: usize) -> Option<(usize, u64)> {
        let mut best = None;
        let mut least = u64::MAX;
        for next in 1..=room {
            let sent = self.costs.transfer(l, q, next);
            let slack = slacks(self.work, l, next)[room];
            if sent < slack.into() && sent < least {
                least = sent;
                best = Some((next, sent));
            }
        }
        best
    }

    /// The cores after a module that takes so long before it sends and has so long in all, 0 at the end of the chain; none where it
    /// is too late.
    fn cores_after(&self, module: Module, taken: u64, time: u64, room: usize) -> Option<usize> {
        if time < taken {
            return None;
        }
        if module.last == self.costs.tasks {
            return Some(0);
        }
        let (next, sent) = self.next_cores(module.last, module.cores, room)?;
        (taken + sent <= time).then_some(next)
    }

    /// The module, which takes so long before it sends, in the fewest copies, up to the most, with which it can go on.
    fn with_copies(&self, module: Module, taken: u64, most: usize, room: usize) -> Option<Onward> {
        for copies in 1..=most {
            let module = Module { copies, ..module };
            let taken = taken + self.costs.dispatch_to(copies);
            let time = self.n * copies as u64 / GRAIN;
            let left = room - copies * module.cores;
            if let Some(next) = self.cores_after(module, taken, time, left) {
                return Some(Onward { module, next });
            }
        }
        None
    }

    /// The most copies of the module in so many cores.
    fn most_copies(&self, module: Module, room: usize) -> usize {
        let most = room / module.cores;
        if most <= 1 || self.costs.copies_allowed(module.first, module.last) {
            return most;
        }
        1
    }

    /// The shortest first module with which the rest can go on.
    fn go_onward(&self, rest: Rest) -> Option<Onward> {
        for last in rest.t + 1..=self.costs.tasks {
            let module = Module {
                first: rest.t + 1,
                last,
                copies: 1,
                cores: rest.q,
            };
            if !self.costs.rules_met(module.first, last, rest.q) {
                return None;
            }
            let taken = self.costs.body(module.first, last, rest.q) + rest.received;
            let most = self.most_copies(module, rest.room);
            let onward = self.with_copies(module, taken, most, rest.room);
            if onward.is_some() {
                return onward;
            }
        }
        None
    }

    /// The bytes of the plan of b cores; without the rest of the chain where there is no way on.
    fn read_off(&self, b: usize) -> [u8; PLAN_BYTES] {
        let mut path = Vec::new();
        let mut rest = Rest {
            t: 0,
            q: slack::first_cores(self.work, b),
            received: 0,
            room: b,
        };
        while rest.t < self.costs.tasks {
            let Some(Onward { module, next }) = self.go_onward(rest) else {
                break;
            };
            path.push(module);
            rest = Rest {
                t: module.last,
                q: next,
                received: self.costs.transfer(module.last, module.cores, next),
                room: rest.room - module.copies * module.cores,
            };
        }
        plan::encode(&path)
    }
}

/// Reads a plan off the slack table of the threshold n, of which there is one, and judges it.
pub fn some_plan(costs: &Lookup, work: &[u32], n: u64) -> Found {
    let cores = slack::fewest_cores(work, costs.cores);
    let plan = Within { costs, work, n }.read_off(cores);
    let threshold = match judged::judge(costs, &plan) {
        Ok(figures) => threshold_of(figures.response.into(), figures.copies.into()),
        Err(_) => TOP + 1,
    };
    Found { threshold, cores }
}

#[cfg(test)]
mod tests {
    use super::*;
    use crate::cases::{self, KINDS, small_of_each};
    use crate::costs::{MOST_CORES, MOST_TASKS};
    use crate::every::WORK_WORDS;
    use crate::services::QUICK_REFERENCE;
    use crate::threshold::{hunt, laid};

    /// At the least threshold and above it, what is read off is a plan within it. At the least one the best plan has the fewest
    /// cores.
    #[test]
    fn reads_plans_off() {
        let large = KINDS.map(|kind| cases::sized(kind, MOST_TASKS, MOST_CORES, 0));
        for case in small_of_each(100).chain(large) {
            let (best, _) = QUICK_REFERENCE.best_filled(&case.costs);
            if best.refusal != 0 {
                continue;
            }
            let costs = Lookup::new(&case.costs);
            let mut work = vec![0; WORK_WORDS];
            let least = hunt::least_threshold(&costs, &mut work).threshold;
            laid::lay(&costs, &mut work);
            for n in [TOP, 2 * least, least + 1, least] {
                slack::fill(&costs, &mut work, n);
                let found = some_plan(&costs, &work, n);
                assert!((least..=n).contains(&found.threshold), "seed {}", case.seed);
                assert!(
                    n != least || found.cores == best.cores as usize,
                    "seed {}",
                    case.seed
                );
            }
        }
    }
}

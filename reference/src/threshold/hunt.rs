//! The search for the least threshold: a bracket that each try makes narrower. Where a try has a plan, one is read off the table and
//! judged, and the bracket goes down to the plan's own bottleneck.

use super::guess::Hunt;
use super::lookup::Lookup;
use super::sketch::{self, Found};
use super::{TOP, laid, slack};

/// The most tries that are guessed; after them each halves the bracket.
pub const JUMPS: usize = 24;

/// The most tries of a search: 35 that halve leave nothing of the widest bracket.
pub const MOST_TRIES: usize = JUMPS + 35;

/// The least threshold that some plan is within, TOP + 1 where there is no plan, and how many were tried.
#[derive(Clone, Copy, Debug)]
pub struct Least {
    pub threshold: u64,
    pub tries: usize,
}

impl Hunt {
    /// Without a plan within n.
    fn missed(self, n: u64) -> Hunt {
        Hunt {
            lo: n + 1,
            misses: self.misses + 1,
            finds: 0,
            ..self
        }
    }

    /// With a plan within n.
    fn found(self, n: u64, found: Found) -> Hunt {
        Hunt {
            hi: n.min(found.threshold),
            cores: found.cores,
            misses: 0,
            finds: self.finds + 1,
            ..self
        }
    }
}

/// One try.
fn try_at(costs: &Lookup, work: &mut [u32], n: u64, hunt: Hunt) -> Hunt {
    slack::fill(costs, work, n);
    if !slack::has_slack(work, costs.cores) {
        return hunt.missed(n);
    }
    hunt.found(n, sketch::some_plan(costs, work, n))
}

/// Searches in words that may hold anything. Afterwards the tasks are laid in them, and the slack table of the threshold where some
/// plan is within it.
pub fn least_threshold(costs: &Lookup, work: &mut [u32]) -> Least {
    laid::lay(costs, work);
    let mut hunt = Hunt::start(costs);
    let mut tries = 0;
    while hunt.lo < hunt.hi {
        let n = if tries < JUMPS {
            hunt.choose(costs.cores)
        } else {
            (hunt.lo + hunt.hi) / 2
        };
        hunt = try_at(costs, work, n, hunt);
        tries += 1;
    }
    let threshold = hunt.lo;
    if threshold <= TOP {
        slack::fill(costs, work, threshold);
    }
    Least { threshold, tries }
}

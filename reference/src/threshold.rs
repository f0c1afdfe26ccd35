//! Best plan by thresholds, in the lent words: the static library's algorithm, loop for loop, in plain Rust.
//!
//! A plan is within the threshold n if every response · 1024 is at most n · copies. Fractions whose denominators are at most 32 are
//! equal or at least 1/1024 apart, so all plans within the least n that some plan is within have equal bottlenecks. Whether some plan
//! is within an n, the slack table of n says; where there is one, it is read off and judged, and the search goes on below its own
//! bottleneck. A core weighs more than any single-block time, so of the plans within the least n the lightest has fewest cores, and
//! least time among those. By the slack table of the least n only modules of plans of the fewest cores are weighed.

mod guess;
mod hunt;
pub(crate) mod judged;
mod laid;
pub(crate) mod lookup;
pub(crate) mod records;
mod sketch;
mod slack;
mod sparing;
mod walk;
mod weights;
mod words;

use crate::answer::{Answer, Refusal, answer};
use crate::every::WORK_WORDS;
use crate::plan::{self, Module, PLAN_BYTES};
use lookup::Lookup;
use sparing::Sparing;

pub use hunt::{JUMPS, Least, MOST_TRIES};

/// A threshold counts in such parts of a tick.
pub const GRAIN: u64 = 1024;

/// The greatest threshold: no module takes more than 23,000,000 ticks, and with copies (document 02, M-106) 255 more.
pub const TOP: u64 = 23_000_255 * GRAIN;

/// What a core weighs, more than all ticks of a plan, 23,003,060 at most, of which each weighs 1.
const UNIT: u32 = 1 << 25;

/// Answers and leaves the lent bytes and words as `every::best_plan` does.
pub fn best_plan(costs: &[u8], plan: &mut [u8], work: &mut [u32]) -> Answer {
    answer(planned(costs, plan, work))
}

fn planned(costs: &[u8], plan: &mut [u8], work: &mut [u32]) -> Result<Answer, Refusal> {
    records::test(costs)?;
    plan::enough_bytes(plan)?;
    if work.len() < WORK_WORDS {
        return Err(Refusal::new(8));
    }
    let costs = Lookup::new(costs);
    let found = search(&costs, work);
    work.fill(0);
    let modules = found.ok_or(Refusal::new(9))?;
    plan[..PLAN_BYTES].copy_from_slice(&plan::encode(&modules));
    Ok(judged::figures(&costs, &modules))
}

/// The best plan, or none if no plan keeps the rules.
fn search(costs: &Lookup, work: &mut [u32]) -> Option<Vec<Module>> {
    let n = hunt::least_threshold(costs, work).threshold;
    if TOP < n {
        return None;
    }
    let fewest = slack::fewest_cores(work, costs.cores);
    let sparing = Sparing { costs, n };
    sparing.mark(work, fewest);
    let weight = sparing.weigh(work, fewest);
    Some(walk::lay_path(sparing, work, fewest, weight))
}

/// The least threshold of the plans of an accepted file.
pub fn least_threshold(costs: &[u8]) -> Least {
    hunt::least_threshold(&Lookup::new(costs), &mut [0; WORK_WORDS])
}

/// The least threshold that a response of so many copies is within.
fn threshold_of(response: u64, copies: u64) -> u64 {
    (response * GRAIN).div_ceil(copies)
}

//! Document 01's Best plan, with the ties of document 02, M-104, by trying all plans; with refusals 1 to 6, 7, 8, 9.

use std::cmp::Ordering;

use crate::answer::{Answer, Refusal, answer};
use crate::costs::{self, Chain};
use crate::plan::{self, Load, Module, PLAN_BYTES, RULES, Rules};

pub const WORK_WORDS: usize = 16_384;

/// Fills in the plan of least bottleneck, then fewest cores, then least single-block time, then first in module order. The lent
/// words are all zero after a plan and after refusal 9, and untouched after any other refusal.
pub fn best_plan(costs: &[u8], plan: &mut [u8], work: &mut [u32]) -> Answer {
    best_plan_by(search, costs, plan, work)
}

/// The service with any search; one that finds nothing is refusal 9.
pub fn best_plan_by(
    search: impl Fn(&Chain) -> Option<Vec<Module>>,
    costs: &[u8],
    plan: &mut [u8],
    work: &mut [u32],
) -> Answer {
    let read = costs::read(costs);
    answer(read.and_then(|chain| planned(search, &chain, plan, work)))
}

/// The service on a chain in place of the bytes of its costs.
pub fn best_plan_on(chain: &Chain, plan: &mut [u8], work: &mut [u32]) -> Answer {
    answer(planned(search, chain, plan, work))
}

fn planned(
    search: impl Fn(&Chain) -> Option<Vec<Module>>,
    chain: &Chain,
    plan: &mut [u8],
    work: &mut [u32],
) -> Result<Answer, Refusal> {
    plan::enough_bytes(plan)?;
    if work.len() < WORK_WORDS {
        return Err(Refusal::new(8));
    }
    work.fill(0);
    let best = search(chain).ok_or(Refusal::new(9))?;
    plan[..PLAN_BYTES].copy_from_slice(&plan::encode(&best));
    Ok(plan::figures(chain, &best))
}

/// What plans are compared by: their bottlenecks, then their cores, then their single-block times.
#[derive(Clone, Copy)]
pub struct Order {
    pub bottleneck: fn(&Chain, &[Module]) -> Load,
    pub time: fn(&Chain, &[Module]) -> u32,
}

/// The right one.
pub const ORDER: Order = Order {
    bottleneck: plan::bottleneck,
    time: plan::block_time,
};

/// The first plan in module order of those of least time of those of fewest cores of those of least bottleneck that keep the
/// rules.
pub fn search(chain: &Chain) -> Option<Vec<Module>> {
    search_by(RULES, ORDER, chain)
}

/// The search with any tests of memory and of limits, and any way to compute a plan's bottleneck and time.
pub fn search_by(rules: Rules, order: Order, chain: &Chain) -> Option<Vec<Module>> {
    let mut best: Option<(Load, usize, Vec<Module>)> = None;
    each_plan(chain, &mut |rival| {
        if !plan::keeps_rules_by(rules, chain, rival) {
            return;
        }
        let (load, cores) = ((order.bottleneck)(chain, rival), plan::cores(rival));
        let comes_before = best.as_ref().is_none_or(|(least, fewest, best)| {
            match load.compare(*least).then(cores.cmp(fewest)) {
                Ordering::Equal => (order.time)(chain, rival) < (order.time)(chain, best),
                differ => differ.is_lt(),
            }
        });
        if comes_before {
            best = Some((load, cores, rival.to_vec()));
        }
    });
    best.map(|(_, _, plan)| plan)
}

/// Visits all plans that need no more than the board's cores, in module order.
pub fn each_plan(chain: &Chain, visit: &mut dyn FnMut(&[Module])) {
    continue_plan(chain, &mut Vec::new(), visit);
}

fn continue_plan(chain: &Chain, plan: &mut Vec<Module>, visit: &mut dyn FnMut(&[Module])) {
    let covered = plan.last().map_or(0, |module| module.last);
    if covered == chain.tasks {
        return visit(plan);
    }
    let left = chain.cores - plan::cores(plan);
    for last in covered + 1..=chain.tasks {
        for copies in 1..=left {
            for cores in 1..=left / copies {
                plan.push(Module {
                    first: covered + 1,
                    last,
                    copies,
                    cores,
                });
                continue_plan(chain, plan, visit);
                plan.pop();
            }
        }
    }
}

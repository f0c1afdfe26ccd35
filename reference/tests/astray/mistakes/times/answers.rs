//! Programs that give the right time of every plan that Judge passes, and go wrong with refusals or with what is lent.

use super::{Mistake, in_count, in_place, in_refusal};
use crate::mistakes::judges::judged_modules;
use reference::answer::{Filled, Refusal};
use reference::block_time::{block_time, block_time_by};
use reference::plan::{self, PLAN_BYTES, RULES, Rules};
use reference::round::memory::FORMER;

pub const MISTAKES: [Mistake; 12] = [
    // Judge's refusals
    in_refusal("no refusal of a plan", unjudged),
    in_refusal("0 for all that is refused", |costs, plan| {
        Filled::counted(block_time(costs, plan).count)
    }),
    in_refusal("limits are not asked", |costs, plan| {
        passing(WITHOUT_LIMITS, costs, plan)
    }),
    in_refusal("needs added up", |costs, plan| passing(FORMER, costs, plan)),
    in_refusal("the plan's length before the costs", length_first),
    // "its number, a place (0 unless named) and zero figures" (document 01)
    in_place("a refusal without its place", |costs, plan| Filled {
        place: 0,
        ..block_time(costs, plan)
    }),
    in_place("the place counted from 0", |costs, plan| {
        let right = block_time(costs, plan);
        let place = right.place.saturating_sub(1);
        Filled { place, ..right }
    }),
    in_place("15 at the first module too much", place_of_15),
    in_count("a refusal keeps a count", with_count),
    // "bytes after the 48th are never read or written", "unused records are zero" (document 01)
    in_refusal("more than 48 bytes are refused", just_48),
    in_refusal("bytes behind the 48th are to be zero", all_bytes),
    in_refusal("unused records are not read", used_records),
];

const WITHOUT_LIMITS: Rules = Rules {
    within: |_, _| true,
    ..RULES
};

/// The service with other tests of a plan.
fn passing(rules: Rules, costs: &[u8], plan: &[u8]) -> Filled {
    block_time_by(rules, plan::block_time, costs, plan)
}

/// The time of a plan that refusal 12 finds no fault in, on the board's cores where a module has more.
fn time_on_board(costs: &[u8], plan: &[u8]) -> u32 {
    let (chain, mut modules) = judged_modules(costs, plan);
    for module in &mut modules {
        module.cores = module.cores.min(chain.cores);
    }
    plan::block_time(&chain, &modules)
}

fn unjudged(costs: &[u8], plan: &[u8]) -> Filled {
    match block_time(costs, plan) {
        Filled {
            refusal: 13..=16, ..
        } => Filled::counted(time_on_board(costs, plan)),
        right => right,
    }
}

fn with_count(costs: &[u8], plan: &[u8]) -> Filled {
    let right = block_time(costs, plan);
    Filled {
        count: unjudged(costs, plan).count,
        ..right
    }
}

fn length_first(costs: &[u8], plan: &[u8]) -> Filled {
    match plan::enough_bytes(plan) {
        Ok(()) => block_time(costs, plan),
        Err(refusal) => refusal.into(),
    }
}

/// The place is the module with which the cores are too many.
fn place_of_15(costs: &[u8], plan: &[u8]) -> Filled {
    let right = block_time(costs, plan);
    if right.refusal != 15 {
        return right;
    }
    let (chain, modules) = judged_modules(costs, plan);
    let mut counts = 1..=modules.len();
    let too_many = counts.find(|&count| plan::cores(&modules[..count]) > chain.cores);
    Refusal::at(15, too_many.expect("the cores are too many")).into()
}

fn just_48(costs: &[u8], plan: &[u8]) -> Filled {
    match block_time(costs, plan) {
        Filled { refusal: 0, .. } if plan.len() > PLAN_BYTES => Refusal::new(7).into(),
        right => right,
    }
}

/// As if they were a thirteenth record.
fn all_bytes(costs: &[u8], plan: &[u8]) -> Filled {
    let right = block_time(costs, plan);
    let mut behind = plan.iter().skip(PLAN_BYTES);
    if right.refusal == 0 && behind.any(|&byte| byte != 0) {
        return Refusal::at(12, 13).into();
    }
    right
}

/// The first module that ends at task k is the last record that is read.
fn used_records(costs: &[u8], plan: &[u8]) -> Filled {
    let right = block_time(costs, plan);
    if right.refusal != 12 {
        return right;
    }
    let mut used = plan[..PLAN_BYTES].to_vec();
    let records = used.chunks_exact_mut(4);
    let from_last = records.skip_while(|record| record[1] != costs[3]);
    from_last.skip(1).for_each(|record| record.fill(0));
    block_time(costs, &used)
}

//! Best plans that compare the right times in a wrong order. That the last of equals is taken, and that cores are not compared,
//! is among the mistakes of document 01.

use super::best_plan_by;
use crate::mistakes::searches::{BY_BOTTLENECK, BY_CORES, BY_TIME, Compare, best_in_turn};
use crate::mistakes::{Mistake, in_best_plan};
use reference::answer::Answer;
use reference::costs::Chain;
use reference::every;
use reference::plan::{self, Module, block_time};

pub const MISTAKES: [Mistake; 7] = [
    // "of plans with equal bottleneck and equal cores, the one with the smaller single-block time now comes first"
    in_best_plan("time before cores", |costs, plan, work| {
        best_plan_in_turn(&[BY_BOTTLENECK, BY_TIME, BY_CORES], costs, plan, work)
    }),
    in_best_plan("time before bottleneck", |costs, plan, work| {
        best_plan_in_turn(&[BY_TIME, BY_BOTTLENECK, BY_CORES], costs, plan, work)
    }),
    in_best_plan("the greater time first", |costs, plan, work| {
        best_plan_by(
            |chain, plan| u32::MAX - block_time(chain, plan),
            costs,
            plan,
            work,
        )
    }),
    in_best_plan("a core weighs 2¹⁶ ticks", |costs, plan, work| {
        best_plan_in_turn(&[BY_BOTTLENECK, BY_WEIGHT], costs, plan, work)
    }),
    // "and only then module order"
    in_best_plan("module order before time", |costs, plan, work| {
        best_plan_by(|_, _| 0, costs, plan, work)
    }),
    in_best_plan("fewest modules before time", |costs, plan, work| {
        best_plan_in_turn(
            &[BY_BOTTLENECK, BY_CORES, BY_MODULES, BY_TIME],
            costs,
            plan,
            work,
        )
    }),
    in_best_plan("first split before time", |costs, plan, work| {
        best_plan_in_turn(
            &[BY_BOTTLENECK, BY_CORES, BY_FIRST_LAST, BY_TIME],
            costs,
            plan,
            work,
        )
    }),
];

/// Cores and ticks in one number, in which a time of more than 16 bits counts as cores.
const BY_WEIGHT: Compare = |chain, one, other| {
    let weight = |plan: &[Module]| ((plan::cores(plan) as u32) << 16) + block_time(chain, plan);
    weight(one).cmp(&weight(other))
};

const BY_MODULES: Compare = |_, one, other| one.len().cmp(&other.len());

/// By the last task of the first module.
const BY_FIRST_LAST: Compare = |_, one, other| one[0].last.cmp(&other[0].last);

/// Best plan by these comparisons in turn.
fn best_plan_in_turn(by: &[Compare], costs: &[u8], plan: &mut [u8], work: &mut [u32]) -> Answer {
    let search = |chain: &Chain| best_in_turn(by, chain);
    every::best_plan_by(search, costs, plan, work)
}

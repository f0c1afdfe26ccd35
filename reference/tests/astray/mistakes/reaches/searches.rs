//! Best plans of modules that end within a wrong reach. Each is too small: one that is too great changes no answer, since the rules
//! are asked too.

use super::modules::{on_one_core, replicable, with_a_core_less};
use crate::mistakes::memory::fits::below_capacity;
use crate::mistakes::searches::best_that_passes;
use crate::mistakes::{Mistake, in_best_plan};
use reference::answer::Answer;
use reference::costs::Chain;
use reference::every;
use reference::plan::{self, Module};
use reference::reach::{fits_board_by, longest_by, reach_of};

pub const MISTAKES: [Mistake; 5] = [
    // "Best plan … works out no response for a module beyond it. Every answer and refusal is the one given before."
    in_best_plan("reaches by P − 1 cores", |costs, plan, work| {
        within_longest(with_a_core_less, costs, plan, work)
    }),
    in_best_plan("reaches by one core's memory", |costs, plan, work| {
        within_longest(on_one_core, costs, plan, work)
    }),
    in_best_plan("reaches of replicable modules", |costs, plan, work| {
        within_longest(replicable, costs, plan, work)
    }),
    in_best_plan("reaches below the capacity", |costs, plan, work| {
        within_longest(below_board, costs, plan, work)
    }),
    in_best_plan("the reach of the next task", |costs, plan, work| {
        within(|chain, first| reach_of(chain, first + 1), costs, plan, work)
    }),
];

/// Best plan of modules that end within the longest one that passes.
fn within_longest(
    passes: fn(&Chain, Module) -> bool,
    costs: &[u8],
    plan: &mut [u8],
    work: &mut [u32],
) -> Answer {
    let reach_of = |chain: &Chain, first| longest_by(passes, chain, first);
    within(reach_of, costs, plan, work)
}

/// Best plan of modules that end within such reaches.
fn within(
    reach_of: impl Fn(&Chain, usize) -> usize,
    costs: &[u8],
    plan: &mut [u8],
    work: &mut [u32],
) -> Answer {
    let search = |chain: &Chain| {
        let tasks = 1..=chain.tasks;
        let reaches: Vec<usize> = tasks.map(|first| reach_of(chain, first)).collect();
        best_that_passes(chain, |rival| {
            let mut modules = rival.iter();
            plan::keeps_rules(chain, rival) && modules.all(|m| m.last <= reaches[m.first - 1])
        })
    };
    every::best_plan_by(search, costs, plan, work)
}

/// The shares are below the capacity at some count of the board's cores.
fn below_board(chain: &Chain, module: Module) -> bool {
    fits_board_by(below_capacity, chain, module)
}

//! Programs that know D, and leave it out of one thing alone, or go by something else beside it.

use super::{loads, rises};
use crate::mistakes::searches::{
    BY_BOTTLENECK, BY_CORES, BY_TIME, Compare, best_in_turn, best_that_passes,
};
use crate::mistakes::{Mistake, in_best_plan, in_greedy_plan, in_judge, judges};
use reference::answer::Answer;
use reference::costs::{Chain, DISPATCH};
use reference::every;
use reference::greedy::greedy_plan;
use reference::judge::judge;
use reference::plan::{self, Load, Module};

pub const MISTAKES: [Mistake; 8] = [
    // "a module's response rises by D": before it is divided by r
    in_judge("D added after the division", |costs, plan| {
        judges::judge_by(after_division, costs, plan)
    }),
    // "judging, planning, ties and demand 2 all use the response so defined"
    in_judge(
        "the slowest module by responses without D",
        |costs, plan| judges::judge_by(without_dispatch, costs, plan),
    ),
    in_judge("the slowest module's response without D", |costs, plan| {
        answered_without(costs, plan, judge(costs, plan))
    }),
    in_best_plan("the figures without D", |costs, plan, work| {
        let answer = every::best_plan(costs, plan, work);
        answered_without(costs, plan, answer)
    }),
    in_best_plan("plans as if D were 0", |costs, plan, work| {
        every::best_plan_by(as_if_0, costs, plan, work)
    }),
    in_best_plan("no copies where D is not 0", |costs, plan, work| {
        every::best_plan_by(without_copies, costs, plan, work)
    }),
    in_best_plan(
        "fewer modules with copies before time",
        |costs, plan, work| {
            let by = [BY_BOTTLENECK, BY_CORES, BY_COPIED, BY_TIME];
            every::best_plan_by(|chain| best_in_turn(&by, chain), costs, plan, work)
        },
    ),
    // the greedy way has one copy of each module
    in_greedy_plan("D for every module", |costs, grouping, plan| {
        let answer = greedy_plan(costs, grouping, plan);
        if answer.refusal != 0 {
            return answer;
        }
        let response = answer.response + u32::from(costs[DISPATCH]);
        Answer { response, ..answer }
    }),
];

/// Response ÷ r + D, as one fraction.
fn after_division(chain: &Chain, plan: &[Module]) -> Vec<Load> {
    loads(rises::for_each_copy, chain, plan)
}

fn without_dispatch(chain: &Chain, plan: &[Module]) -> Vec<Load> {
    loads(rises::none, chain, plan)
}

/// The right answer with these plan bytes, but for the response.
fn answered_without(costs: &[u8], plan: &[u8], right: Answer) -> Answer {
    if right.refusal != 0 {
        return right;
    }
    let (chain, modules) = judges::judged_modules(costs, plan);
    let slowest = modules[right.slowest as usize - 1];
    Answer {
        response: right.response - slowest.dispatch(&chain),
        ..right
    }
}

fn as_if_0(chain: &Chain) -> Option<Vec<Module>> {
    every::search(&Chain {
        dispatch: 0,
        ..chain.clone()
    })
}

fn without_copies(chain: &Chain) -> Option<Vec<Module>> {
    best_that_passes(chain, |plan| {
        let mut modules = plan.iter();
        plan::keeps_rules(chain, plan)
            && (chain.dispatch == 0 || modules.all(|module| module.copies == 1))
    })
}

const BY_COPIED: Compare = |_, one, other| {
    let copied = |plan: &[Module]| plan.iter().filter(|module| module.copies > 1).count();
    copied(one).cmp(&copied(other))
};

//! Best plans that go by document 01's test of memory first, or by what followed from it, or by other cores.

use super::{best_plan_by, by, fits};
use crate::mistakes::searches::best_that_passes;
use crate::mistakes::{Mistake, in_best_plan};
use reference::answer::Answer;
use reference::costs::Chain;
use reference::every;
use reference::greedy::fewest_cores;
use reference::judge::judge;
use reference::plan::{self, Module};
use reference::reach::reach_of;
use reference::round::memory::{FORMER, added_up};

pub const MISTAKES: [Mistake; 5] = [
    // "all plans follow the new test"
    in_best_plan("plans by needs added up, else 9", |costs, plan, work| {
        every::best_plan_by(former_or_none, costs, plan, work)
    }),
    in_best_plan(
        "plans by needs added up, else adds cores",
        |costs, plan, work| every::best_plan_by(former_with_cores, costs, plan, work),
    ),
    in_best_plan("plans by needs added up, else 14", former_or_14),
    in_best_plan("shares of the cores before", |costs, plan, work| {
        every::best_plan_by(by_cores_before, costs, plan, work)
    }),
    // by needs added up, where all tasks in one module do not fit on all cores, no plan keeps the rules
    in_best_plan("9 where task 1's reach is not k", |costs, plan, work| {
        every::best_plan_by(with_whole_reach, costs, plan, work)
    }),
];

fn former(chain: &Chain) -> Option<Vec<Module>> {
    every::search_by(FORMER, every::ORDER, chain)
}

fn former_or_none(chain: &Chain) -> Option<Vec<Module>> {
    former(chain).filter(|plan| plan::keeps_rules(chain, plan))
}

/// Each module of that plan gets the cores that its shares ask for.
fn former_with_cores(chain: &Chain) -> Option<Vec<Module>> {
    let mut plan = former(chain)?;
    for module in &mut plan {
        module.cores = module.cores.max(fewest_cores(chain, *module));
    }
    plan::keeps_rules(chain, &plan).then_some(plan)
}

/// The plan is judged afterwards, and taken back where Judge refuses it.
fn former_or_14(costs: &[u8], plan: &mut [u8], work: &mut [u32]) -> Answer {
    let lent = plan.to_vec();
    let planned = best_plan_by(added_up, costs, plan, work);
    if planned.refusal != 0 {
        return planned;
    }
    let judged = judge(costs, plan);
    if judged.refusal != 0 {
        plan.copy_from_slice(&lent);
    }
    judged
}

fn with_whole_reach(chain: &Chain) -> Option<Vec<Module>> {
    if reach_of(chain, 1) < chain.tasks {
        return None;
    }
    every::search(chain)
}

/// Memory is asked with the cores of the module before, if there is one.
fn by_cores_before(chain: &Chain) -> Option<Vec<Module>> {
    best_that_passes(chain, |plan| {
        let mut places = 0..plan.len();
        plan::keeps_rules_by(by(fits::ignored), chain, plan)
            && places.all(|i| {
                let cores = plan[i.saturating_sub(1)].cores;
                Module { cores, ..plan[i] }.memory_fits(chain)
            })
    })
}

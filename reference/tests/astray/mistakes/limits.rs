//! Wrong planners that get document 02's M-100, a core limit for a task, wrong.

mod refusals;
pub mod walks;

use super::{Mistake, in_best_plan, in_greedy_plan, in_judge, ruled};
use reference::answer::Answer;
use reference::costs::Chain;
use reference::plan::{Module, RULES, Rule, Rules};

pub const MISTAKES: [Mistake; 37] = [
    // "a module's limit is the least of its tasks' limits, those without one left aside"
    in_judge("the first task's limit only", |costs, plan| {
        judge_by(first_limit, costs, plan)
    }),
    in_best_plan("the first task's limit only", |costs, plan, work| {
        best_plan_by(first_limit, costs, plan, work)
    }),
    in_greedy_plan("the first task's limit only", |costs, grouping, plan| {
        greedy_plan_by(first_limit, costs, grouping, plan)
    }),
    in_judge("the last task's limit only", |costs, plan| {
        judge_by(last_limit, costs, plan)
    }),
    in_best_plan("the last task's limit only", |costs, plan, work| {
        best_plan_by(last_limit, costs, plan, work)
    }),
    in_greedy_plan("the last task's limit only", |costs, grouping, plan| {
        greedy_plan_by(last_limit, costs, grouping, plan)
    }),
    in_judge("the greatest of the tasks' limits", |costs, plan| {
        judge_by(greatest_limit, costs, plan)
    }),
    in_best_plan("the greatest of the tasks' limits", |costs, plan, work| {
        best_plan_by(greatest_limit, costs, plan, work)
    }),
    in_greedy_plan(
        "the greatest of the tasks' limits",
        |costs, grouping, plan| greedy_plan_by(greatest_limit, costs, grouping, plan),
    ),
    in_judge("0 is a limit of no cores", |costs, plan| {
        judge_by(zero_is_a_limit, costs, plan)
    }),
    in_best_plan("0 is a limit of no cores", |costs, plan, work| {
        best_plan_by(zero_is_a_limit, costs, plan, work)
    }),
    in_greedy_plan("0 is a limit of no cores", |costs, grouping, plan| {
        greedy_plan_by(zero_is_a_limit, costs, grouping, plan)
    }),
    // "the most cores that one copy may have"
    in_judge("fewer cores than the limit", |costs, plan| {
        judge_by(below_limit, costs, plan)
    }),
    in_best_plan("fewer cores than the limit", |costs, plan, work| {
        best_plan_by(below_limit, costs, plan, work)
    }),
    in_greedy_plan("fewer cores than the limit", |costs, grouping, plan| {
        greedy_plan_by(below_limit, costs, grouping, plan)
    }),
    in_judge("the limit counts over all copies", |costs, plan| {
        judge_by(all_copies_within, costs, plan)
    }),
    in_best_plan("the limit counts over all copies", |costs, plan, work| {
        best_plan_by(all_copies_within, costs, plan, work)
    }),
    // "a plan keeps the rules only if it is within the limits too"
    in_judge("ignores limits", |costs, plan| {
        judge_by(ignored, costs, plan)
    }),
    in_best_plan("ignores limits", |costs, plan, work| {
        best_plan_by(ignored, costs, plan, work)
    }),
    in_greedy_plan("ignores limits", |costs, grouping, plan| {
        greedy_plan_by(ignored, costs, grouping, plan)
    }),
    // "0 for no limit, else 1 to 32"; "refusal 5 no longer tests that byte, 6 does"
    in_judge("refuses a limit above P", refusals::above_cores),
    in_judge("takes a limit of 33", refusals::takes_33),
    in_judge("a limit is refused with 5", refusals::any_with_5),
    in_judge("above 32 is refused with 5", refusals::above_32_with_5),
    // "with 16, place the module, after 14 and before 15"
    in_judge("16 after 15", refusals::after_cores),
    in_judge("16 before 14", refusals::before_memory),
    in_judge("16 without a place", refusals::without_place),
    in_judge("16 at the module's first task", refusals::at_first_task),
    // "11 also covers a module whose fewest cores exceed its limit"
    in_greedy_plan("11 ignores limits", walks::start_ignores),
    in_greedy_plan("11 with the module as place", walks::start_with_place),
    in_greedy_plan("starts at the limit", walks::start_at_limit),
    in_greedy_plan("fewest cores cut to the limit", walks::start_cut_to_limit),
    // "in the bench way a module at its limit takes no core"
    in_greedy_plan("the walk ignores limits", walks::walk_ignores),
    in_greedy_plan("ends at a full slowest module", walks::ends_at_full_slowest),
    in_greedy_plan("the slowest of those not full", walks::around_not_full),
    in_greedy_plan(
        "ends where the best of three is full",
        walks::ends_at_full_best,
    ),
    in_greedy_plan(
        "neighbours by the slowest's limit",
        walks::by_limit_of_slowest,
    ),
];

/// The rules with another test of the limits.
const fn by(within: Rule) -> Rules {
    Rules { within, ..RULES }
}

fn judge_by(within: Rule, costs: &[u8], plan: &[u8]) -> Answer {
    ruled::judge(by(within), costs, plan)
}

fn best_plan_by(within: Rule, costs: &[u8], plan: &mut [u8], work: &mut [u32]) -> Answer {
    ruled::best_plan(by(within), costs, plan, work)
}

fn greedy_plan_by(within: Rule, costs: &[u8], grouping: u16, plan: &mut [u8]) -> Answer {
    ruled::greedy_plan(by(within), costs, grouping, plan)
}

fn first_limit(module: &Module, chain: &Chain) -> bool {
    at_most(module.cores, chain.limit(module.first))
}

fn last_limit(module: &Module, chain: &Chain) -> bool {
    at_most(module.cores, chain.limit(module.last))
}

fn greatest_limit(module: &Module, chain: &Chain) -> bool {
    let limits = (module.first..=module.last).filter_map(|task| chain.limit(task));
    at_most(module.cores, limits.max())
}

fn zero_is_a_limit(module: &Module, chain: &Chain) -> bool {
    let limits = (module.first..=module.last).map(|task| chain.limit(task).unwrap_or(0));
    at_most(module.cores, limits.min())
}

fn below_limit(module: &Module, chain: &Chain) -> bool {
    at_most(module.cores + 1, module.limit(chain))
}

fn all_copies_within(module: &Module, chain: &Chain) -> bool {
    at_most(module.copies * module.cores, module.limit(chain))
}

fn ignored(_: &Module, _: &Chain) -> bool {
    true
}

fn at_most(cores: usize, limit: Option<usize>) -> bool {
    limit.is_none_or(|most| cores <= most)
}

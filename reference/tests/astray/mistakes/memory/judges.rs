//! Judges that refuse with 14 in a wrong order, at a wrong place or by other cores than the plan's.

use super::{fits, judge_by};
use crate::mistakes::judges::judged_modules;
use crate::mistakes::{Mistake, in_judge};
use reference::answer::{Answer, Refusal};
use reference::judge::judge;
use reference::plan::Module;
use reference::round::memory::added_up;

pub const MISTAKES: [Mistake; 6] = [
    // "refusals 9, 11 and 14 … follow the new test": "place = first module at fault", "after 14 and before 15"
    in_judge("needs added up are tested first", added_up_first),
    in_judge("shares are tested after limits", after_limits),
    in_judge("shares are tested after cores", after_cores),
    in_judge("14 without a place", without_place),
    in_judge("14 at the first task too much", at_task),
    in_judge("cores above P are not counted", |costs, plan| {
        judge_by(fits::on_board_at_most, costs, plan)
    }),
];

/// Judge by document 01's test of memory.
fn former(costs: &[u8], plan: &[u8]) -> Answer {
    judge_by(added_up, costs, plan)
}

/// Two tests, each of all modules.
fn added_up_first(costs: &[u8], plan: &[u8]) -> Answer {
    let former = former(costs, plan);
    match former.refusal {
        14 => former,
        _ => judge(costs, plan),
    }
}

/// The new test goes between limits and cores.
fn after_limits(costs: &[u8], plan: &[u8]) -> Answer {
    let former = former(costs, plan);
    match former.refusal {
        0 | 15 => judge(costs, plan),
        _ => former,
    }
}

/// The new test goes last.
fn after_cores(costs: &[u8], plan: &[u8]) -> Answer {
    let former = former(costs, plan);
    match former.refusal {
        0 => judge(costs, plan),
        _ => former,
    }
}

fn without_place(costs: &[u8], plan: &[u8]) -> Answer {
    let right = judge(costs, plan);
    match right.refusal {
        14 => Refusal::new(14).into(),
        _ => right,
    }
}

/// The place is the task with whose share a module has too much.
fn at_task(costs: &[u8], plan: &[u8]) -> Answer {
    let right = judge(costs, plan);
    if right.refusal != 14 {
        return right;
    }
    let (chain, modules) = judged_modules(costs, plan);
    let module = modules[right.place as usize - 1];
    let mut lasts = module.first..=module.last;
    let too_much = lasts.find(|&last| !Module { last, ..module }.memory_fits(&chain));
    Refusal::at(14, too_much.expect("the module does not fit")).into()
}

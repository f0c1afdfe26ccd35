//! Judges that refuse by document 02's M-100 in a wrong way: 5 and 6, which are the reader's, and 16.

use crate::mistakes::judges::judged_modules;
use reference::answer::{Answer, Refusal};
use reference::costs::{MOST_CORES, RECORD_BYTES};
use reference::judge::judge;
use reference::plan;

/// Judge with a reader that is sized by the board.
pub fn above_cores(costs: &[u8], plan: &[u8]) -> Answer {
    judge_refusing(6, |limit, cores| limit > cores, costs, plan)
}

/// Judge with a reader to which b of a task's record is due to be 0.
pub fn any_with_5(costs: &[u8], plan: &[u8]) -> Answer {
    judge_refusing(5, |limit, _| limit > 0, costs, plan)
}

/// Judge with a reader that tests the right bound, but as a part of the key.
pub fn above_32_with_5(costs: &[u8], plan: &[u8]) -> Answer {
    judge_refusing(5, |limit, _| limit > MOST_CORES, costs, plan)
}

/// Judge with a reader that refuses some limits, given with the board's cores, by this number, 5 or 6.
fn judge_refusing(
    number: u32,
    is_fault: fn(usize, usize) -> bool,
    costs: &[u8],
    plan: &[u8],
) -> Answer {
    let right = judge(costs, plan);
    if (1..=4).contains(&right.refusal) {
        return right;
    }
    let (tasks, cores) = (usize::from(costs[3]), usize::from(costs[2]));
    let limit = |task: usize| usize::from(costs[task * RECORD_BYTES + 3]);
    let Some(task) = (1..=tasks).find(|&task| is_fault(limit(task), cores)) else {
        return right;
    };
    // record 1 is the head
    let wrong = Refusal::at(number, task + 1);
    // the earliest faulty record decides; in one record 5 goes first
    let others_go_first = matches!(right.refusal, 5 | 6)
        && (right.place, right.refusal) < (wrong.place, wrong.number);
    if others_go_first { right } else { wrong.into() }
}

/// Judge with a reader that takes one limit too many, as if it were the greatest.
pub fn takes_33(costs: &[u8], plan: &[u8]) -> Answer {
    let mut lowered = costs.to_vec();
    for record in lowered.chunks_exact_mut(RECORD_BYTES) {
        if record[0] == 2 && usize::from(record[3]) == MOST_CORES + 1 {
            record[3] -= 1;
        }
    }
    judge(&lowered, plan)
}

pub fn after_cores(costs: &[u8], plan: &[u8]) -> Answer {
    let right = judge(costs, plan);
    if right.refusal == 16 {
        let (chain, modules) = judged_modules(costs, plan);
        if plan::cores(&modules) > chain.cores {
            return Refusal::new(15).into();
        }
    }
    right
}

pub fn before_memory(costs: &[u8], plan: &[u8]) -> Answer {
    let right = judge(costs, plan);
    if right.refusal == 14 {
        let (chain, modules) = judged_modules(costs, plan);
        if let Some(i) = modules
            .iter()
            .position(|module| !module.within_limit(&chain))
        {
            return Refusal::at(16, i + 1).into();
        }
    }
    right
}

pub fn without_place(costs: &[u8], plan: &[u8]) -> Answer {
    let right = judge(costs, plan);
    if right.refusal == 16 {
        return Refusal::new(16).into();
    }
    right
}

/// 16 has the first task of the module over its limit as its place.
pub fn at_first_task(costs: &[u8], plan: &[u8]) -> Answer {
    let right = judge(costs, plan);
    if right.refusal == 16 {
        let (_, modules) = judged_modules(costs, plan);
        let module = modules[right.place as usize - 1];
        return Refusal::at(16, module.first).into();
    }
    right
}

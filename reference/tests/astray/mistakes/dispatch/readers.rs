//! Programs that read the first record in a wrong way. "The task byte of the kind 1 record … is that cost D, 0 to 255": "refusal 2
//! tests the kind only, and 5 passes over that byte".

use crate::mistakes::times::in_refusal;
use crate::mistakes::{Mistake, in_best_plan, in_greedy_plan, in_judge};
use reference::answer::{Answer, Refusal};
use reference::block_time::block_time;
use reference::costs::{DISPATCH, MOST_CORES, MOST_TASKS, RECORD_BYTES, time_keys};
use reference::every::best_plan;
use reference::greedy::greedy_plan;
use reference::judge::judge;

pub const MISTAKES: [Mistake; 10] = [
    in_judge("2 for a D other than 0", |costs, plan| {
        former(costs).map_or_else(|| judge(costs, plan), Answer::from)
    }),
    in_best_plan("2 for a D other than 0", |costs, plan, work| {
        former(costs).map_or_else(|| best_plan(costs, plan, work), Answer::from)
    }),
    in_greedy_plan("2 for a D other than 0", |costs, grouping, plan| {
        former(costs).map_or_else(|| greedy_plan(costs, grouping, plan), Answer::from)
    }),
    in_refusal("2 for a D other than 0", |costs, plan| {
        former(costs).map_or_else(|| block_time(costs, plan), Into::into)
    }),
    in_judge("2 for a D above 32", |costs, plan| {
        let is_above = has_record(costs) && usize::from(costs[DISPATCH]) > MOST_CORES;
        if is_above {
            return Refusal::new(2).into();
        }
        judge(costs, plan)
    }),
    in_judge("3 for a D other than 0", |costs, plan| {
        refused_with(Refusal::new(3), costs, judge(costs, plan))
    }),
    in_judge("5 for a D other than 0", |costs, plan| {
        refused_with(Refusal::at(5, 1), costs, judge(costs, plan))
    }),
    in_judge("6 for a D other than 0", |costs, plan| {
        refused_with(Refusal::at(6, 1), costs, judge(costs, plan))
    }),
    in_judge("any kind of the first record", any_kind),
    in_judge("5 passes over every task byte", any_task),
];

fn has_record(costs: &[u8]) -> bool {
    costs.len() >= RECORD_BYTES && costs.len().is_multiple_of(RECORD_BYTES)
}

/// Document 01's refusal 2: "first record's kind is not 1 or its task not 0", after 1. None leaves it to the right reader.
pub fn former(costs: &[u8]) -> Option<Refusal> {
    (has_record(costs) && costs[DISPATCH] != 0).then_some(Refusal::new(2))
}

/// In its turn among those of the costs, where D is not 0; else the right answer. The first record's 5 or 6 is the earliest.
fn refused_with(refusal: Refusal, costs: &[u8], right: Answer) -> Answer {
    let is_before = (1..refusal.number.min(5)).contains(&right.refusal);
    if is_before || costs.get(DISPATCH).is_none_or(|&dispatch| dispatch == 0) {
        return right;
    }
    refusal.into()
}

/// As if it were 1.
fn any_kind(costs: &[u8], plan: &[u8]) -> Answer {
    let mut mended = costs.to_vec();
    if let Some(kind) = mended.first_mut() {
        *kind = 1;
    }
    judge(&mended, plan)
}

/// As if all were the due ones, on a board in range.
fn any_task(costs: &[u8], plan: &[u8]) -> Answer {
    let mut mended = costs.to_vec();
    if let [_, _, cores, tasks, ..] = *costs
        && usize::from(tasks) <= MOST_TASKS
        && usize::from(cores) <= MOST_CORES
    {
        let times = time_keys(tasks, cores);
        let due = (1..=tasks).chain(times.iter().map(|key| key.task));
        let records = mended.chunks_exact_mut(RECORD_BYTES).skip(1);
        records.zip(due).for_each(|(record, task)| record[1] = task);
    }
    judge(&mended, plan)
}

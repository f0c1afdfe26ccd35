//! Programs that go by the right test of a module, and give another number than the last task of the first task's longest one.

use super::{Mistake, in_count};
use reference::answer::Filled;
use reference::costs::Chain;
use reference::greedy::fewest_cores;
use reference::reach::{self, of_one_core, reach_of};

pub const MISTAKES: [Mistake; 13] = [
    // "the last task of its longest module"
    in_count("the last task of the shortest module", |costs, first| {
        giving(shortest, costs, first)
    }),
    in_count("the task behind the last one", |costs, first| {
        giving(behind, costs, first)
    }),
    in_count("the last task counted from 0", |costs, first| {
        giving(last_from_0, costs, first)
    }),
    in_count("the first task counted from 0", |costs, first| {
        reach::reach_by(first_from_0, costs, first)
    }),
    in_count("the number of tasks", |costs, first| {
        giving(number_of_tasks, costs, first)
    }),
    in_count("the number of cores", |costs, first| {
        giving(number_of_cores, costs, first)
    }),
    in_count("the whole chain always", |costs, first| {
        giving(whole_chain, costs, first)
    }),
    // "each first task has a reach"
    in_count("task 1's for every task", |costs, first| {
        giving(of_task_1, costs, first)
    }),
    in_count("at least that of the task before", |costs, first| {
        giving(never_less, costs, first)
    }),
    in_count("that of the next task that has one", |costs, first| {
        giving_for_0(of_next, costs, first)
    }),
    // "0 if there is none"
    in_count("the task before in place of 0", |costs, first| {
        giving_for_0(|_, first| first - 1, costs, first)
    }),
    in_count("the first task in place of 0", |costs, first| {
        giving_for_0(|_, first| first, costs, first)
    }),
    in_count("k in place of 0", |costs, first| {
        giving_for_0(whole_chain, costs, first)
    }),
];

/// The service with another number for the chain's tasks.
fn giving(number: fn(&Chain, usize) -> usize, costs: &[u8], first: u8) -> Filled {
    let of_chain = |chain: &Chain, first| {
        let is_task = (1..=chain.tasks).contains(&first);
        if is_task { number(chain, first) } else { 0 }
    };
    reach::reach_by(of_chain, costs, first)
}

/// The service with another number for those of the chain's tasks whose reach is 0.
fn giving_for_0(number: fn(&Chain, usize) -> usize, costs: &[u8], first: u8) -> Filled {
    let right = reach::reach(costs, first);
    match (right.refusal, right.count) {
        (0, 0) => giving(number, costs, first),
        _ => right,
    }
}

fn shortest(chain: &Chain, first: usize) -> usize {
    reach_of(chain, first).min(first)
}

/// The first task that a module does not hold; k + 1 if there is none.
fn behind(chain: &Chain, first: usize) -> usize {
    reach_of(chain, first).max(first - 1) + 1
}

fn last_from_0(chain: &Chain, first: usize) -> usize {
    reach_of(chain, first).saturating_sub(1)
}

fn first_from_0(chain: &Chain, first: usize) -> usize {
    reach_of(chain, first + 1)
}

fn number_of_tasks(chain: &Chain, first: usize) -> usize {
    (reach_of(chain, first) + 1).saturating_sub(first)
}

/// Those that the longest module needs; 0 if there is none.
fn number_of_cores(chain: &Chain, first: usize) -> usize {
    match reach_of(chain, first) {
        0 => 0,
        last => fewest_cores(chain, of_one_core(first, last)),
    }
}

fn whole_chain(chain: &Chain, _: usize) -> usize {
    chain.tasks
}

fn of_task_1(chain: &Chain, _: usize) -> usize {
    reach_of(chain, 1)
}

/// A reach is taken to grow with the first task.
fn never_less(chain: &Chain, first: usize) -> usize {
    let reaches = (1..=first).map(|first| reach_of(chain, first));
    reaches.max().unwrap_or(0)
}

/// Tasks that need more than the board has are passed over.
fn of_next(chain: &Chain, first: usize) -> usize {
    let mut reaches = (first..=chain.tasks).map(|first| reach_of(chain, first));
    reaches.find(|&reach| reach > 0).unwrap_or(0)
}

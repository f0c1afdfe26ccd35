//! Programs that find every reach of the chain's tasks, and go wrong with other first tasks or with costs that are refused.

use super::{Mistake, in_count, in_place, in_refusal};
use crate::mistakes::dispatch::readers::former;
use reference::answer::{Filled, Refusal};
use reference::costs::{self, Chain, RECORD_BYTES};
use reference::reach::{reach, reach_by, reach_of, reach_on};

pub const MISTAKES: [Mistake; 13] = [
    // "each first task": those of the chain
    in_count("0 is taken for task 1", |costs, first| {
        reach(costs, first.max(1))
    }),
    in_count("k above k", |costs, first| {
        above_k(|chain, _| chain.tasks, costs, first)
    }),
    in_count("the first task itself above k", |costs, first| {
        above_k(|_, first| first, costs, first)
    }),
    in_count("the first task modulo 16", |costs, first| {
        reach(costs, first % 16)
    }),
    in_refusal("refuses a task that is not the chain's", (0, 12), refused),
    // document 01: "all services, first"; "its number, a place (0 unless named) and zero figures"
    in_count("a refusal keeps a count", with_count),
    in_place("a refusal without its place", |costs, first| Filled {
        place: 0,
        ..reach(costs, first)
    }),
    in_place("the place counted from 0", |costs, first| {
        let right = reach(costs, first);
        let place = right.place.saturating_sub(1);
        Filled { place, ..right }
    }),
    in_refusal("0 for refused costs", (1, 0), |costs, first| Filled {
        refusal: 0,
        place: 0,
        ..reach(costs, first)
    }),
    in_refusal("0 for task 0 of refused costs", (6, 0), zero_first),
    in_refusal("records of times are not tested", (5, 0), tasks_tested),
    in_refusal("a limit is refused with 5", (0, 5), limit_with_5),
    in_refusal("2 for a D other than 0", (0, 2), |costs, first| {
        former(costs).map_or_else(|| reach(costs, first), Into::into)
    }),
];

/// The service with another number for first tasks above k.
fn above_k(number: fn(&Chain, usize) -> usize, costs: &[u8], first: u8) -> Filled {
    let of_any = |chain: &Chain, first| {
        let is_above = first > chain.tasks;
        if is_above {
            number(chain, first)
        } else {
            reach_of(chain, first)
        }
    };
    reach_by(of_any, costs, first)
}

/// With the number of a plan's record whose first task is not the due one.
fn refused(costs: &[u8], first: u8) -> Filled {
    match costs::read(costs) {
        Ok(chain) if !(1..=chain.tasks).contains(&first.into()) => Refusal::new(12).into(),
        _ => reach(costs, first),
    }
}

/// That of the first part, where only the times are refused.
fn with_count(costs: &[u8], first: u8) -> Filled {
    let right = reach(costs, first);
    let count = tasks_tested(costs, first).count;
    Filled { count, ..right }
}

fn zero_first(costs: &[u8], first: u8) -> Filled {
    match first {
        0 => Filled::default(),
        _ => reach(costs, first),
    }
}

/// Of the costs that are refused with 5 or 6, the records of the tasks are enough if they are accepted by themselves.
fn tasks_tested(costs: &[u8], first: u8) -> Filled {
    let right = reach(costs, first);
    if !matches!(right.refusal, 5 | 6) {
        return right;
    }
    let first_part = (1 + usize::from(costs[3])) * RECORD_BYTES;
    match costs::read_head(&costs[..first_part]) {
        Ok(chain) => reach_on(&chain, first),
        Err(_) => right,
    }
}

/// As if byte b of a task's record were due to be 0, where nothing else is refused.
fn limit_with_5(costs: &[u8], first: u8) -> Filled {
    let right = reach(costs, first);
    if right.refusal != 0 {
        return right;
    }
    let mut tasks = costs.chunks_exact(RECORD_BYTES).skip(1);
    match tasks.position(|record| record[0] == 2 && record[3] > 0) {
        // record 1 is the head
        Some(limited) => Refusal::at(5, limited + 2).into(),
        None => right,
    }
}

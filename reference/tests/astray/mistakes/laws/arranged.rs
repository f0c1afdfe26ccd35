//! Programs that take one law for another.

use super::lawful::three_as_five;
use super::{Mistake, in_output, in_refusal};
use reference::answer::Filled;
use reference::costs;
use reference::laws::{self, LAW_BYTES, fill_costs};

pub const MISTAKES: [Mistake; 4] = [
    // "each cost follows a law of its own"
    in_output("kind 3's law for kind 4", execution_for_internal),
    in_output("kind 4's law for kind 5", internal_for_external),
    in_output("task 1's law for every task", first_for_every),
    // "in cost-record order"
    in_refusal("laws of transfers by task", (0, 17), by_task),
];

/// The service with some laws taken for others, by k, where all of them are right, so that it is no other mistake.
fn taking(change: fn(usize, &mut [u8]), head: &[u8], laws: &[u8], out: &mut [u8]) -> Filled {
    let mut changed = laws.to_vec();
    if let Ok((chain, _)) = laws::read(head, laws) {
        change(chain.tasks, &mut changed);
    }
    fill_costs(head, &changed, out)
}

/// Form and coefficients of one law, counted from 0, for those of another.
fn take(laws: &mut [u8], from: usize, to: usize) {
    let (from, to) = (from * LAW_BYTES, to * LAW_BYTES);
    laws.copy_within(from + 2..from + LAW_BYTES, to + 2);
}

fn execution_for_internal(head: &[u8], laws: &[u8], out: &mut [u8]) -> Filled {
    let change = |tasks: usize, laws: &mut [u8]| {
        for pair in 0..tasks - 1 {
            take(laws, pair, tasks + pair);
        }
    };
    taking(change, head, laws, out)
}

fn internal_for_external(head: &[u8], laws: &[u8], out: &mut [u8]) -> Filled {
    let change = |tasks: usize, laws: &mut [u8]| {
        for pair in 0..tasks - 1 {
            let external = 2 * tasks - 1 + pair;
            take(laws, tasks + pair, external);
            let record = &mut laws[external * LAW_BYTES..][..LAW_BYTES];
            if record[2] == 1 {
                three_as_five(record);
            }
        }
    };
    taking(change, head, laws, out)
}

fn first_for_every(head: &[u8], laws: &[u8], out: &mut [u8]) -> Filled {
    let change = |tasks: usize, laws: &mut [u8]| {
        let of_kinds = [(0, tasks), (tasks, tasks - 1), (2 * tasks - 1, tasks - 1)];
        for (first, count) in of_kinds {
            (1..count).for_each(|i| take(laws, first, first + i));
        }
    };
    taking(change, head, laws, out)
}

/// Behind the executions, kinds 4 and 5 of task 1 are due, then those of task 2.
fn by_task(head: &[u8], laws: &[u8], out: &mut [u8]) -> Filled {
    let tasks = costs::read_head(head).map_or(0, |chain| chain.tasks);
    let records: Vec<&[u8]> = laws.chunks(LAW_BYTES).collect();
    let (executions, transfers) = records.split_at(tasks.min(records.len()));
    let internals: Vec<&[u8]> = transfers.iter().step_by(2).copied().collect();
    let externals: Vec<&[u8]> = transfers.iter().skip(1).step_by(2).copied().collect();
    let sorted = [executions, &internals, &externals].concat().concat();
    fill_costs(head, &sorted, out)
}

//! Programs that look for values above 1,000,000 in a wrong way.

use super::{FillCosts, Mistake, in_refusal};
use reference::answer::Filled;
use reference::costs::{Key, MOST_CORES, MOST_VALUE, RECORD_BYTES};
use reference::laws::{self, Entry, Law, is_above};

pub const MISTAKES: [Mistake; 18] = [
    // "a value above 1,000,000 with 18"
    not_refused("no 18", |head, laws, out| {
        testing(|_| false, head, laws, out)
    }),
    in_refusal("18 from 1,000,000 on", (0, 18), at_most_value),
    in_refusal("18 up to 32 cores", (0, 18), up_to_32_cores),
    not_refused("18 up to a task's limit only", up_to_limits),
    not_refused("18 at one core only", at_one_core),
    not_refused("18 at all cores only", at_all_cores),
    not_refused("18 where s is q only", at_even_cores),
    not_refused(
        "18 for external costs at 1 to 1 and P to P only",
        |head, laws, out| at_corners(|all| [(1, 1), (all, all)], head, laws, out),
    ),
    not_refused("18 at all corners but 1 to 1", |head, laws, out| {
        at_corners(|all| [(1, all), (all, 1), (all, all)], head, laws, out)
    }),
    not_refused("18 at all corners but 1 to P", |head, laws, out| {
        at_corners(|all| [(1, 1), (all, 1), (all, all)], head, laws, out)
    }),
    not_refused("18 at all corners but P to 1", |head, laws, out| {
        at_corners(|all| [(1, 1), (1, all), (all, all)], head, laws, out)
    }),
    not_refused("18 at all corners but P to P", |head, laws, out| {
        at_corners(|all| [(1, 1), (1, all), (all, 1)], head, laws, out)
    }),
    not_refused("18 for kind 4 at one core only", internals_at_one_core),
    not_refused("18 for executions only", |head, laws, out| {
        testing_some(|entry| entry.key.kind == 3, head, laws, out)
    }),
    not_refused("18 for external costs only", |head, laws, out| {
        testing_some(|entry| entry.key.kind == 5, head, laws, out)
    }),
    not_refused("18 for kind 3 of task 1 only", |head, laws, out| {
        of_task_1(3, head, laws, out)
    }),
    not_refused("18 for kind 4 of task 1 only", |head, laws, out| {
        of_task_1(4, head, laws, out)
    }),
    not_refused("18 for kind 5 of task 1 only", |head, laws, out| {
        of_task_1(5, head, laws, out)
    }),
];

/// Values that are to be refused with 18 are filled in.
const fn not_refused(what: &'static str, fill_costs: FillCosts) -> Mistake {
    in_refusal(what, (18, 0), fill_costs)
}

/// The service with another test of the values.
fn testing(above: impl Fn(&[Entry]) -> bool, head: &[u8], laws: &[u8], out: &mut [u8]) -> Filled {
    laws::fill_costs_by(Law::value, above, head, laws, out)
}

/// The test over some of the values.
fn above_of(entries: &[Entry], counts: impl Fn(&Entry) -> bool) -> bool {
    let some: Vec<Entry> = entries.iter().filter(|e| counts(e)).copied().collect();
    is_above(&some)
}

/// The service that tests some of the values.
fn testing_some(
    counts: impl Fn(&Entry) -> bool,
    head: &[u8],
    laws: &[u8],
    out: &mut [u8],
) -> Filled {
    testing(|entries| above_of(entries, &counts), head, laws, out)
}

/// The cores of the board.
fn board(entries: &[Entry]) -> u8 {
    entries.iter().map(|entry| entry.key.a).max().unwrap_or(1)
}

fn at_most_value(head: &[u8], laws: &[u8], out: &mut [u8]) -> Filled {
    let above = |entries: &[Entry]| entries.iter().any(|entry| entry.value >= MOST_VALUE.into());
    testing(above, head, laws, out)
}

/// Each law is tested as if the board had the most cores that a board may have.
fn up_to_32_cores(head: &[u8], laws: &[u8], out: &mut [u8]) -> Filled {
    let above = |_: &[Entry]| {
        let mut largest = head.to_vec();
        largest[2] = MOST_CORES as u8;
        laws::chain(&largest, laws).is_err()
    };
    testing(above, head, laws, out)
}

/// Costs on more cores than the tasks may have (M-100) are not tested.
fn up_to_limits(head: &[u8], laws: &[u8], out: &mut [u8]) -> Filled {
    testing_some(|entry| is_within_limits(head, entry.key), head, laws, out)
}

/// Whether the task, and the next one where it is a transfer, may have so many cores by an accepted first part.
pub fn is_within_limits(head: &[u8], key: Key) -> bool {
    let may_have = |task: u8, cores: u8| {
        let limit = head[usize::from(task) * RECORD_BYTES + 3];
        limit == 0 || cores <= limit
    };
    match key.kind {
        3 => may_have(key.task, key.a),
        4 => may_have(key.task, key.a) && may_have(key.task + 1, key.a),
        _ => may_have(key.task, key.a) && may_have(key.task + 1, key.b),
    }
}

/// Whether the module, or both sides of the transfer, have so many cores.
fn has(entry: &Entry, cores: u8) -> bool {
    entry.key.a == cores && (entry.key.kind < 5 || entry.key.b == cores)
}

fn at_one_core(head: &[u8], laws: &[u8], out: &mut [u8]) -> Filled {
    testing_some(|entry| has(entry, 1), head, laws, out)
}

fn at_all_cores(head: &[u8], laws: &[u8], out: &mut [u8]) -> Filled {
    let above = |entries: &[Entry]| {
        let all = board(entries);
        above_of(entries, |entry| has(entry, all))
    };
    testing(above, head, laws, out)
}

/// An external transfer is tested at (1, 1), (2, 2) and so on.
fn at_even_cores(head: &[u8], laws: &[u8], out: &mut [u8]) -> Filled {
    let is_even = |entry: &Entry| entry.key.kind < 5 || entry.key.a == entry.key.b;
    testing_some(is_even, head, laws, out)
}

/// An external transfer is tested at some corners, given as s and q on a board of so many cores, and all else at one core and at
/// all.
fn at_corners<const N: usize>(
    corners: fn(u8) -> [(u8, u8); N],
    head: &[u8],
    laws: &[u8],
    out: &mut [u8],
) -> Filled {
    let above = |entries: &[Entry]| {
        let all = board(entries);
        above_of(entries, |entry| match entry.key.kind {
            5 => corners(all).contains(&(entry.key.a, entry.key.b)),
            _ => [1, all].contains(&entry.key.a),
        })
    };
    testing(above, head, laws, out)
}

/// All four corners. This is no mistake that an answer could show.
pub fn at_ends(head: &[u8], laws: &[u8], out: &mut [u8]) -> Filled {
    let corners = |all| [(1, 1), (1, all), (all, 1), (all, all)];
    at_corners(corners, head, laws, out)
}

fn internals_at_one_core(head: &[u8], laws: &[u8], out: &mut [u8]) -> Filled {
    let tested = |entry: &Entry| entry.key.kind != 4 || entry.key.a == 1;
    testing_some(tested, head, laws, out)
}

/// Of one kind, the costs of task 1 alone are tested.
fn of_task_1(kind: u8, head: &[u8], laws: &[u8], out: &mut [u8]) -> Filled {
    let tested = |entry: &Entry| entry.key.kind != kind || entry.key.task == 1;
    testing_some(tested, head, laws, out)
}

//! Programs that give the right refusals, and fill in or count something else.

use super::bounds::is_within_limits;
use super::refusals::{all_values, as_read};
use super::{Mistake, in_count, in_output};
use reference::answer::Filled;
use reference::costs::{DISPATCH, Key, RECORD_BYTES};
use reference::laws::fill_costs;

pub const MISTAKES: [Mistake; 20] = [
    // "answers how many bytes or entries it filled"
    in_count("the count is in records", count_of_records),
    in_count("the count leaves the first part out", count_of_times),
    in_count("the count is what is lent", count_of_lent),
    // "output is the full set of cost records, the first part's as lent"
    in_output("flags are zeroed", |head, laws, out| {
        with_zero_at(2, head, laws, out)
    }),
    in_output("limits are zeroed", |head, laws, out| {
        with_zero_at(3, head, laws, out)
    }),
    in_output("D is zeroed", |head, laws, out| {
        changing(|_, filled| filled[DISPATCH] = 0, head, laws, out)
    }),
    in_output("the first part is not filled in", without_head),
    in_output("nothing is filled in", left_blank),
    in_output("values are 0 above a task's limit", up_to_limits),
    in_output("tasks of transfers one more", receiving_task),
    in_output("a and b exchanged", a_and_b_exchanged),
    in_output("b of kinds 3 and 4 is p", b_is_p),
    in_output("values highest byte first", |head, laws, out| {
        with_records(|record| record[4..].reverse(), head, laws, out)
    }),
    in_output("kind 5 by q, then s", by_q),
    in_output("transfers by task", by_task),
    // "any other bytes lent for output, are unchanged"; "what is lent beyond them is unchanged"
    in_output("the first part filled in before 1 to 6", head_before_1_to_6),
    in_output("the first part filled in before 17", head_before_17),
    in_output("filled up to the value above", filled_up_to_above),
    in_output("a short output is filled", short_filled),
    in_output("zeros behind the records", zeros_behind),
];

/// The right program, and what becomes of its answer and of the filled output, which is given with the length of the first part.
fn changing(change: impl Fn(usize, &mut [u8]), head: &[u8], laws: &[u8], out: &mut [u8]) -> Filled {
    let filled = fill_costs(head, laws, out);
    if filled.refusal == 0 {
        change(head.len(), &mut out[..filled.count as usize]);
    }
    filled
}

fn count_of_records(head: &[u8], laws: &[u8], out: &mut [u8]) -> Filled {
    let filled = fill_costs(head, laws, out);
    let count = filled.count / RECORD_BYTES as u32;
    Filled { count, ..filled }
}

fn count_of_times(head: &[u8], laws: &[u8], out: &mut [u8]) -> Filled {
    let filled = fill_costs(head, laws, out);
    let count = filled.count.saturating_sub(head.len() as u32);
    Filled { count, ..filled }
}

fn count_of_lent(head: &[u8], laws: &[u8], out: &mut [u8]) -> Filled {
    let filled = fill_costs(head, laws, out);
    let count = if filled.refusal == 0 {
        out.len() as u32
    } else {
        0
    };
    Filled { count, ..filled }
}

/// Another byte in each record of a task.
fn with_zero_at(at: usize, head: &[u8], laws: &[u8], out: &mut [u8]) -> Filled {
    let change = |first_part, filled: &mut [u8]| {
        let tasks = filled[..first_part].chunks_exact_mut(RECORD_BYTES).skip(1);
        tasks.for_each(|record| record[at] = 0);
    };
    changing(change, head, laws, out)
}

fn without_head(head: &[u8], laws: &[u8], out: &mut [u8]) -> Filled {
    let held = out.to_vec();
    let change = |first_part, filled: &mut [u8]| {
        filled[..first_part].copy_from_slice(&held[..first_part]);
    };
    changing(change, head, laws, out)
}

fn left_blank(head: &[u8], laws: &[u8], out: &mut [u8]) -> Filled {
    let mut elsewhere = out.to_vec();
    fill_costs(head, laws, &mut elsewhere)
}

/// A change of each record of the times.
fn with_records(change: impl Fn(&mut [u8]), head: &[u8], laws: &[u8], out: &mut [u8]) -> Filled {
    let change = |first_part, filled: &mut [u8]| {
        let times = filled[first_part..].chunks_exact_mut(RECORD_BYTES);
        times.for_each(&change);
    };
    changing(change, head, laws, out)
}

/// The values on more cores than the tasks may have (M-100) are 0.
fn up_to_limits(head: &[u8], laws: &[u8], out: &mut [u8]) -> Filled {
    let change = |record: &mut [u8]| {
        let [kind, task, a, b] = [record[0], record[1], record[2], record[3]];
        if !is_within_limits(head, Key { kind, task, a, b }) {
            record[4..].fill(0);
        }
    };
    with_records(change, head, laws, out)
}

/// The task that a transfer goes to.
fn receiving_task(head: &[u8], laws: &[u8], out: &mut [u8]) -> Filled {
    let change = |record: &mut [u8]| {
        if record[0] > 3 {
            record[1] += 1;
        }
    };
    with_records(change, head, laws, out)
}

fn a_and_b_exchanged(head: &[u8], laws: &[u8], out: &mut [u8]) -> Filled {
    let change = |record: &mut [u8]| {
        if record[0] == 5 {
            record.swap(2, 3);
        }
    };
    with_records(change, head, laws, out)
}

fn b_is_p(head: &[u8], laws: &[u8], out: &mut [u8]) -> Filled {
    let change = |record: &mut [u8]| {
        if record[0] < 5 {
            record[3] = record[2];
        }
    };
    with_records(change, head, laws, out)
}

/// The times in another order.
fn sorted(order: fn(&[u8]) -> [u8; 4], head: &[u8], laws: &[u8], out: &mut [u8]) -> Filled {
    let change = |first_part, filled: &mut [u8]| {
        let times = &mut filled[first_part..];
        let mut records: Vec<Vec<u8>> = times.chunks(RECORD_BYTES).map(<[u8]>::to_vec).collect();
        records.sort_by_key(|record| order(record));
        times.copy_from_slice(&records.concat());
    };
    changing(change, head, laws, out)
}

fn by_q(head: &[u8], laws: &[u8], out: &mut [u8]) -> Filled {
    let order = |record: &[u8]| [record[0], record[1], record[3], record[2]];
    sorted(order, head, laws, out)
}

/// Behind the executions, both transfers of a pair stand together.
fn by_task(head: &[u8], laws: &[u8], out: &mut [u8]) -> Filled {
    let order = |record: &[u8]| match record[0] {
        3 => [0, record[1], record[2], 0],
        kind => [record[1], kind, record[2], record[3]],
    };
    sorted(order, head, laws, out)
}

/// As much of the first part as has room, which a refusal of it ought to leave out.
fn head_before_1_to_6(head: &[u8], laws: &[u8], out: &mut [u8]) -> Filled {
    let filled = fill_costs(head, laws, out);
    if (1..=6).contains(&filled.refusal) {
        copy_head(head, out);
    }
    filled
}

/// The same by an accepted first part, before the laws are looked at.
fn head_before_17(head: &[u8], laws: &[u8], out: &mut [u8]) -> Filled {
    let filled = fill_costs(head, laws, out);
    if filled.refusal == 17 {
        copy_head(head, out);
    }
    filled
}

fn copy_head(head: &[u8], out: &mut [u8]) {
    let room = head.len().min(out.len());
    out[..room].copy_from_slice(&head[..room]);
}

/// As much as has room.
fn short_filled(head: &[u8], laws: &[u8], out: &mut [u8]) -> Filled {
    let filled = fill_costs(head, laws, out);
    if filled.refusal == 19 {
        out.copy_from_slice(&all_values(head, laws)[..out.len()]);
    }
    filled
}

/// All records before the first value that is too great.
fn filled_up_to_above(head: &[u8], laws: &[u8], out: &mut [u8]) -> Filled {
    let filled = fill_costs(head, laws, out);
    if filled.refusal == 18 {
        let before = (as_read(head, laws).place as usize - 1) * RECORD_BYTES;
        let room = before.min(out.len());
        out[..room].copy_from_slice(&all_values(head, laws)[..room]);
    }
    filled
}

fn zeros_behind(head: &[u8], laws: &[u8], out: &mut [u8]) -> Filled {
    let filled = fill_costs(head, laws, out);
    if filled.refusal == 0 {
        out[filled.count as usize..].fill(0);
    }
    filled
}

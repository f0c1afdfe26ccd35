//! Programs that refuse in a wrong order, or with a wrong place or number.

use super::{Mistake, in_count, in_place, in_refusal};
use crate::mistakes::dispatch::readers::former;
use reference::answer::{Filled, Refusal};
use reference::cases;
use reference::costs::{self, MOST_TASKS, RECORD_BYTES};
use reference::laws::{self, LAW_BYTES, Law, fill_costs};
use reference::round::laws::full_bytes;

pub const MISTAKES: [Mistake; 18] = [
    // "it refuses, after 1 to 6 on the first part (there 4 asks for 1 + k records)"
    in_refusal("17 before 1 to 6", (6, 17), laws_first),
    in_refusal("4 before 3", (3, 4), count_first),
    in_refusal("4 asks for the full set", (0, 4), full_set_due),
    in_refusal("more records than 1 + k", (4, 0), longer_head),
    in_refusal("a limit is refused with 5", (0, 5), limit_with_5),
    in_refusal("2 for a D other than 0", (0, 2), |head, laws, out| {
        former(head).map_or_else(|| fill_costs(head, laws, out), Into::into)
    }),
    in_place("the place of 5 and 6 is counted from 0", place_from_0),
    // "a wrong length, field or form with 17, a value above 1,000,000 with 18, a short output with 19, in that order"
    in_refusal("17 and 18 law by law", (17, 18), law_by_law),
    in_refusal("18 before 17", (17, 18), values_before_laws),
    in_refusal("19 before 18", (18, 19), room_before_values),
    in_refusal("19 before 17", (17, 19), room_before_laws),
    in_refusal("19 before 1 to 6", (6, 19), room_first),
    in_place("17 has the law's place", place_of_law),
    in_place("18 has the record's place", place_of_value),
    in_refusal("6 in place of 18", (18, 6), value_with_6),
    in_count("19 has the bytes that are due", count_with_19),
    in_refusal("19 unless just enough is lent", (0, 19), just_enough),
    in_refusal("19 counts records", (19, 0), room_in_records),
];

/// The service with another refusal where it is due, by the right answer, in place of that answer.
fn refusing(
    instead: impl Fn(Filled) -> Option<Refusal>,
    head: &[u8],
    laws: &[u8],
    out: &mut [u8],
) -> Filled {
    let mut copy = out.to_vec();
    let right = fill_costs(head, laws, &mut copy);
    match instead(right) {
        Some(refusal) => refusal.into(),
        None => {
            out.copy_from_slice(&copy);
            right
        }
    }
}

fn refusal_if(is_due: bool, number: u32) -> Option<Refusal> {
    is_due.then_some(Refusal::new(number))
}

/// Laws that are right for no k are refused before the first part is looked at.
fn laws_first(head: &[u8], laws: &[u8], out: &mut [u8]) -> Filled {
    let are_right = |tasks| laws::read(&some_head(tasks), laws).is_ok();
    let is_due = !(1..=MOST_TASKS).any(are_right);
    refusing(|_| refusal_if(is_due, 17), head, laws, out)
}

/// An accepted first part of so many tasks.
fn some_head(tasks: usize) -> Vec<u8> {
    let mut head = costs::write(&cases::constant(tasks, 1, 0));
    head.truncate((1 + tasks) * RECORD_BYTES);
    head
}

fn count_first(head: &[u8], laws: &[u8], out: &mut [u8]) -> Filled {
    let instead = |right: Filled| {
        let records = head.len() / RECORD_BYTES;
        let is_due = right.refusal == 3 && records != 1 + usize::from(head[3]);
        refusal_if(is_due, 4)
    };
    refusing(instead, head, laws, out)
}

/// The full set is taken, by its first 1 + k records, and 1 + k records alone are not.
fn full_set_due(head: &[u8], laws: &[u8], out: &mut [u8]) -> Filled {
    let read = costs::read_head(head);
    if read.is_err_and(|refusal| refusal.number < 4) {
        return fill_costs(head, laws, out);
    }
    if head.len() != full_bytes(head) {
        return Refusal::new(4).into();
    }
    let first_part = (1 + usize::from(head[3])) * RECORD_BYTES;
    fill_costs(&head[..first_part], laws, out)
}

/// Of more records the first 1 + k are taken.
fn longer_head(head: &[u8], laws: &[u8], out: &mut [u8]) -> Filled {
    let right = fill_costs(head, laws, out);
    if right.refusal == 4 {
        let due = (1 + usize::from(head[3])) * RECORD_BYTES;
        return fill_costs(&head[..due.min(head.len())], laws, out);
    }
    right
}

fn limit_with_5(head: &[u8], laws: &[u8], out: &mut [u8]) -> Filled {
    let instead = |right: Filled| {
        let mut tasks = head.chunks_exact(RECORD_BYTES).skip(1);
        let limited = tasks.position(|record| record[3] > 0)?;
        // record 1 is the head
        let is_due = matches!(right.refusal, 0 | 17..);
        is_due.then_some(Refusal::at(5, limited + 2))
    };
    refusing(instead, head, laws, out)
}

fn place_from_0(head: &[u8], laws: &[u8], out: &mut [u8]) -> Filled {
    let right = fill_costs(head, laws, out);
    let place = right.place.saturating_sub(1);
    Filled { place, ..right }
}

/// The first law at fault decides between 17 and 18.
fn law_by_law(head: &[u8], laws: &[u8], out: &mut [u8]) -> Filled {
    let instead = |right: Filled| {
        let first = of_each(head, laws).into_iter().find(|&number| number > 0);
        refusal_if(right.refusal == 17 && first == Some(18), 18)
    };
    refusing(instead, head, laws, out)
}

fn values_before_laws(head: &[u8], laws: &[u8], out: &mut [u8]) -> Filled {
    let instead = |right: Filled| {
        let is_due = right.refusal == 17 && of_each(head, laws).contains(&18);
        refusal_if(is_due, 18)
    };
    refusing(instead, head, laws, out)
}

/// What refusal each law that is due brings about by itself, all others being constants of 0; 0 for none.
fn of_each(head: &[u8], laws: &[u8]) -> Vec<u32> {
    let tasks = costs::read_head(head).map_or(1, |chain| chain.tasks);
    let due = laws::due_laws(tasks as u8);
    let constant_0 = |&(kind, task): &(u8, u8)| Law::Constant(0).encode(kind, task);
    let by_itself = |i: usize| {
        let mut others: Vec<[u8; LAW_BYTES]> = due.iter().map(constant_0).collect();
        let record = laws.chunks_exact(LAW_BYTES).nth(i);
        others[i].copy_from_slice(record.unwrap_or(&[0; LAW_BYTES]));
        let refused = laws::chain(head, others.as_flattened()).err();
        refused.map_or(0, |refusal| refusal.number)
    };
    (0..due.len()).map(by_itself).collect()
}

fn room_before_values(head: &[u8], laws: &[u8], out: &mut [u8]) -> Filled {
    let is_short = out.len() < full_bytes(head);
    let instead = |right: Filled| refusal_if(right.refusal == 18 && is_short, 19);
    refusing(instead, head, laws, out)
}

fn room_before_laws(head: &[u8], laws: &[u8], out: &mut [u8]) -> Filled {
    let is_short = out.len() < full_bytes(head);
    let instead = |right: Filled| refusal_if(right.refusal >= 17 && is_short, 19);
    refusing(instead, head, laws, out)
}

/// What is due by the first record's k and P, whatever else there is, has no room.
fn room_first(head: &[u8], laws: &[u8], out: &mut [u8]) -> Filled {
    let is_short = out.len() < full_bytes(head);
    refusing(|_| refusal_if(is_short, 19), head, laws, out)
}

/// The first law at fault, counted from 1: also one that is missing, or the one behind all that are due.
fn place_of_law(head: &[u8], laws: &[u8], out: &mut [u8]) -> Filled {
    let right = fill_costs(head, laws, out);
    if right.refusal != 17 {
        return right;
    }
    let of_each = of_each(head, laws);
    let at_fault = of_each.iter().position(|&number| number == 17);
    Refusal::at(17, at_fault.unwrap_or(of_each.len()) + 1).into()
}

/// The bytes that would be filled in, were no value too great; what 32 bits cannot hold is the most that they can.
pub fn all_values(head: &[u8], laws: &[u8]) -> Vec<u8> {
    let value = |law: &Law, s, q| law.value(s, q).min(u32::MAX.into());
    let mut bytes = vec![0; full_bytes(head)];
    laws::fill_costs_by(value, |_| false, head, laws, &mut bytes);
    bytes
}

/// As a reader of the full set refuses it, with 6 and the place of the first value above.
pub fn as_read(head: &[u8], laws: &[u8]) -> Refusal {
    costs::read(&all_values(head, laws)).expect_err("some value is above")
}

fn value_with_6(head: &[u8], laws: &[u8], out: &mut [u8]) -> Filled {
    let instead = |right: Filled| (right.refusal == 18).then(|| as_read(head, laws));
    refusing(instead, head, laws, out)
}

fn place_of_value(head: &[u8], laws: &[u8], out: &mut [u8]) -> Filled {
    let wrong = value_with_6(head, laws, out);
    match wrong.refusal {
        6 if costs::read_head(head).is_ok() => Filled {
            refusal: 18,
            ..wrong
        },
        _ => wrong,
    }
}

fn count_with_19(head: &[u8], laws: &[u8], out: &mut [u8]) -> Filled {
    let right = fill_costs(head, laws, out);
    match right.refusal {
        19 => Filled {
            count: full_bytes(head) as u32,
            ..right
        },
        _ => right,
    }
}

fn just_enough(head: &[u8], laws: &[u8], out: &mut [u8]) -> Filled {
    let more = out.len() > full_bytes(head);
    let instead = |right: Filled| refusal_if(right.refusal == 0 && more, 19);
    refusing(instead, head, laws, out)
}

/// Room for as many bytes as there are records is taken to be enough; what has room is filled in.
fn room_in_records(head: &[u8], laws: &[u8], out: &mut [u8]) -> Filled {
    let right = fill_costs(head, laws, out);
    if right.refusal != 19 || out.len() < full_bytes(head) / RECORD_BYTES {
        return right;
    }
    let bytes = all_values(head, laws);
    out.copy_from_slice(&bytes[..out.len()]);
    Filled {
        refusal: 0,
        place: 0,
        count: bytes.len() as u32,
    }
}

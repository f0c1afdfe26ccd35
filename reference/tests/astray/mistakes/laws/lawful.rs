//! Programs that do not test all of a law record: each mends what it is given and goes on.

use super::{FillCosts, Mistake, in_refusal};
use reference::answer::Filled;
use reference::costs;
use reference::laws::{LAW_BYTES, due_laws, fill_costs};

pub const MISTAKES: [Mistake; 17] = [
    // "in cost-record order: kind, task, form …, a zero, five … coefficients …, unused ones zero"
    not_refused("the kind is not tested", |head, laws, out| {
        mending(|kind, _, record| record[0] = kind, head, laws, out)
    }),
    not_refused("the task is not tested", |head, laws, out| {
        mending(|_, task, record| record[1] = task, head, laws, out)
    }),
    in_refusal("tasks of transfers from 2 on", (0, 17), tasks_from_2),
    not_refused("the zero is not tested", |head, laws, out| {
        mending(|_, _, record| record[3] = 0, head, laws, out)
    }),
    not_refused("kind 4's zero is not tested", any_zero_of_internals),
    not_refused("unused coefficients are not tested", |head, laws, out| {
        mending(|_, _, record| unused(record).fill(0), head, laws, out)
    }),
    not_refused("C3 of a constant is not tested", any_c3_of_constants),
    not_refused("C4 and C5 of three terms are not tested", any_c4_and_c5),
    not_refused("an unused C5 is not tested", any_c5),
    not_refused("only unused ones' lowest bytes are tested", any_upper_bytes),
    not_refused("form 3 is a constant", form_3),
    not_refused("form 3 is a constant for kind 4", form_3_of_internals),
    not_refused("form 3 is five terms for kind 5", form_3_of_externals),
    not_refused("the first law of a kind is tested", first_tested),
    // "a wrong length … with 17"
    not_refused("more laws than are due", more_laws),
    // "external costs take form 0 or 2, the others 0 or 1"
    not_refused("five terms for kinds 3 and 4", five_for_others),
    not_refused("three terms for kind 5", three_for_external),
];

/// Laws that are to be refused with 17 are filled in.
const fn not_refused(what: &'static str, fill_costs: FillCosts) -> Mistake {
    in_refusal(what, (17, 0), fill_costs)
}

/// The records of as many laws as are due, each with its due kind and task; none if the first part is refused or they are too
/// few.
fn due_records<'a>(head: &[u8], laws: &'a mut [u8]) -> Option<Vec<(u8, u8, &'a mut [u8])>> {
    let chain = costs::read_head(head).ok()?;
    let due = due_laws(chain.tasks as u8);
    let records = laws.chunks_exact_mut(LAW_BYTES).zip(&due);
    let found: Vec<_> = records
        .map(|(record, &(kind, task))| (kind, task, record))
        .collect();
    (found.len() == due.len()).then_some(found)
}

/// The service on laws with each record mended, by its due kind and task.
fn mending(mend: fn(u8, u8, &mut [u8]), head: &[u8], laws: &[u8], out: &mut [u8]) -> Filled {
    let mut mended = laws.to_vec();
    for (kind, task, record) in due_records(head, &mut mended).unwrap_or_default() {
        mend(kind, task, record);
    }
    fill_costs(head, &mended, out)
}

/// The bytes of the coefficients that the record's form has no use for.
fn unused(record: &mut [u8]) -> &mut [u8] {
    match record[2] {
        0 => &mut record[8..],
        1 => &mut record[16..],
        _ => &mut [],
    }
}

fn tasks_from_2(head: &[u8], laws: &[u8], out: &mut [u8]) -> Filled {
    let mend = |kind, _, record: &mut [u8]| {
        if kind > 3 {
            record[1] = record[1].wrapping_sub(1);
        }
    };
    mending(mend, head, laws, out)
}

fn any_zero_of_internals(head: &[u8], laws: &[u8], out: &mut [u8]) -> Filled {
    let mend = |kind, _, record: &mut [u8]| {
        if kind == 4 {
            record[3] = 0;
        }
    };
    mending(mend, head, laws, out)
}

fn any_c3_of_constants(head: &[u8], laws: &[u8], out: &mut [u8]) -> Filled {
    let mend = |_, _, record: &mut [u8]| {
        if record[2] == 0 {
            record[12..16].fill(0);
        }
    };
    mending(mend, head, laws, out)
}

fn any_c4_and_c5(head: &[u8], laws: &[u8], out: &mut [u8]) -> Filled {
    let mend = |_, _, record: &mut [u8]| {
        if record[2] == 1 {
            record[16..].fill(0);
        }
    };
    mending(mend, head, laws, out)
}

fn any_c5(head: &[u8], laws: &[u8], out: &mut [u8]) -> Filled {
    let mend = |_, _, record: &mut [u8]| {
        if record[2] < 2 {
            record[20..].fill(0);
        }
    };
    mending(mend, head, laws, out)
}

fn any_upper_bytes(head: &[u8], laws: &[u8], out: &mut [u8]) -> Filled {
    let mend = |_, _, record: &mut [u8]| {
        let coefficients = unused(record).chunks_exact_mut(4);
        coefficients.for_each(|coefficient| coefficient[1..].fill(0));
    };
    mending(mend, head, laws, out)
}

fn form_3(head: &[u8], laws: &[u8], out: &mut [u8]) -> Filled {
    let mend = |_, _, record: &mut [u8]| {
        if record[2] > 2 {
            record[2] = 0;
        }
    };
    mending(mend, head, laws, out)
}

fn form_3_of_internals(head: &[u8], laws: &[u8], out: &mut [u8]) -> Filled {
    let mend = |kind, _, record: &mut [u8]| {
        if kind == 4 && record[2] > 2 {
            record[2] = 0;
        }
    };
    mending(mend, head, laws, out)
}

/// An external cost that is no constant and has not three terms is taken to have five.
fn form_3_of_externals(head: &[u8], laws: &[u8], out: &mut [u8]) -> Filled {
    let mend = |kind, _, record: &mut [u8]| {
        if kind == 5 && record[2] > 2 {
            record[2] = 2;
        }
    };
    mending(mend, head, laws, out)
}

/// Of all other laws nothing is tested: what is no constant has the terms of its kind.
fn first_tested(head: &[u8], laws: &[u8], out: &mut [u8]) -> Filled {
    let mend = |kind, task, record: &mut [u8]| {
        if task > 1 {
            let form = match (kind, record[2]) {
                (_, 0) => 0,
                (5, _) => 2,
                _ => 1,
            };
            record[..4].copy_from_slice(&[kind, task, form, 0]);
            unused(record).fill(0);
        }
    };
    mending(mend, head, laws, out)
}

fn more_laws(head: &[u8], laws: &[u8], out: &mut [u8]) -> Filled {
    let mut kept = laws.to_vec();
    let due = due_records(head, &mut kept).map(|records| records.len() * LAW_BYTES);
    fill_costs(head, &laws[..due.unwrap_or(laws.len())], out)
}

/// The five terms are taken for the first three.
fn five_for_others(head: &[u8], laws: &[u8], out: &mut [u8]) -> Filled {
    let mend = |kind, _, record: &mut [u8]| {
        if kind < 5 && record[2] == 2 {
            record[2] = 1;
            record[16..].fill(0);
        }
    };
    mending(mend, head, laws, out)
}

/// C3 · p is taken for C4 · s.
fn three_for_external(head: &[u8], laws: &[u8], out: &mut [u8]) -> Filled {
    let mend = |kind, _, record: &mut [u8]| {
        if kind == 5 && record[2] == 1 {
            three_as_five(record);
        }
    };
    mending(mend, head, laws, out)
}

/// Three terms as five that say the same of s.
pub fn three_as_five(record: &mut [u8]) {
    record[2] = 2;
    record.copy_within(12..16, 16);
    record[12..16].fill(0);
}

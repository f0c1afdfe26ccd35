//! Costs that a case gives as laws: a first part and law records, and what is changed in them.

use super::costs::{self, cut, set_byte};
use super::words::{matched, number, numbers};
use crate::costs::RECORD_BYTES;
use crate::laws::{LAW_BYTES, Law, Laws};

/// What is lent to be filled in from.
#[derive(Debug)]
pub struct Lawful {
    pub head: Vec<u8>,
    pub laws: Vec<u8>,
}

/// The laws of a chain, by k.
type OfTasks = fn(u8) -> Laws;

/// How such costs are named, the file of which they have the first part, and their laws.
const NAMES: [(&str, &str, OfTasks); 3] = [
    ("every law 0", "every cost 0", constant_0),
    ("rising laws", "rising costs", rising),
    ("small dock by laws", "small dock", constant_0),
];

/// How the laws of each kind are named, by their task.
const LAWS: [(u8, &str); 3] = [
    (3, "execution of task #"),
    (4, "internal of task #"),
    (5, "external of task #"),
];

/// None if the text names no laws.
pub fn parse(text: &str) -> Option<Result<Lawful, String>> {
    let mut parts = text.split(", ");
    let name = parts.next()?;
    let (_, file, laws) = NAMES.into_iter().find(|named| named.0 == name)?;
    Some(made(file, laws, parts))
}

fn made<'a>(
    file: &str,
    laws: OfTasks,
    mut parts: impl Iterator<Item = &'a str>,
) -> Result<Lawful, String> {
    let mut head = costs::named(file, &mut parts)?;
    let tasks = head[3];
    head.truncate((1 + usize::from(tasks)) * RECORD_BYTES);
    let laws = laws(tasks).write();
    let mut lawful = Lawful { head, laws };
    for part in parts {
        change(&mut lawful, part)?;
    }
    Ok(lawful)
}

fn constant_0(tasks: u8) -> Laws {
    let tasks = usize::from(tasks);
    Laws {
        executions: vec![Law::Constant(0); tasks],
        internals: vec![Law::Constant(0); tasks - 1],
        externals: vec![Law::Constant(0); tasks - 1],
    }
}

/// The laws of `rising costs`.
fn rising(tasks: u8) -> Laws {
    let tasks = u32::from(tasks);
    Laws {
        executions: (1..=tasks).map(|t| Law::Three([1_000 * t, 0, 1])).collect(),
        internals: (1..tasks).map(|t| Law::Three([100 * t, 0, 1])).collect(),
        externals: (1..tasks)
            .map(|t| Law::Five([10_000 * t, 0, 0, 100, 1]))
            .collect(),
    }
}

fn change(lawful: &mut Lawful, text: &str) -> Result<(), String> {
    let laws = &mut lawful.laws;
    if let Some((cost, coefficients)) = text.split_once(" by ") {
        return set_law(laws, cost, coefficients);
    }
    if let Some([length]) = matched("laws cut to # bytes", text) {
        return cut(laws, length as usize);
    }
    if let Some([more]) = matched("# bytes more of laws", text) {
        laws.resize(laws.len() + more as usize, 0);
        return Ok(());
    }
    if let Some([at, value]) = matched("byte # of laws = #", text) {
        return set_byte(laws, at as usize, value);
    }
    if let Some((field, law)) = text.split_once(" of law ") {
        return set_field(laws, field, law);
    }
    costs::change(&mut lawful.head, text)
}

/// The law of a task's cost, by its coefficients: one is a constant, three and five have terms.
fn set_law(laws: &mut [u8], cost: &str, coefficients: &str) -> Result<(), String> {
    let coefficients = coefficients
        .split(' ')
        .map(number)
        .collect::<Result<Vec<u32>, _>>()?;
    let law = match coefficients[..] {
        [c1] => Law::Constant(c1),
        [c1, c2, c3] => Law::Three([c1, c2, c3]),
        [c1, c2, c3, c4, c5] => Law::Five([c1, c2, c3, c4, c5]),
        _ => return Err(format!("no law has {} coefficients", coefficients.len())),
    };
    for (kind, form) in LAWS {
        let Some(task) = numbers(form, cost) else {
            continue;
        };
        let mut records = laws.chunks_exact_mut(LAW_BYTES);
        let found = records.find(|record| record[0] == kind && task[0] == u32::from(record[1]));
        let record = found.ok_or_else(|| format!("no law of `{cost}`"))?;
        record.copy_from_slice(&law.encode(kind, record[1]));
        return Ok(());
    }
    Err(format!("`{cost}` has no law"))
}

/// A field of a law record by its place, counted from 1: `kind`, `task`, `form`, `zero`, or `C1` to `C5`.
fn set_field(laws: &mut [u8], field: &str, law: &str) -> Result<(), String> {
    let Some([place, value]) = matched("# = #", law) else {
        return Err(format!("`{law}` is no law and value"));
    };
    let place = place as usize;
    if !(1..=laws.len() / LAW_BYTES).contains(&place) {
        return Err(format!("no law {place}"));
    }
    let record = (place - 1) * LAW_BYTES;
    let fields = ["kind", "task", "form", "zero", "C1", "C2", "C3", "C4", "C5"];
    match fields.iter().position(|&name| name == field) {
        Some(i @ 0..4) => set_byte(laws, record + i, value),
        Some(i) => {
            let at = record + 4 * (i - 3);
            laws[at..at + 4].copy_from_slice(&value.to_le_bytes());
            Ok(())
        }
        None => Err(format!("a law has no `{field}`")),
    }
}

//! The costs of a case: a named file or a made one, and what is changed in it.

use std::fs;

use super::words::{matched, number, numbers, split};
use crate::cases::constant;
use crate::costs::{self, Chain, DISPATCH, MOST_CORES, MOST_TASKS, RECORD_BYTES};

const SMALL_DOCK: &str = concat!(env!("CARGO_MANIFEST_DIR"), "/../examples/small.costs");

/// How records of each kind are named, by their task and then by a and b; without these, all of the task's.
const FORMS: [(u8, &str); 7] = [
    (2, "need of task #"),
    (3, "execution of task #"),
    (3, "execution of task # at #"),
    (4, "internal of task #"),
    (4, "internal of task # at #"),
    (5, "external of task #"),
    (5, "external of task # at # to #"),
];

/// Where the flag and the limit stand in a task's record, and how one task's and every task's are named.
const TASK_BYTES: [(usize, &str, &str); 2] = [
    (2, "flag of task # = #", "every flag = #"),
    (3, "limit of task # = #", "every limit = #"),
];

pub fn parse(text: &str) -> Result<Vec<u8>, String> {
    let mut parts = text.split(", ");
    let mut bytes = named(parts.next().unwrap_or(""), &mut parts)?;
    for part in parts {
        change(&mut bytes, part)?;
    }
    Ok(bytes)
}

/// The file of that name, which takes the size along where it needs one.
pub fn named<'a>(name: &str, parts: &mut impl Iterator<Item = &'a str>) -> Result<Vec<u8>, String> {
    match name {
        "small dock" => fs::read(SMALL_DOCK).map_err(|error| error.to_string()),
        "every cost 0" => Ok(costs::write(&idle(parts)?)),
        "rising costs" => Ok(costs::write(&rising(idle(parts)?))),
        "numbered records" => Ok(numbered(idle(parts)?)),
        _ => Err(format!("no costs are called `{name}`")),
    }
}

/// Every value 0, all tasks replicable, capacity 100.
fn idle<'a>(parts: &mut impl Iterator<Item = &'a str>) -> Result<Chain, String> {
    let mut size = |pattern, most: usize| match matched(pattern, parts.next().unwrap_or("")) {
        Some([n]) if (1..=most).contains(&(n as usize)) => Ok(n as usize),
        _ => Err(format!("no `{pattern}` of 1 to {most}")),
    };
    let (tasks, cores) = (size("k = #", MOST_TASKS)?, size("P = #", MOST_CORES)?);
    Ok(Chain {
        capacity: 100,
        ..constant(tasks, cores, 0)
    })
}

fn rising(idle: Chain) -> Chain {
    let (tasks, cores) = (idle.tasks as u32, idle.cores as u32);
    let at_each = |last: u32, unit: u32| {
        let row = move |task: u32| (1..=cores).map(move |p| unit * task + p);
        (1..=last).flat_map(row).collect()
    };
    let pair = move |task: u32| {
        let row = move |s: u32| (1..=cores).map(move |q| 10_000 * task + 100 * s + q);
        (1..=cores).flat_map(row)
    };
    Chain {
        needs: (1..=tasks).map(|task| 10 * task).collect(),
        flags: odd_flags(&idle),
        executions: at_each(tasks, 1_000),
        internals: at_each(tasks - 1, 100),
        externals: (1..tasks).flat_map(pair).collect(),
        ..idle
    }
}

fn numbered(idle: Chain) -> Vec<u8> {
    let mut bytes = costs::write(&Chain {
        capacity: 1_000_000,
        flags: odd_flags(&idle),
        ..idle
    });
    for place in 1..bytes.len() / RECORD_BYTES {
        set_value(&mut bytes, place, place as u32);
    }
    bytes
}

fn odd_flags(chain: &Chain) -> Vec<bool> {
    (1..=chain.tasks).map(|task| task % 2 == 1).collect()
}

/// The value of the record at a place, counted from 0.
fn set_value(bytes: &mut [u8], place: usize, value: u32) {
    let at = place * RECORD_BYTES + 4;
    bytes[at..at + 4].copy_from_slice(&value.to_le_bytes());
}

pub fn change(bytes: &mut Vec<u8>, text: &str) -> Result<(), String> {
    if let Some([length]) = matched("cut to # bytes", text) {
        return cut(bytes, length as usize);
    }
    if let Some([more]) = matched("# bytes more", text) {
        bytes.resize(bytes.len() + more as usize, 0);
        return Ok(());
    }
    if let Some([at, value]) = matched("byte # = #", text) {
        return set_byte(bytes, at as usize, value);
    }
    if let Some([value]) = matched("D = #", text) {
        return set_byte(bytes, DISPATCH, value);
    }
    for (at, of_task, of_every) in TASK_BYTES {
        if let Some([task, value]) = matched(of_task, text) {
            let is_due = |record: &[u8]| record[0] == 2 && u32::from(record[1]) == task;
            return set_task_bytes(bytes, at, value, &is_due);
        }
        if let Some([value]) = matched(of_every, text) {
            return set_task_bytes(bytes, at, value, &|record| record[0] == 2);
        }
    }
    if let Some((field, record)) = text.split_once(" of record ") {
        return change_record(bytes, field, record);
    }
    change_values(bytes, text)
}

pub fn cut(bytes: &mut Vec<u8>, length: usize) -> Result<(), String> {
    if length > bytes.len() {
        return Err(format!("{} bytes cannot be cut to {length}", bytes.len()));
    }
    bytes.truncate(length);
    Ok(())
}

pub fn set_byte(bytes: &mut [u8], at: usize, value: u32) -> Result<(), String> {
    let value = u8::try_from(value).map_err(|_| format!("{value} is no byte"))?;
    let byte = bytes.get_mut(at).ok_or_else(|| format!("no byte {at}"))?;
    *byte = value;
    Ok(())
}

/// One byte of each record that fits.
fn set_task_bytes(
    bytes: &mut [u8],
    at: usize,
    value: u32,
    fits: &dyn Fn(&[u8]) -> bool,
) -> Result<(), String> {
    for place in places(bytes, fits)? {
        set_byte(bytes, place * RECORD_BYTES + at, value)?;
    }
    Ok(())
}

/// A field of a record by its place, counted from 1.
fn change_record(bytes: &mut [u8], field: &str, record: &str) -> Result<(), String> {
    let Some([place, value]) = matched("# = #", record) else {
        return Err(format!("`{record}` is no record and value"));
    };
    let place = place as usize;
    if !(1..=bytes.len() / RECORD_BYTES).contains(&place) {
        return Err(format!("no record {place}"));
    }
    let fields = ["kind", "task", "a", "b"];
    match fields.iter().position(|&name| name == field) {
        Some(i) => set_byte(bytes, (place - 1) * RECORD_BYTES + i, value),
        None if field == "value" => {
            set_value(bytes, place - 1, value);
            Ok(())
        }
        None => Err(format!("a record has no `{field}`")),
    }
}

/// The value of all records with a key, or the values of the first of them.
pub fn change_values(bytes: &mut [u8], text: &str) -> Result<(), String> {
    let (key, values) = split(text, " = ")?;
    let found = keyed(bytes, key)?;
    let values = values
        .split(' ')
        .map(number)
        .collect::<Result<Vec<u32>, _>>()?;
    if values.len() > found.len() {
        return Err(format!("`{key}` has no {} values", values.len()));
    }
    let each = if values.len() == 1 {
        values.repeat(found.len())
    } else {
        values
    };
    for (place, value) in found.into_iter().zip(each) {
        set_value(bytes, place, value);
    }
    Ok(())
}

/// The records that a key names: of the board, all times, or of a task, with its cores where these are named.
fn keyed(bytes: &[u8], key: &str) -> Result<Vec<usize>, String> {
    if key == "capacity" {
        return places(bytes, &|record| record[0] == 1);
    }
    if key == "every time" {
        return places(bytes, &|record| record[0] >= 3);
    }
    for (kind, form) in FORMS {
        if let Some(due) = numbers(form, key) {
            let is_due = |record: &[u8]| due.iter().zip(&record[1..]).all(|(&d, &r)| d == r.into());
            return places(bytes, &|record| record[0] == kind && is_due(record));
        }
    }
    Err(format!("`{key}` is nothing that can be changed"))
}

/// The places, counted from 0, of the records that fit; there is one at least.
fn places(bytes: &[u8], fits: &dyn Fn(&[u8]) -> bool) -> Result<Vec<usize>, String> {
    let records = bytes.chunks_exact(RECORD_BYTES).enumerate();
    let found: Vec<usize> = records
        .filter(|(_, record)| fits(record))
        .map(|(place, _)| place)
        .collect();
    if found.is_empty() {
        return Err("no such record".to_string());
    }
    Ok(found)
}

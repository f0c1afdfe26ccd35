//! Whether a file is accepted: its first record, then the count and one walk over the records, kind by kind. Nothing is allocated.

use crate::answer::Refusal;
use crate::costs::{MOST_CORES, MOST_TASKS, MOST_VALUE, RECORD_BYTES};

/// By how much the word of a key grows with a, and with b.
const STEP_A: u32 = 1 << 16;
const STEP_B: u32 = 1 << 24;

/// Refusals 1 to 6.
pub fn test(costs: &[u8]) -> Result<(), Refusal> {
    let (tasks, cores) = sizes(costs, count)?;
    let pairs = tasks - 1;
    let executed = tasks + tasks * cores;
    rows(costs, tasks, 3, tasks, cores)?;
    rows(costs, executed, 4, pairs, cores)?;
    squares(costs, executed + pairs * cores, pairs, cores)
}

/// How many records the costs of k tasks on P cores are.
pub fn count(tasks: usize, cores: usize) -> usize {
    1 + tasks + (2 * tasks - 1) * cores + (tasks - 1) * cores * cores
}

/// k and P of records of which so many of the costs' first are due, all of kind 2 among them; or refusals 1 to 4, or 5 or 6 in
/// kind 2.
pub fn sizes(records: &[u8], due_of: fn(usize, usize) -> usize) -> Result<(usize, usize), Refusal> {
    if records.len() < RECORD_BYTES || !records.len().is_multiple_of(RECORD_BYTES) {
        return Err(Refusal::new(1));
    }
    if records[0] != 1 {
        return Err(Refusal::new(2));
    }
    let (tasks, cores) = (usize::from(records[3]), usize::from(records[2]));
    let sized = (1..=MOST_TASKS).contains(&tasks) && (1..=MOST_CORES).contains(&cores);
    if !sized || !(1..=MOST_VALUE).contains(&value_of(records)) {
        return Err(Refusal::new(3));
    }
    if records.len() != due_of(tasks, cores) * RECORD_BYTES {
        return Err(Refusal::new(4));
    }
    task_records(records, tasks)?;
    Ok((tasks, cores))
}

/// Refusals 5 and 6 of the records of kind 2, one for each task. Their a and b, the flag and the limit, are not part of the key.
fn task_records(records: &[u8], tasks: usize) -> Result<(), Refusal> {
    for task in 1..=tasks {
        let record = record_at(records, task);
        if record[0] != 2 || usize::from(record[1]) != task {
            return Err(Refusal::at(5, task + 1));
        }
        let in_range = record[2] <= 1 && usize::from(record[3]) <= MOST_CORES;
        if !in_range || MOST_VALUE < value_of(record) {
            return Err(Refusal::at(6, task + 1));
        }
    }
    Ok(())
}

/// Refusals 5 and 6 of the records of kind 3 or 4 after record `before`: a row for each task, in which a goes from 1 to P.
fn rows(costs: &[u8], before: usize, kind: u8, tasks: usize, cores: usize) -> Result<(), Refusal> {
    let mut done = before;
    for task in 1..=tasks {
        let first = word(kind, task, 1, 0);
        run(costs, done, cores, first, STEP_A)?;
        done += cores;
    }
    Ok(())
}

/// Refusals 5 and 6 of the records of kind 5 after record `before`: a square for each task.
fn squares(costs: &[u8], before: usize, tasks: usize, cores: usize) -> Result<(), Refusal> {
    let mut done = before;
    for task in 1..=tasks {
        square(costs, done, task, cores)?;
        done += cores * cores;
    }
    Ok(())
}

/// Refusals 5 and 6 of the records of kind 5 and one task after record `before`: a line for each a, in which b goes from 1 to P.
fn square(costs: &[u8], before: usize, task: usize, cores: usize) -> Result<(), Refusal> {
    let mut done = before;
    for a in 1..=cores {
        let first = word(5, task, a, 1);
        run(costs, done, cores, first, STEP_B)?;
        done += cores;
    }
    Ok(())
}

/// Refusals 5 and 6 of the P records after record `before`, of which the first has that key, and each next one a step more.
fn run(costs: &[u8], before: usize, cores: usize, first: u32, step: u32) -> Result<(), Refusal> {
    let records = &costs[(before + 1) * RECORD_BYTES..][..cores * RECORD_BYTES];
    for i in 0..cores {
        let record = record_at(records, i);
        let place = before + i + 2;
        if key_of(record) != first + i as u32 * step {
            return Err(Refusal::at(5, place));
        }
        if MOST_VALUE < value_of(record) {
            return Err(Refusal::at(6, place));
        }
    }
    Ok(())
}

/// Record n, counted from 0.
fn record_at(records: &[u8], n: usize) -> &[u8] {
    &records[n * RECORD_BYTES..][..RECORD_BYTES]
}

/// The four bytes of a key as one number.
fn word(kind: u8, task: usize, a: usize, b: usize) -> u32 {
    u32::from_le_bytes([kind, task as u8, a as u8, b as u8])
}

fn key_of(record: &[u8]) -> u32 {
    u32::from_le_bytes([record[0], record[1], record[2], record[3]])
}

fn value_of(record: &[u8]) -> u32 {
    u32::from_le_bytes([record[4], record[5], record[6], record[7]])
}

#[cfg(test)]
mod tests {
    use super::*;
    use crate::cases::{self, KINDS};
    use crate::costs::{self, Chain};
    use crate::damage::{self, DAMAGES};

    #[test]
    fn refuses_as_the_reader() {
        for seed in 0..300 * KINDS.len() as u64 {
            let accepted = cases::small(seed).costs;
            assert_eq!(test(&accepted), Ok(()), "seed {seed}");
            for damage in DAMAGES {
                let (costs, _) = damage::small(seed, damage);
                let due = costs::read(&costs).map(|_| ());
                assert_eq!(test(&costs), due, "seed {seed}, {damage:?}");
            }
        }
    }

    /// Boards of one task, one core and several of both: whichever byte of the file, or of its first part, is another one.
    #[test]
    fn refuses_each_changed_byte_as_the_reader() {
        for (tasks, cores) in [(1, 1), (1, 4), (4, 1), (2, 2), (3, 4), (5, 3)] {
            let mut costs = costs::write(&cases::constant(tasks, cores, MOST_VALUE));
            for i in 0..costs.len() {
                for flip in 1..=255 {
                    costs[i] ^= flip;
                    assert_as_the_reader(&costs, tasks);
                    costs[i] ^= flip;
                }
            }
        }
    }

    fn assert_as_the_reader(costs: &[u8], tasks: usize) {
        let board = |chain: Chain| (chain.tasks, chain.cores);
        let due = costs::read(costs).map(|_| ());
        assert_eq!(test(costs), due, "{costs:?}");
        let head = &costs[..(1 + tasks) * RECORD_BYTES];
        let due = costs::read_head(head).map(board);
        assert_eq!(sizes(head, |tasks, _| 1 + tasks), due, "{head:?}");
    }

    #[test]
    fn accepts_boards_of_all_sizes() {
        for tasks in 1..=MOST_TASKS {
            for cores in 1..=MOST_CORES {
                let costs = costs::write(&cases::constant(tasks, cores, MOST_VALUE));
                assert_eq!(test(&costs), Ok(()), "{tasks} tasks, {cores} cores");
            }
        }
    }
}

//! Costs filled in from laws (document 02, M-101) in the lent bytes: the static library's way, loop for loop, in plain Rust. It
//! is for the benchmark; what is to be filled in, `laws` says.

use crate::answer::{Filled, Refusal};
use crate::costs::{Key, MOST_VALUE, RECORD_BYTES};
use crate::laws::{LAW_BYTES, Law, coefficients};
use crate::threshold::records;

/// Answers and leaves the output as `laws::fill_costs` does. Nothing is allocated.
pub fn fill_costs(head: &[u8], laws: &[u8], out: &mut [u8]) -> Filled {
    filled(head, laws, out).unwrap_or_else(Filled::from)
}

/// All laws are tested, then all their values, which are evaluated once more to be written.
fn filled(head: &[u8], laws: &[u8], out: &mut [u8]) -> Result<Filled, Refusal> {
    let (tasks, cores) = records::sizes(head, |tasks, _| 1 + tasks)?;
    if !laws_meet(laws, tasks) {
        return Err(Refusal::new(17));
    }
    let costs = laws.chunks_exact(LAW_BYTES).map(Cost::of);
    if !costs.clone().all(|cost| cost.within(cores)) {
        return Err(Refusal::new(18));
    }
    let bytes = records::count(tasks, cores) * RECORD_BYTES;
    if out.len() < bytes {
        return Err(Refusal::new(19));
    }
    out[..head.len()].copy_from_slice(head);
    let mut at = head.len();
    for cost in costs {
        at += cost.put(cores, &mut out[at..]);
    }
    Ok(Filled::counted(bytes as u32))
}

/// Whether the laws of k tasks are the due ones: their length and every record.
fn laws_meet(laws: &[u8], tasks: usize) -> bool {
    if laws.len() != (3 * tasks - 2) * LAW_BYTES {
        return false;
    }
    let mut records = laws.chunks_exact(LAW_BYTES).enumerate();
    records.all(|(n, record)| law_meets(record, law_key(tasks, n)))
}

/// The kind and task that are due in record n, counted from 0.
fn law_key(tasks: usize, n: usize) -> (u8, usize) {
    if n < tasks {
        return (3, n + 1);
    }
    let pairs = 2 * tasks - 1;
    if n < pairs {
        return (4, n - tasks + 1);
    }
    (5, n - pairs + 1)
}

/// Whether the record has the due kind and task, a form that the kind takes, the zero, and zeros for unused coefficients.
fn law_meets(record: &[u8], (kind, task): (u8, usize)) -> bool {
    let used = match (kind, record[2]) {
        (_, 0) => 1,
        (3 | 4, 1) => 3,
        (5, 2) => 5,
        _ => return false,
    };
    let unused = &record[4 + 4 * used..];
    record[0] == kind
        && usize::from(record[1]) == task
        && record[3] == 0
        && unused.iter().all(|&byte| byte == 0)
}

/// A cost and its law, from a record that is the due one.
struct Cost {
    kind: u8,
    task: u8,
    law: Law,
}

impl Cost {
    fn of(record: &[u8]) -> Cost {
        let [c1, c2, c3, c4, c5] = coefficients(record);
        Cost {
            kind: record[0],
            task: record[1],
            law: match record[2] {
                0 => Law::Constant(c1),
                1 => Law::Three([c1, c2, c3]),
                _ => Law::Five([c1, c2, c3, c4, c5]),
            },
        }
    }

    /// How many records it has on a board of so many cores.
    fn count(&self, cores: usize) -> usize {
        if self.kind == 5 { cores * cores } else { cores }
    }

    /// a and b of its record j, counted from 0.
    fn cell(&self, cores: usize, j: usize) -> (usize, usize) {
        if self.kind == 5 {
            return (j / cores + 1, j % cores + 1);
        }
        (j + 1, 0)
    }

    /// Whether all its values are in range.
    fn within(&self, cores: usize) -> bool {
        (0..self.count(cores)).all(|j| {
            let (a, b) = self.cell(cores, j);
            self.law.value(a, b) <= MOST_VALUE.into()
        })
    }

    /// Writes its records; how many bytes they are.
    fn put(&self, cores: usize, out: &mut [u8]) -> usize {
        let bytes = self.count(cores) * RECORD_BYTES;
        for (j, record) in out[..bytes].chunks_exact_mut(RECORD_BYTES).enumerate() {
            let (a, b) = self.cell(cores, j);
            let value = self.law.value(a, b) as u32;
            let key = Key {
                kind: self.kind,
                task: self.task,
                a: a as u8,
                b: b as u8,
            };
            record.copy_from_slice(&key.record(value));
        }
        bytes
    }
}

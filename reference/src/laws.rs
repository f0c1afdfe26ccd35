//! Document 02, M-101, "Costs from a few measurements": law records with refusal 17, what a law says, and the service that fills
//! in the full set of cost records, with refusals 18 and 19.

use crate::answer::{Filled, Refusal};
use crate::costs::{self, Chain, Key, MOST_VALUE, RECORD_BYTES};

pub const LAW_BYTES: usize = 24;

/// C1 to C5.
pub const COEFFICIENTS: usize = 5;

/// "Each cost follows a law of its own, either constant or with terms": those of source document 000, 5.
#[derive(Clone, Copy, Debug, PartialEq, Eq)]
pub enum Law {
    Constant(u32),
    /// C1 + C2 ÷ p + C3 · p.
    Three([u32; 3]),
    /// C1 + C2 ÷ s + C3 ÷ q + C4 · s + C5 · q for s sending and q receiving cores.
    Five([u32; COEFFICIENTS]),
}

impl Law {
    /// The ticks at s and q cores; where the same p cores have both sides, s and q are p. "Each quotient is rounded up." Below
    /// 2³², no coefficient makes this overflow.
    pub fn value(&self, s: usize, q: usize) -> u64 {
        let (s, q) = (s as u64, q as u64);
        match *self {
            Law::Constant(c1) => c1.into(),
            Law::Three(coefficients) => {
                let [c1, c2, c3] = coefficients.map(u64::from);
                c1 + c2.div_ceil(s) + c3 * s
            }
            Law::Five(coefficients) => {
                let [c1, c2, c3, c4, c5] = coefficients.map(u64::from);
                c1 + c2.div_ceil(s) + c3.div_ceil(q) + c4 * s + c5 * q
            }
        }
    }

    /// The law of a record, if the record is the due one: kind and task, a form that the kind takes, the zero, and zeros for
    /// unused coefficients.
    fn decode(record: &[u8], kind: u8, task: u8) -> Option<Law> {
        let coefficients = coefficients(record);
        let (law, used) = match (kind, record[2]) {
            (_, 0) => (Law::Constant(coefficients[0]), 1),
            (3 | 4, 1) => {
                let [c1, c2, c3, ..] = coefficients;
                (Law::Three([c1, c2, c3]), 3)
            }
            (5, 2) => (Law::Five(coefficients), 5),
            _ => return None,
        };
        let key_is_due = record[0] == kind && record[1] == task && record[3] == 0;
        let unused_are_zero = coefficients[used..].iter().all(|&unused| unused == 0);
        (key_is_due && unused_are_zero).then_some(law)
    }

    /// The record of the law of a task's cost.
    pub fn encode(&self, kind: u8, task: u8) -> [u8; LAW_BYTES] {
        let (form, used) = match self {
            Law::Constant(c1) => (0, std::slice::from_ref(c1)),
            Law::Three(coefficients) => (1, &coefficients[..]),
            Law::Five(coefficients) => (2, &coefficients[..]),
        };
        let mut record = [0; LAW_BYTES];
        record[..4].copy_from_slice(&[kind, task, form, 0]);
        for (bytes, coefficient) in record[4..].chunks_exact_mut(4).zip(used) {
            bytes.copy_from_slice(&coefficient.to_le_bytes());
        }
        record
    }
}

/// The five coefficients of a law record, lowest byte first.
pub fn coefficients(record: &[u8]) -> [u32; COEFFICIENTS] {
    std::array::from_fn(|i| {
        let at = 4 + 4 * i;
        u32::from_le_bytes([record[at], record[at + 1], record[at + 2], record[at + 3]])
    })
}

/// A law for each cost of a chain; tasks count from 1.
#[derive(Clone, Debug, PartialEq, Eq)]
pub struct Laws {
    pub executions: Vec<Law>,
    pub internals: Vec<Law>,
    pub externals: Vec<Law>,
}

impl Laws {
    /// The law of the task's cost of kind 3, 4 or 5.
    pub fn of(&self, kind: u8, task: usize) -> &Law {
        let laws = match kind {
            3 => &self.executions,
            4 => &self.internals,
            _ => &self.externals,
        };
        &laws[task - 1]
    }

    /// What the law says, where refusal 18 is not due.
    pub fn time(&self, kind: u8, task: usize, s: usize, q: usize) -> u32 {
        let value = self.of(kind, task).value(s, q);
        u32::try_from(value).expect("no value is above 1,000,000")
    }

    /// The law records.
    pub fn write(&self) -> Vec<u8> {
        let record = |(kind, task)| self.of(kind, usize::from(task)).encode(kind, task);
        let tasks = self.executions.len() as u8;
        due_laws(tasks).into_iter().flat_map(record).collect()
    }
}

/// Kind and task of each law record, "in cost-record order".
pub fn due_laws(tasks: u8) -> Vec<(u8, u8)> {
    let of_kind = |kind, last| (1..=last).map(move |task| (kind, task));
    of_kind(3, tasks)
        .chain(of_kind(4, tasks - 1))
        .chain(of_kind(5, tasks - 1))
        .collect()
}

/// The chain of the first part and the laws, or refusals 1 to 6 of the first part, then 17: "a wrong length, field or form".
pub fn read(head: &[u8], laws: &[u8]) -> Result<(Chain, Laws), Refusal> {
    let chain = costs::read_head(head)?;
    let due = due_laws(chain.tasks as u8);
    if laws.len() != due.len() * LAW_BYTES {
        return Err(Refusal::new(17));
    }
    let records = laws.chunks_exact(LAW_BYTES).zip(due);
    let decoded: Option<Vec<Law>> = records
        .map(|(record, (kind, task))| Law::decode(record, kind, task))
        .collect();
    let mut executions = decoded.ok_or(Refusal::new(17))?;
    let mut internals = executions.split_off(chain.tasks);
    let externals = internals.split_off(chain.tasks - 1);
    let laws = Laws {
        executions,
        internals,
        externals,
    };
    Ok((chain, laws))
}

/// A cost record behind those of the tasks, with what its law says.
#[derive(Clone, Copy)]
pub struct Entry {
    pub key: Key,
    pub value: u64,
}

/// All cost records behind those of the tasks, in their order, with any way to evaluate a law.
pub fn entries(
    value: impl Fn(&Law, usize, usize) -> u64,
    chain: &Chain,
    laws: &Laws,
) -> Vec<Entry> {
    let entry = |key: Key| {
        let law = laws.of(key.kind, key.task.into());
        // the same p cores on both sides, but for an external transfer
        let (s, q) = (key.a, if key.kind == 5 { key.b } else { key.a });
        let value = value(law, s.into(), q.into());
        Entry { key, value }
    };
    let keys = costs::time_keys(chain.tasks as u8, chain.cores as u8);
    keys.into_iter().map(entry).collect()
}

/// Refusal 18: "a value above 1,000,000".
pub fn is_above(entries: &[Entry]) -> bool {
    let most = u64::from(MOST_VALUE);
    entries.iter().any(|entry| entry.value > most)
}

/// The chain whose times are those of the laws, evaluated whenever one is looked up; no bytes are filled in. Or refusals 1 to
/// 6, 17 and 18.
pub fn chain(head: &[u8], laws: &[u8]) -> Result<Chain, Refusal> {
    let (chain, laws) = read(head, laws)?;
    if is_above(&entries(Law::value, &chain, &laws)) {
        return Err(Refusal::new(18));
    }
    let laws = Some(laws);
    Ok(Chain { laws, ..chain })
}

/// Fills in the full set of cost records: the first part as lent, then what the laws say. A refusal leaves the output as it is.
pub fn fill_costs(head: &[u8], laws: &[u8], out: &mut [u8]) -> Filled {
    fill_costs_by(Law::value, is_above, head, laws, out)
}

/// The service with any values, and any test of them.
pub fn fill_costs_by(
    value: impl Fn(&Law, usize, usize) -> u64,
    above: impl Fn(&[Entry]) -> bool,
    head: &[u8],
    laws: &[u8],
    out: &mut [u8],
) -> Filled {
    match full_set(value, above, head, laws, out.len()) {
        Err(refusal) => refusal.into(),
        Ok(bytes) => {
            out[..bytes.len()].copy_from_slice(&bytes);
            Filled::counted(bytes.len() as u32)
        }
    }
}

/// The bytes that are filled in where there is room for so many.
fn full_set(
    value: impl Fn(&Law, usize, usize) -> u64,
    above: impl Fn(&[Entry]) -> bool,
    head: &[u8],
    laws: &[u8],
    room: usize,
) -> Result<Vec<u8>, Refusal> {
    let (chain, laws) = read(head, laws)?;
    let entries = entries(value, &chain, &laws);
    if above(&entries) {
        return Err(Refusal::new(18));
    }
    if room < head.len() + entries.len() * RECORD_BYTES {
        return Err(Refusal::new(19));
    }
    let record = |entry: &Entry| entry.key.record(entry.value as u32);
    let times = entries.iter().flat_map(record);
    Ok(head.iter().copied().chain(times).collect())
}

#[cfg(test)]
mod tests {
    use super::*;

    /// Rounded up: n is the least whole number of which p times as much is at least C2.
    #[test]
    fn a_quotient_is_the_least_that_is_enough() {
        for c2 in (0..200).chain([u32::MAX - 1, u32::MAX]) {
            for p in 1..=32 {
                let n = Law::Three([0, c2, 0]).value(p, p);
                let product = n * p as u64;
                assert!(product >= c2.into() && product < u64::from(c2) + p as u64);
            }
        }
    }

    /// Nothing overflows: all coefficients 2³² − 1 at 32 cores.
    #[test]
    fn the_greatest_values() {
        let most = u64::from(u32::MAX);
        let quotient = 1 << 27;
        let three = Law::Three([u32::MAX; 3]).value(32, 32);
        assert_eq!(three, 33 * most + quotient);
        let five = Law::Five([u32::MAX; 5]).value(32, 32);
        assert_eq!(five, 65 * most + 2 * quotient);
    }
}

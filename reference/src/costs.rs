//! Document 01, "Cost records", with the core limits of document 02, M-100, and the cost of handing out to copies, M-106: the
//! reader with refusals 1 to 6, the writer, and the costs of an accepted file.

use crate::answer::Refusal;
use crate::laws::Laws;

pub const MOST_TASKS: usize = 12;
pub const MOST_CORES: usize = 32;
/// The greatest capacity, memory need, execution or transfer.
pub const MOST_VALUE: u32 = 1_000_000;
pub const RECORD_BYTES: usize = 8;
/// The byte of a file that holds D (document 02, M-106): the task of the first record.
pub const DISPATCH: usize = 1;
/// The bytes of an accepted file of the most tasks and cores.
pub const LARGEST: usize = 96_104;

/// The costs of an accepted file, or of an accepted first part with laws. Each list holds the values of one kind in the order
/// of its records; where there are laws, the times are theirs, and the last three lists are empty.
#[derive(Clone, Debug, PartialEq, Eq)]
pub struct Chain {
    pub tasks: usize,
    pub cores: usize,
    pub capacity: u32,
    /// M-106's D: the ticks that it takes to pick a copy, where there are several.
    pub dispatch: u8,
    pub needs: Vec<u32>,
    pub flags: Vec<bool>,
    /// The most cores that a copy may have, where a task has such a limit.
    pub limits: Vec<Option<usize>>,
    pub executions: Vec<u32>,
    pub internals: Vec<u32>,
    pub externals: Vec<u32>,
    pub laws: Option<Laws>,
}

/// Tasks and cores count from 1.
impl Chain {
    /// The executions, the internal and the external transfers, where there are no laws.
    pub fn times_mut(&mut self) -> [&mut Vec<u32>; 3] {
        let (executions, internals) = (&mut self.executions, &mut self.internals);
        [executions, internals, &mut self.externals]
    }

    pub fn need(&self, task: usize) -> u32 {
        self.needs[task - 1]
    }

    pub fn replicable(&self, task: usize) -> bool {
        self.flags[task - 1]
    }

    /// The most cores that one copy of the task may have; none without a limit.
    pub fn limit(&self, task: usize) -> Option<usize> {
        self.limits[task - 1]
    }

    pub fn execution(&self, task: usize, p: usize) -> u32 {
        match &self.laws {
            None => self.executions[(task - 1) * self.cores + p - 1],
            Some(laws) => laws.time(3, task, p, p),
        }
    }

    /// From the task to the next one, both on the same p cores.
    pub fn internal(&self, task: usize, p: usize) -> u32 {
        match &self.laws {
            None => self.internals[(task - 1) * self.cores + p - 1],
            Some(laws) => laws.time(4, task, p, p),
        }
    }

    /// From the task on s cores to the next one on q others.
    pub fn external(&self, task: usize, s: usize, q: usize) -> u32 {
        match &self.laws {
            None => self.externals[((task - 1) * self.cores + s - 1) * self.cores + q - 1],
            Some(laws) => laws.time(5, task, s, q),
        }
    }
}

#[derive(Clone, Copy, Debug, PartialEq, Eq)]
struct Record {
    kind: u8,
    task: u8,
    a: u8,
    b: u8,
    value: u32,
}

impl Record {
    fn decode(bytes: &[u8]) -> Record {
        Record {
            kind: bytes[0],
            task: bytes[1],
            a: bytes[2],
            b: bytes[3],
            value: u32::from_le_bytes([bytes[4], bytes[5], bytes[6], bytes[7]]),
        }
    }

    fn has_key(&self, due: Key) -> bool {
        let a_and_b_are_due = due.kind == 2 || (self.a == due.a && self.b == due.b);
        self.kind == due.kind && self.task == due.task && a_and_b_are_due
    }

    fn in_range(&self) -> bool {
        let flag_and_limit_in_range =
            self.kind != 2 || (self.a <= 1 && usize::from(self.b) <= MOST_CORES);
        flag_and_limit_in_range && self.value <= MOST_VALUE
    }

    /// The limit that b of a kind 2 record holds; 0 is none.
    fn limit(&self) -> Option<usize> {
        (self.b > 0).then_some(self.b.into())
    }
}

/// What a record has before its value. The a and b of kind 2 are a flag and a limit, and not part of the key.
#[derive(Clone, Copy)]
pub struct Key {
    pub kind: u8,
    pub task: u8,
    pub a: u8,
    pub b: u8,
}

impl Key {
    /// The record that has this key and a value.
    pub fn record(self, value: u32) -> [u8; RECORD_BYTES] {
        let [low, second, third, high] = value.to_le_bytes();
        [
            self.kind, self.task, self.a, self.b, low, second, third, high,
        ]
    }
}

/// The keys of the records of the tasks.
fn task_keys(tasks: u8) -> Vec<Key> {
    let due = |task| Key {
        kind: 2,
        task,
        a: 0,
        b: 0,
    };
    (1..=tasks).map(due).collect()
}

/// The keys of all records behind those of the tasks, in their order.
pub fn time_keys(tasks: u8, cores: u8) -> Vec<Key> {
    let mut keys = Vec::new();
    let mut due = |kind, task, a, b| keys.push(Key { kind, task, a, b });
    for task in 1..=tasks {
        (1..=cores).for_each(|p| due(3, task, p, 0));
    }
    for task in 1..tasks {
        (1..=cores).for_each(|p| due(4, task, p, 0));
    }
    for task in 1..tasks {
        for s in 1..=cores {
            (1..=cores).for_each(|q| due(5, task, s, q));
        }
    }
    keys
}

/// The costs that the bytes state, or the refusal that is due first.
pub fn read(bytes: &[u8]) -> Result<Chain, Refusal> {
    read_by(bytes, |tasks, cores| {
        [task_keys(tasks), time_keys(tasks, cores)].concat()
    })
}

/// The same of a first part, the records of kinds 1 and 2 (document 02, M-101: "there 4 asks for 1 + k records"). It has no
/// times.
pub fn read_head(bytes: &[u8]) -> Result<Chain, Refusal> {
    read_by(bytes, |tasks, _| task_keys(tasks))
}

/// The reader of a file in which records with these keys, by k and P, are due behind the first one.
fn read_by(bytes: &[u8], due_keys: impl Fn(u8, u8) -> Vec<Key>) -> Result<Chain, Refusal> {
    if bytes.len() < RECORD_BYTES || !bytes.len().is_multiple_of(RECORD_BYTES) {
        return Err(Refusal::new(1));
    }
    let head = Record::decode(&bytes[..RECORD_BYTES]);
    // M-106: the task byte is D, whatever it is
    if head.kind != 1 {
        return Err(Refusal::new(2));
    }
    let (tasks, cores) = (usize::from(head.b), usize::from(head.a));
    let sized = (1..=MOST_TASKS).contains(&tasks) && (1..=MOST_CORES).contains(&cores);
    if !sized || !(1..=MOST_VALUE).contains(&head.value) {
        return Err(Refusal::new(3));
    }
    let keys = due_keys(head.b, head.a);
    if bytes.len() != (1 + keys.len()) * RECORD_BYTES {
        return Err(Refusal::new(4));
    }
    let records: Vec<Record> = bytes
        .chunks_exact(RECORD_BYTES)
        .skip(1)
        .map(Record::decode)
        .collect();
    for (i, (record, &key)) in records.iter().zip(&keys).enumerate() {
        // record 1 is the head
        let place = i + 2;
        if !record.has_key(key) {
            return Err(Refusal::at(5, place));
        }
        if !record.in_range() {
            return Err(Refusal::at(6, place));
        }
    }
    Ok(chain_of(head, &records))
}

fn chain_of(head: Record, records: &[Record]) -> Chain {
    let of_kind = |kind| records.iter().filter(move |record| record.kind == kind);
    let values = |kind| of_kind(kind).map(|record| record.value).collect();
    Chain {
        tasks: head.b.into(),
        cores: head.a.into(),
        capacity: head.value,
        dispatch: head.task,
        needs: values(2),
        flags: of_kind(2).map(|record| record.a == 1).collect(),
        limits: of_kind(2).map(Record::limit).collect(),
        executions: values(3),
        internals: values(4),
        externals: values(5),
        laws: None,
    }
}

/// The file of a chain, as `read` accepts it if all its numbers are in range.
pub fn write(chain: &Chain) -> Vec<u8> {
    let byte = |number: usize| u8::try_from(number).expect("tasks, cores and limits are bytes");
    let mut bytes = Vec::new();
    let mut record = |kind, task, a, b, value: u32| {
        let (task, a, b) = (byte(task), byte(a), byte(b));
        bytes.extend(Key { kind, task, a, b }.record(value));
    };
    let dispatch = chain.dispatch.into();
    record(1, dispatch, chain.cores, chain.tasks, chain.capacity);
    for task in 1..=chain.tasks {
        let flag = usize::from(chain.replicable(task));
        let limit = chain.limit(task).unwrap_or(0);
        record(2, task, flag, limit, chain.need(task));
    }
    for task in 1..=chain.tasks {
        (1..=chain.cores).for_each(|p| record(3, task, p, 0, chain.execution(task, p)));
    }
    for task in 1..chain.tasks {
        (1..=chain.cores).for_each(|p| record(4, task, p, 0, chain.internal(task, p)));
    }
    for task in 1..chain.tasks {
        for s in 1..=chain.cores {
            (1..=chain.cores).for_each(|q| record(5, task, s, q, chain.external(task, s, q)));
        }
    }
    bytes
}

//! Costs looked up in the bytes of an accepted file, and the sums over a module's tasks, added up anew at each call.

use crate::costs::{DISPATCH, RECORD_BYTES};
use crate::plan::Module;

#[derive(Clone, Copy)]
pub struct Lookup<'a> {
    bytes: &'a [u8],
    pub tasks: usize,
    pub cores: usize,
    pub capacity: u64,
    /// D of document 02, M-106.
    pub dispatch: u64,
}

/// Tasks and cores count from 1; 0 cores stand for no module.
impl<'a> Lookup<'a> {
    pub fn new(bytes: &'a [u8]) -> Lookup<'a> {
        let mut costs = Lookup {
            bytes,
            tasks: bytes[3].into(),
            cores: bytes[2].into(),
            capacity: 0,
            dispatch: bytes[DISPATCH].into(),
        };
        costs.capacity = costs.value(0);
        costs
    }

    /// The value of a record, counted from 0.
    fn value(&self, record: usize) -> u64 {
        let at = record * RECORD_BYTES;
        let bytes = &self.bytes[at + 4..at + 8];
        u32::from_le_bytes([bytes[0], bytes[1], bytes[2], bytes[3]]).into()
    }

    pub fn replicable(&self, task: usize) -> bool {
        self.bytes[task * RECORD_BYTES + 2] == 1
    }

    /// Whether a copy of p cores is within the task's limit; 0 is no limit.
    pub fn within_limit(&self, task: usize, p: usize) -> bool {
        let limit = usize::from(self.bytes[task * RECORD_BYTES + 3]);
        limit == 0 || p <= limit
    }

    pub fn execution(&self, task: usize, p: usize) -> u64 {
        self.value(1 + self.tasks + (task - 1) * self.cores + p - 1)
    }

    /// The internal transfer after the task; 0 behind the last one.
    pub fn internal(&self, task: usize, p: usize) -> u64 {
        if task == self.tasks {
            return 0;
        }
        let start = 1 + self.tasks + self.tasks * self.cores;
        self.value(start + (task - 1) * self.cores + p - 1)
    }

    /// The external transfer after the task; 0 where the sender or the receiver is no module.
    pub fn transfer(&self, task: usize, s: usize, q: usize) -> u64 {
        if s == 0 || q == 0 {
            return 0;
        }
        let start = 1 + self.tasks + (2 * self.tasks - 1) * self.cores;
        self.value(start + ((task - 1) * self.cores + s - 1) * self.cores + q - 1)
    }

    pub fn body(&self, first: usize, last: usize, p: usize) -> u64 {
        let mut sum = 0;
        for task in first..last {
            sum += self.execution(task, p);
            sum += self.internal(task, p);
        }
        sum + self.execution(last, p)
    }

    /// What it takes to hand out to r copies: D if there are several.
    pub fn dispatch_to(&self, r: usize) -> u64 {
        if r > 1 { self.dispatch } else { 0 }
    }

    /// What the module adds to a single-block time before one of q cores, 0 for none: its body, what it sends, and what it takes to
    /// hand out to its copies.
    fn passage(&self, module: Module, q: usize) -> u64 {
        let body = self.body(module.first, module.last, module.cores);
        let sent = self.transfer(module.last, module.cores, q);
        body + sent + self.dispatch_to(module.copies)
    }

    /// The response of the module between one of s cores and one of q, 0 for none.
    pub fn response(&self, s: usize, module: Module, q: usize) -> u64 {
        self.transfer(module.first - 1, s, module.cores) + self.passage(module, q)
    }

    /// What each of p cores holds of the task (document 02, M-103): its need ÷ p, rounded up.
    pub fn share(&self, task: usize, p: usize) -> u64 {
        self.value(task).div_ceil(p as u64)
    }

    pub fn memory_fits(&self, first: usize, last: usize, p: usize) -> bool {
        let mut sum = 0;
        for task in first..=last {
            sum += self.share(task, p);
        }
        sum <= self.capacity
    }

    /// Whether the module may have several copies.
    pub fn copies_allowed(&self, first: usize, last: usize) -> bool {
        let mut marks = 0;
        for task in first..=last {
            marks += u32::from(!self.replicable(task));
        }
        marks == 0
    }

    /// Whether one copy of p cores keeps the rules.
    pub fn rules_met(&self, first: usize, last: usize, p: usize) -> bool {
        if !self.memory_fits(first, last, p) {
            return false;
        }
        for task in first..=last {
            if !self.within_limit(task, p) {
                return false;
            }
        }
        true
    }
}

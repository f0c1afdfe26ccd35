//! Costs with a plan for a timetable (document 02, M-105), from seeds, in kinds that each press on one part of the machine. No
//! module has copies, so that a D (M-106) counts for nothing, and all plans keep the rules.

use super::{constant, some_dispatch};
use crate::costs::{self, Chain, MOST_CORES, MOST_TASKS, MOST_VALUE};
use crate::plan::{self, Module, PLAN_BYTES};
use crate::random::Random;

#[derive(Clone, Copy, Debug, PartialEq, Eq)]
pub enum StreamKind {
    /// Executions and transfers alike, of few ticks or many.
    Even,
    /// Five times in six nothing takes any time.
    Zeros,
    /// Transfers take longer than executions.
    Transfers,
    /// No transfer between modules takes any time.
    Instant,
    /// The first module executes longer than all others together, or as long as a task can take.
    SlowFirst,
    /// The same of one between the first and the last, where there is one.
    SlowMiddle,
    /// The same of the last.
    SlowLast,
    /// A transfer takes as long as that.
    SlowTransfer,
    /// Times are the greatest, or a little less.
    Greatest,
}

pub const STREAM_KINDS: [StreamKind; 9] = [
    StreamKind::Even,
    StreamKind::Zeros,
    StreamKind::Transfers,
    StreamKind::Instant,
    StreamKind::SlowFirst,
    StreamKind::SlowMiddle,
    StreamKind::SlowLast,
    StreamKind::SlowTransfer,
    StreamKind::Greatest,
];

/// A file and a plan, with what they were made from.
pub struct StreamCase {
    pub seed: u64,
    pub kind: StreamKind,
    pub costs: Vec<u8>,
    pub modules: Vec<Module>,
}

impl StreamCase {
    /// The chain of its costs.
    pub fn chain(&self) -> Chain {
        costs::read(&self.costs).expect("an accepted file")
    }

    /// The bytes of its plan.
    pub fn plan(&self) -> [u8; PLAN_BYTES] {
        plan::encode(&self.modules)
    }
}

/// A few tasks, now and then the most; the seed fixes them, and each nine seeds in turn cover all kinds.
pub fn small(seed: u64) -> StreamCase {
    let mut random = Random::new(seed);
    let kind = STREAM_KINDS[(seed % STREAM_KINDS.len() as u64) as usize];
    let tasks = if random.once_in(12) {
        MOST_TASKS
    } else {
        random.within(1, 6)
    };
    let modules = some_modules(tasks, random.pick(&[1, 2, 4]), &mut random);
    let cores = plan::cores(&modules) + random.pick(&[0, 0, 1]);
    made(kind, tasks, cores, modules, seed, random)
}

/// The most tasks, each in a module of its own, on the most cores; the seed fixes the rest.
pub fn largest(kind: StreamKind, seed: u64) -> StreamCase {
    let mut random = Random::new(seed);
    let single = |task| Module {
        first: task,
        last: task,
        copies: 1,
        cores: random.within(1, MOST_CORES / MOST_TASKS),
    };
    let modules = (1..=MOST_TASKS).map(single).collect();
    made(kind, MOST_TASKS, MOST_CORES, modules, seed, random)
}

/// Modules of so many tasks at most, each on one core or two.
fn some_modules(tasks: usize, longest: usize, random: &mut Random) -> Vec<Module> {
    let mut modules = Vec::new();
    let mut covered = 0;
    while covered < tasks {
        let first = covered + 1;
        covered = random.within(first, tasks.min(covered + longest));
        modules.push(Module {
            first,
            last: covered,
            copies: 1,
            cores: random.pick(&[1, 1, 2]),
        });
    }
    modules
}

fn made(
    kind: StreamKind,
    tasks: usize,
    cores: usize,
    modules: Vec<Module>,
    seed: u64,
    mut random: Random,
) -> StreamCase {
    let mut chain = constant(tasks, cores, 0);
    set_times(&mut chain, kind, &mut random);
    set_slow(&mut chain, kind, &modules, &mut random);
    chain.dispatch = some_dispatch(&mut random);
    StreamCase {
        seed,
        kind,
        costs: costs::write(&chain),
        modules,
    }
}

/// Any time that is not said to be a slow one is up to so many ticks of a scale.
const FEW: u32 = 3;
const SCALES: [u32; 3] = [1, 7, 40_000];

fn set_times(chain: &mut Chain, kind: StreamKind, random: &mut Random) {
    let scale = random.pick(&SCALES);
    for time in chain.times_mut().into_iter().flatten() {
        *time = match kind {
            StreamKind::Greatest => MOST_VALUE - random.value(2),
            StreamKind::Zeros if !random.once_in(6) => 0,
            _ => scale * random.value(FEW),
        };
    }
    for time in &mut chain.externals {
        match kind {
            StreamKind::Instant => *time = 0,
            StreamKind::Transfers => *time += 2 * scale * FEW,
            _ => {}
        }
    }
}

/// The slow one takes, at any cores, a few ticks more than all executions together.
fn set_slow(chain: &mut Chain, kind: StreamKind, modules: &[Module], random: &mut Random) {
    let last = modules.len() - 1;
    let slow = match kind {
        StreamKind::SlowFirst => 0,
        StreamKind::SlowMiddle if last > 1 => random.within(1, last - 1),
        StreamKind::SlowLast => last,
        StreamKind::SlowTransfer if last > 0 => random.below(last),
        _ => return,
    };
    let (task, cores) = (modules[slow].last - 1, chain.cores);
    let sum: u32 = modules.iter().map(|module| module.body(chain)).sum();
    let slow_time = (sum + random.within(1, 9) as u32).min(MOST_VALUE);
    if kind == StreamKind::SlowTransfer {
        chain.externals[task * cores * cores..][..cores * cores].fill(slow_time);
    } else {
        chain.executions[task * cores..][..cores].fill(slow_time);
    }
}

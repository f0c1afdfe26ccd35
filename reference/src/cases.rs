//! Cost files from seeds, in kinds that each press on one part of the model.

mod copies;
pub mod laws;
mod memory;
pub mod streams;
mod times;

use crate::costs::{self, Chain, MOST_CORES};
use crate::random::Random;
use crate::{greedy, reach};

#[derive(Clone, Copy, Debug, PartialEq, Eq)]
pub enum Kind {
    /// Any values, any scale.
    Random,
    /// Few different values, so that many plans are equally good.
    Ties,
    /// Mostly or only zeros.
    Zeros,
    /// Times that rise and fall with the cores.
    NotMonotone,
    /// Along one plan of all cores, the shares of each module are exactly or nearly the capacity.
    TightMemory,
    /// More memory needed than there is, often by one KiB; or as much as there is, in shares that mostly do not come out even.
    NoPlan,
    /// Some task is not replicable.
    NotReplicable,
    /// Parallel work and overheads, the laws of source document 000, 5.
    Realistic,
    /// Great times everywhere but along one plan.
    Hidden,
    /// Core limits at 1, at the board's cores, above them and at the most, on some tasks or on one; more cores would help.
    Limits,
    /// Core limits that are what the memory of a few neighbouring tasks asks for, or a little beside it.
    TightLimits,
    /// On all cores of the board, the shares of some neighbouring tasks are just the capacity or a KiB more; others are from
    /// nothing to a KiB more.
    Reaches,
    /// Along one plan, the shares of a module are just the capacity or a KiB more; or a core has few KiB, often fewer than there
    /// are tasks with a need; or needs are the greatest. Times are the same at all counts of cores.
    Shares,
    /// Memory asks for a core for each task, however they are split; one task takes more than all others, or it is the bottleneck
    /// beside two that have copies or cores. In most files several plans have equal bottlenecks and cores, and their single-block
    /// times differ.
    BlockTimes,
    /// To hand out to copies costs about as much as they save: D is near the times, and decides whether there are copies, how many,
    /// or between plans of equal bottlenecks and cores.
    Dispatch,
}

pub const KINDS: [Kind; 15] = [
    Kind::Random,
    Kind::Ties,
    Kind::Zeros,
    Kind::NotMonotone,
    Kind::TightMemory,
    Kind::NoPlan,
    Kind::NotReplicable,
    Kind::Realistic,
    Kind::Hidden,
    Kind::Limits,
    Kind::TightLimits,
    Kind::Reaches,
    Kind::Shares,
    Kind::BlockTimes,
    Kind::Dispatch,
];

/// A file with what it was made from.
pub struct Case {
    pub seed: u64,
    pub kind: Kind,
    pub costs: Vec<u8>,
}

impl Case {
    /// The chain of its costs.
    pub fn chain(&self) -> Chain {
        costs::read(&self.costs).expect("an accepted file")
    }
}

/// A file small enough for trying all plans; the seed fixes it, and each fifteen seeds in turn cover all kinds.
pub fn small(seed: u64) -> Case {
    let mut random = Random::new(seed);
    let kind = KINDS[(seed % KINDS.len() as u64) as usize];
    // fewer tasks can hardly be split in several ways that are equally good, nor fewer cores give several tasks copies
    let (least_tasks, least_cores) = match kind {
        Kind::BlockTimes => (3, 3),
        Kind::Dispatch => (3, 5),
        _ => (1, 1),
    };
    let (tasks, cores) = small_size(least_tasks, least_cores, &mut random);
    let costs = costs::write(&chain(kind, tasks, cores, &mut random));
    Case { seed, kind, costs }
}

/// Small files, so many of each kind.
pub fn small_of_each(of_each_kind: usize) -> impl Iterator<Item = Case> {
    (0..(of_each_kind * KINDS.len()) as u64).map(small)
}

/// A file of the given kind and size; the seed fixes it.
pub fn sized(kind: Kind, tasks: usize, cores: usize, seed: u64) -> Case {
    let mut random = Random::new(seed);
    let costs = costs::write(&chain(kind, tasks, cores, &mut random));
    Case { seed, kind, costs }
}

/// Mostly a few tasks and cores, so many at least; now and then the most tasks or the most cores that trying all plans can bear.
fn small_size(least_tasks: usize, least_cores: usize, random: &mut Random) -> (usize, usize) {
    if random.once_in(100) {
        return random.pick(&[(12, 6), (9, 7), (7, 8), (5, 10), (3, 16), (2, 32), (1, 32)]);
    }
    let tasks = random.within(least_tasks, 5);
    let most_cores = [24, 16, 10, 8, 7][tasks - 1];
    (tasks, random.within(least_cores, most_cores))
}

fn chain(kind: Kind, tasks: usize, cores: usize, random: &mut Random) -> Chain {
    let mut chain = constant(tasks, cores, 0);
    match kind {
        Kind::Realistic | Kind::NotReplicable | Kind::Limits => {
            times::set_realistic(&mut chain, random);
        }
        Kind::Hidden => times::set_hidden(&mut chain, random),
        Kind::Shares => times::set_even(&mut chain, random),
        Kind::BlockTimes => times::set_equal(&mut chain, random),
        Kind::Dispatch => copies::set(&mut chain, random),
        _ => times::set_drawn(&mut chain, kind, random),
    }
    memory::set(&mut chain, kind, random);
    set_flags(&mut chain, kind, random);
    set_limits(&mut chain, kind, random);
    if kind != Kind::Dispatch {
        chain.dispatch = some_dispatch(random);
    }
    chain
}

/// Half of the time 0; else little, much, as much as can be, or any.
fn some_dispatch(random: &mut Random) -> u8 {
    let any = random.byte();
    random.pick(&[0, 0, 0, 0, 1, 10, 255, any])
}

/// Half of the tasks are replicable where cores are to count more than copies; else most of them or all that have not been marked
/// before.
fn set_flags(chain: &mut Chain, kind: Kind, random: &mut Random) {
    if matches!(kind, Kind::NotReplicable | Kind::Limits) {
        for flag in &mut chain.flags {
            *flag = random.once_in(2);
        }
        chain.flags[random.below(chain.tasks)] = false;
    } else if random.once_in(2) {
        for flag in &mut chain.flags {
            *flag &= !random.once_in(8);
        }
    }
}

/// Limits in the kinds that are named for them; of the other files one in eight has some.
fn set_limits(chain: &mut Chain, kind: Kind, random: &mut Random) {
    if kind == Kind::TightLimits {
        set_tight_limits(chain, random);
    } else if kind == Kind::Limits && random.once_in(2) {
        chain.limits[random.below(chain.tasks)] = Some(random.within(1, chain.cores));
    } else if kind == Kind::Limits || random.once_in(8) {
        for limit in &mut chain.limits {
            *limit = some_limit(chain.cores, random);
        }
    }
}

fn some_limit(cores: usize, random: &mut Random) -> Option<usize> {
    let (low, high) = (random.within(1, cores), random.within(cores, MOST_CORES));
    random.pick(&[
        None,
        None,
        Some(1),
        Some(low),
        Some(cores),
        Some(high),
        Some(MOST_CORES),
    ])
}

/// Each few neighbouring tasks, as a module might have them, get a limit on one of them, near the cores that all of them need.
fn set_tight_limits(chain: &mut Chain, random: &mut Random) {
    let mut first = 1;
    while first <= chain.tasks {
        let last = random.within(first, chain.tasks.min(first + 2));
        let fewest = greedy::fewest_cores(chain, reach::of_one_core(first, last));
        let limit = if random.once_in(4) {
            (fewest - 1).max(1)
        } else {
            fewest + random.below(3)
        };
        chain.limits[random.within(first, last) - 1] = Some(limit.min(MOST_CORES));
        first = last + 1;
    }
}

/// Document 01's worked example: 2 tasks, 4 cores.
pub fn worked_example() -> Chain {
    Chain {
        tasks: 2,
        cores: 4,
        capacity: 100,
        dispatch: 0,
        needs: vec![50, 150],
        flags: vec![true, true],
        limits: vec![None, None],
        executions: vec![12, 7, 5, 4, 20, 10, 8, 6],
        internals: vec![1; 4],
        externals: vec![2; 16],
        laws: None,
    }
}

/// A chain whose times are all the same, without memory needs and limits; copies are handed out to at once.
pub fn constant(tasks: usize, cores: usize, time: u32) -> Chain {
    let pairs = tasks - 1;
    Chain {
        tasks,
        cores,
        capacity: 1,
        dispatch: 0,
        needs: vec![0; tasks],
        flags: vec![true; tasks],
        limits: vec![None; tasks],
        executions: vec![time; tasks * cores],
        internals: vec![time; pairs * cores],
        externals: vec![time; pairs * cores * cores],
        laws: None,
    }
}

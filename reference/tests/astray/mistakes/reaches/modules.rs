//! Programs that go by other modules than those that need at most P cores. Those with a wrong test of memory are in `memory`.

use super::{Mistake, in_count};
use reference::answer::Filled;
use reference::costs::Chain;
use reference::greedy::{fewest_cores, fewest_cores_by};
use reference::plan::Module;
use reference::reach::{self, fits_board};
use reference::round::memory::{added_up, fits_nowhere};

pub const MISTAKES: [Mistake; 14] = [
    // "that needs at most P cores"
    in_count("at most P − 1 cores", |costs, first| {
        passing(with_a_core_less, costs, first)
    }),
    in_count("at most P + 1 cores", |costs, first| {
        passing(with_a_core_more, costs, first)
    }),
    in_count("at most 255 cores", |costs, first| {
        passing(with_a_byte, costs, first)
    }),
    in_count("at any count of cores", |costs, first| {
        passing(at_any_count, costs, first)
    }),
    in_count("the memory of one core", |costs, first| {
        passing(on_one_core, costs, first)
    }),
    in_count("at most P KiB", |costs, first| {
        passing(as_many_as_cores, costs, first)
    }),
    in_count("at its fewest cores by needs added up", |costs, first| {
        passing(at_former_cores, costs, first)
    }),
    // "its memory need"
    in_count("shares added up to task k", |costs, first| {
        passing(up_to_task_k, costs, first)
    }),
    in_count("whole cores for each task", |costs, first| {
        passing(cores_for_each, costs, first)
    }),
    in_count("ends before a need of 0", |costs, first| {
        passing(without_zeros, costs, first)
    }),
    in_count("ends where the board is full", |costs, first| {
        passing(until_full, costs, first)
    }),
    in_count("itself if it needs several cores", |costs, first| {
        passing(behind_small_first, costs, first)
    }),
    // by memory alone
    in_count("within its tasks' limits", |costs, first| {
        passing(within_limit, costs, first)
    }),
    in_count("replicable modules only", |costs, first| {
        passing(replicable, costs, first)
    }),
];

/// The service with another test of a module.
fn passing(passes: fn(&Chain, Module) -> bool, costs: &[u8], first: u8) -> Filled {
    let reach_of = |chain: &Chain, first| reach::longest_by(passes, chain, first);
    reach::reach_by(reach_of, costs, first)
}

pub fn with_a_core_less(chain: &Chain, module: Module) -> bool {
    fewest_cores(chain, module) < chain.cores
}

fn fits_at(cores: usize, chain: &Chain, module: Module) -> bool {
    Module { cores, ..module }.memory_fits(chain)
}

fn with_a_core_more(chain: &Chain, module: Module) -> bool {
    fits_at(chain.cores + 1, chain, module)
}

/// The most cores that a plan can say.
fn with_a_byte(chain: &Chain, module: Module) -> bool {
    fits_at(255, chain, module)
}

/// As if only a module that fits at no count at all needed more than P.
fn at_any_count(chain: &Chain, module: Module) -> bool {
    !fits_nowhere(&module, chain)
}

/// The module comes with one core.
pub fn on_one_core(chain: &Chain, module: Module) -> bool {
    module.memory_fits(chain)
}

/// The needs are taken for cores.
fn as_many_as_cores(chain: &Chain, module: Module) -> bool {
    let needs = (module.first..=module.last).map(|task| chain.need(task) as usize);
    needs.sum::<usize>() <= chain.cores
}

/// The cores that it needs by document 01's test are not added to.
fn at_former_cores(chain: &Chain, module: Module) -> bool {
    let cores = fewest_cores_by(added_up, chain, module);
    cores <= chain.cores && fits_at(cores, chain, module)
}

fn up_to_task_k(chain: &Chain, module: Module) -> bool {
    let last = chain.tasks;
    fits_board(chain, Module { last, ..module })
}

/// The fewest cores of the tasks, each as a module of its own, add up to at most P.
fn cores_for_each(chain: &Chain, module: Module) -> bool {
    let cores = |task| fewest_cores(chain, reach::of_one_core(task, task));
    (module.first..=module.last).map(cores).sum::<usize>() <= chain.cores
}

fn without_zeros(chain: &Chain, module: Module) -> bool {
    let mut behind = module.first + 1..=module.last;
    fits_board(chain, module) && behind.all(|task| chain.need(task) > 0)
}

/// Behind a module whose shares of all cores are the capacity, no task is added that needs nothing.
fn until_full(chain: &Chain, module: Module) -> bool {
    let before = Module {
        last: module.last - 1,
        cores: chain.cores,
        ..module
    };
    fits_board(chain, module) && before.shares(chain) < chain.capacity.into()
}

/// A first task that needs more than one core has a module of its own.
fn behind_small_first(chain: &Chain, module: Module) -> bool {
    let is_longer = module.last > module.first;
    let first = reach::of_one_core(module.first, module.first);
    fits_board(chain, module) && !(is_longer && fewest_cores(chain, first) > 1)
}

fn within_limit(chain: &Chain, module: Module) -> bool {
    let cores = fewest_cores(chain, module);
    fits_board(chain, module) && Module { cores, ..module }.within_limit(chain)
}

pub fn replicable(chain: &Chain, module: Module) -> bool {
    fits_board(chain, module) && module.replicable(chain)
}

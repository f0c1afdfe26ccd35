//! Wrong tests of a module's memory. Each module has a core at least.

use reference::costs::Chain;
use reference::plan::Module;
use reference::reach;

/// Whether what this says of each need and the cores adds up to at most the capacity.
fn hold(share: impl Fn(u64, u64) -> u64, module: &Module, chain: &Chain) -> bool {
    let cores = module.cores as u64;
    let tasks = module.first..=module.last;
    let shares = tasks.map(|task| share(chain.need(task).into(), cores));
    shares.sum::<u64>() <= chain.capacity.into()
}

/// Each need gets the p − 1 that round a quotient up, and then the sum is divided.
pub fn divided_once(module: &Module, chain: &Chain) -> bool {
    let more = module.cores as u64 - 1;
    let tasks = module.first..=module.last;
    let needs = tasks.map(|task| u64::from(chain.need(task)) + more);
    needs.sum::<u64>() / module.cores as u64 <= chain.capacity.into()
}

pub fn rounded_down(module: &Module, chain: &Chain) -> bool {
    hold(|need, cores| need / cores, module, chain)
}

/// A half is rounded up.
pub fn nearest(module: &Module, chain: &Chain) -> bool {
    hold(|need, cores| (need + cores / 2) / cores, module, chain)
}

/// Also where nothing is left over.
pub fn always_more(module: &Module, chain: &Chain) -> bool {
    hold(|need, cores| need / cores + 1, module, chain)
}

/// Also where a task needs nothing.
pub fn a_kib_each(module: &Module, chain: &Chain) -> bool {
    hold(|need, cores| need.div_ceil(cores).max(1), module, chain)
}

pub fn last_rounded_up(module: &Module, chain: &Chain) -> bool {
    let cores = module.cores as u32;
    let others = (module.first..module.last).map(|task| chain.need(task) / cores);
    others.sum::<u32>() + chain.need(module.last).div_ceil(cores) <= chain.capacity
}

pub fn first_alone(module: &Module, chain: &Chain) -> bool {
    let last = module.first;
    Module { last, ..*module }.memory_fits(chain)
}

pub fn last_alone(module: &Module, chain: &Chain) -> bool {
    let first = module.last;
    Module { first, ..*module }.memory_fits(chain)
}

pub fn greatest_alone(module: &Module, chain: &Chain) -> bool {
    let cores = module.cores;
    (module.first..=module.last).all(|task| {
        let alone = reach::of_one_core(task, task);
        Module { cores, ..alone }.memory_fits(chain)
    })
}

pub fn without_first(module: &Module, chain: &Chain) -> bool {
    let first = module.first + 1;
    Module { first, ..*module }.memory_fits(chain)
}

pub fn without_last(module: &Module, chain: &Chain) -> bool {
    let last = module.last - 1;
    Module { last, ..*module }.memory_fits(chain)
}

/// The sum goes on from the modules before.
pub fn from_task_1(module: &Module, chain: &Chain) -> bool {
    Module {
        first: 1,
        ..*module
    }
    .memory_fits(chain)
}

/// The shares against the memory of all cores.
pub fn in_all_cores(module: &Module, chain: &Chain) -> bool {
    module.shares(chain) <= module.cores as u64 * u64::from(chain.capacity)
}

pub fn below_capacity(module: &Module, chain: &Chain) -> bool {
    module.shares(chain) < chain.capacity.into()
}

pub fn shares_of_8_bits(module: &Module, chain: &Chain) -> bool {
    hold(|need, cores| need.div_ceil(cores) & 0xff, module, chain)
}

pub fn shares_of_16_bits(module: &Module, chain: &Chain) -> bool {
    hold(|need, cores| need.div_ceil(cores) & 0xffff, module, chain)
}

pub fn sum_of_16_bits(module: &Module, chain: &Chain) -> bool {
    module.shares(chain) & 0xffff <= chain.capacity.into()
}

pub fn needs_of_16_bits(module: &Module, chain: &Chain) -> bool {
    hold(|need, cores| (need & 0xffff).div_ceil(cores), module, chain)
}

pub fn capacity_of_16_bits(module: &Module, chain: &Chain) -> bool {
    module.shares(chain) <= u64::from(chain.capacity & 0xffff)
}

pub fn of_all_copies(module: &Module, chain: &Chain) -> bool {
    let cores = module.copies * module.cores;
    Module { cores, ..*module }.memory_fits(chain)
}

pub fn of_board(module: &Module, chain: &Chain) -> bool {
    let cores = chain.cores;
    Module { cores, ..*module }.memory_fits(chain)
}

/// A module that fits at no count up to P counts as needing P.
pub fn whole_board_holds(module: &Module, chain: &Chain) -> bool {
    let is_all = module.cores == chain.cores;
    module.memory_fits(chain) || (is_all && !reach::fits_board(chain, *module))
}

pub fn ignored(_: &Module, _: &Chain) -> bool {
    true
}

/// More cores than the board has are not counted.
pub fn on_board_at_most(module: &Module, chain: &Chain) -> bool {
    let cores = module.cores.min(chain.cores);
    Module { cores, ..*module }.memory_fits(chain)
}

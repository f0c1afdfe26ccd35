//! Greedy ways that start with other cores than the fewest at which shares fit, or refuse in a wrong way where there are none.

use crate::mistakes::{Mistake, in_greedy_plan};
use reference::answer::{Answer, Refusal};
use reference::costs::Chain;
use reference::greedy::{self, fewest_cores, fewest_cores_by};
use reference::plan::{Module, RULES};
use reference::reach;
use reference::round::memory::added_up;

pub const MISTAKES: [Mistake; 8] = [
    // "each module starts with the fewest cores that its memory allows" (document 01)
    in_greedy_plan(
        "fewest cores by needs added up, else none",
        |costs, grouping, plan| starting(former_or_none, costs, grouping, plan),
    ),
    in_greedy_plan(
        "fewest cores by needs added up, else one more",
        |costs, grouping, plan| starting(former_or_one_more, costs, grouping, plan),
    ),
    in_greedy_plan(
        "the tasks' fewest cores added up",
        |costs, grouping, plan| starting(of_each_task, costs, grouping, plan),
    ),
    in_greedy_plan("cores doubled until it fits", |costs, grouping, plan| {
        starting(doubled, costs, grouping, plan)
    }),
    // "11 also covers a module whose fewest cores exceed its limit" (M-100)
    in_greedy_plan("limits of the cores by needs added up", limits_of_former),
    // "each such module counts as needing more than P"
    in_greedy_plan("one core where no count fits", |costs, grouping, plan| {
        starting(one_for_none, costs, grouping, plan)
    }),
    in_greedy_plan(
        "11 at a module that fits at no count",
        |costs, grouping, plan| refusing(|i| Refusal::at(11, i + 1), costs, grouping, plan),
    ),
    in_greedy_plan("14 where no count fits", |costs, grouping, plan| {
        refusing(|i| Refusal::at(14, i + 1), costs, grouping, plan)
    }),
];

/// The greedy way with other fewest cores of a module; more than the board has where there are none.
fn starting(
    fewest: fn(&Chain, Module) -> usize,
    costs: &[u8],
    grouping: u16,
    plan: &mut [u8],
) -> Answer {
    let start = |chain: &Chain, mut modules: Vec<Module>| {
        for module in &mut modules {
            module.cores = fewest(chain, *module);
        }
        greedy::fitting(RULES.within, chain, modules)
    };
    greedy::greedy_plan_by(start, greedy::walk, costs, grouping, plan)
}

/// The limits are asked for fewer cores than the modules start with.
fn limits_of_former(costs: &[u8], grouping: u16, plan: &mut [u8]) -> Answer {
    let start = |chain: &Chain, modules: Vec<Module>| {
        let former = greedy::with_fewest_cores(added_up, chain, modules.clone());
        if !former.iter().all(|module| module.within_limit(chain)) {
            return Err(Refusal::new(11));
        }
        let fewest = greedy::with_fewest_cores(RULES.fits, chain, modules);
        greedy::fitting(|_, _| true, chain, fewest)
    };
    greedy::greedy_plan_by(start, greedy::walk, costs, grouping, plan)
}

/// The fewest cores by document 01's test of memory, and whether the shares fit at them.
fn former(chain: &Chain, module: Module) -> (usize, bool) {
    let cores = fewest_cores_by(added_up, chain, module);
    (cores, Module { cores, ..module }.memory_fits(chain))
}

fn former_or_none(chain: &Chain, module: Module) -> usize {
    match former(chain, module) {
        (cores, true) => cores,
        _ => chain.cores + 1,
    }
}

fn former_or_one_more(chain: &Chain, module: Module) -> usize {
    let (cores, fits) = former(chain, module);
    cores + usize::from(!fits)
}

fn of_each_task(chain: &Chain, module: Module) -> usize {
    let tasks = module.first..=module.last;
    let cores = |task| fewest_cores(chain, reach::of_one_core(task, task));
    tasks.map(cores).sum()
}

fn doubled(chain: &Chain, mut module: Module) -> usize {
    while !module.memory_fits(chain) && module.cores <= chain.cores {
        module.cores *= 2;
    }
    module.cores
}

fn one_for_none(chain: &Chain, module: Module) -> usize {
    match fewest_cores(chain, module) {
        cores if cores > chain.cores => 1,
        cores => cores,
    }
}

/// The greedy way with another refusal where a module, counted from 0, fits at no count of the board's cores.
fn refusing(refusal: fn(usize) -> Refusal, costs: &[u8], grouping: u16, plan: &mut [u8]) -> Answer {
    let start = |chain: &Chain, modules: Vec<Module>| {
        let mut places = 0..modules.len();
        match places.find(|&i| !reach::fits_board(chain, modules[i])) {
            Some(i) => Err(refusal(i)),
            None => greedy::start(chain, modules),
        }
    };
    greedy::greedy_plan_by(start, greedy::walk, costs, grouping, plan)
}

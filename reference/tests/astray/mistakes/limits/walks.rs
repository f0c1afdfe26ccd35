//! Greedy ways that go by document 02's M-100 in a wrong way: at the start, with refusal 11, or on the walk.

use super::{by, ignored};
use reference::answer::{Answer, Refusal};
use reference::costs::Chain;
use reference::greedy;
use reference::plan::{self, Load, Module, RULES};

/// One way to begin, or to refuse.
type Start = fn(&Chain, Vec<Module>) -> Result<Vec<Module>, Refusal>;

/// One way to give out a core, or to end.
type Give = fn(&Chain, &[Module]) -> Option<Vec<Module>>;

/// The greedy way with another start.
fn starting(start: Start, costs: &[u8], grouping: u16, plan: &mut [u8]) -> Answer {
    greedy::greedy_plan_by(start, greedy::walk, costs, grouping, plan)
}

/// The greedy way with another way to give out a core.
fn giving(give: Give, costs: &[u8], grouping: u16, plan: &mut [u8]) -> Answer {
    let walk = |chain: &Chain, start| greedy::walk_by(give, chain, start);
    greedy::greedy_plan_by(greedy::start, walk, costs, grouping, plan)
}

/// The walk alone goes by the limits.
pub fn start_ignores(costs: &[u8], grouping: u16, plan: &mut [u8]) -> Answer {
    let start = |chain: &Chain, modules| greedy::start_by(by(ignored), chain, modules);
    starting(start, costs, grouping, plan)
}

/// Refusal 11 has the first module whose fewest cores exceed its limit as its place, if there is one.
pub fn start_with_place(costs: &[u8], grouping: u16, plan: &mut [u8]) -> Answer {
    let start = |chain: &Chain, modules: Vec<Module>| {
        let fewest = greedy::with_fewest_cores(RULES.fits, chain, modules.clone());
        let over = fewest.iter().position(|module| !module.within_limit(chain));
        let with_place = |right| over.map_or(right, |i| Refusal::at(11, i + 1));
        greedy::start(chain, modules).map_err(with_place)
    };
    starting(start, costs, grouping, plan)
}

/// Each module that has a limit starts there.
pub fn start_at_limit(costs: &[u8], grouping: u16, plan: &mut [u8]) -> Answer {
    let start = |chain: &Chain, modules| {
        let mut filled = greedy::start(chain, modules)?;
        for module in &mut filled {
            module.cores = module.limit(chain).unwrap_or(module.cores);
        }
        within_board(chain, filled)
    };
    starting(start, costs, grouping, plan)
}

/// A module that needs more than its limit starts at its limit.
pub fn start_cut_to_limit(costs: &[u8], grouping: u16, plan: &mut [u8]) -> Answer {
    let start = |chain: &Chain, modules| {
        let mut cut = greedy::with_fewest_cores(RULES.fits, chain, modules);
        for module in &mut cut {
            let most = module.limit(chain).unwrap_or(module.cores);
            module.cores = module.cores.min(most);
        }
        within_board(chain, cut)
    };
    starting(start, costs, grouping, plan)
}

fn within_board(chain: &Chain, modules: Vec<Module>) -> Result<Vec<Module>, Refusal> {
    if plan::cores(&modules) > chain.cores {
        return Err(Refusal::new(11));
    }
    Ok(modules)
}

/// Refusal 11 alone goes by the limits.
pub fn walk_ignores(costs: &[u8], grouping: u16, plan: &mut [u8]) -> Answer {
    let give = |chain: &Chain, current: &[Module]| greedy::give_by(ignored, chain, current);
    giving(give, costs, grouping, plan)
}

/// The neighbours of a full slowest module are not asked.
pub fn ends_at_full_slowest(costs: &[u8], grouping: u16, plan: &mut [u8]) -> Answer {
    let give = |chain: &Chain, current: &[Module]| {
        if is_full(current[slowest(chain, current)], chain) {
            return None;
        }
        greedy::give(chain, current)
    };
    giving(give, costs, grouping, plan)
}

/// Full modules are passed over where the slowest one is looked for.
pub fn around_not_full(costs: &[u8], grouping: u16, plan: &mut [u8]) -> Answer {
    let give = |chain: &Chain, current: &[Module]| {
        let places = (0..current.len()).filter(|&i| !is_full(current[i], chain));
        let places: Vec<usize> = places.collect();
        if places.is_empty() {
            return None;
        }
        let all = plan::loads(chain, current);
        let loads: Vec<Load> = places.iter().map(|&i| all[i]).collect();
        let slowest = places[plan::slowest(&loads)];
        greedy::give_around(slowest, Module::within_limit, chain, current)
    };
    giving(give, costs, grouping, plan)
}

/// The best of the three is chosen without a look at the limits; if it is full, that is the end.
pub fn ends_at_full_best(costs: &[u8], grouping: u16, plan: &mut [u8]) -> Answer {
    let give = |chain: &Chain, current: &[Module]| {
        let best = greedy::give_by(ignored, chain, current)?;
        let all_within = best.iter().all(|module| module.within_limit(chain));
        all_within.then_some(best)
    };
    giving(give, costs, grouping, plan)
}

/// The limit of the slowest module is taken for that of its neighbours too.
pub fn by_limit_of_slowest(costs: &[u8], grouping: u16, plan: &mut [u8]) -> Answer {
    let give = |chain: &Chain, current: &[Module]| {
        let limit = current[slowest(chain, current)].limit(chain);
        let one_limit = Chain {
            limits: vec![limit; chain.tasks],
            ..chain.clone()
        };
        greedy::give(&one_limit, current)
    };
    giving(give, costs, grouping, plan)
}

fn slowest(chain: &Chain, current: &[Module]) -> usize {
    plan::slowest(&plan::loads(chain, current))
}

fn is_full(module: Module, chain: &Chain) -> bool {
    module.limit(chain) == Some(module.cores)
}

/// Where the slowest module and its neighbours are full, the first other one that is not full gets the core. This is no
/// mistake that an answer could show.
pub fn goes_on(costs: &[u8], grouping: u16, plan: &mut [u8]) -> Answer {
    let give = |chain: &Chain, current: &[Module]| {
        let past_full = || with_core_past_full(chain, current);
        greedy::give(chain, current).or_else(past_full)
    };
    giving(give, costs, grouping, plan)
}

fn with_core_past_full(chain: &Chain, current: &[Module]) -> Option<Vec<Module>> {
    let not_full = (0..current.len()).find(|&i| !is_full(current[i], chain))?;
    Some(greedy::with_core(current, not_full))
}

/// Whether `goes_on` gives out a core with this grouping where the greedy way ends.
pub fn does_go_on(chain: &Chain, grouping: u16) -> bool {
    let modules = greedy::groups(chain.tasks, grouping);
    let Ok(mut current) = greedy::start(chain, modules) else {
        return false;
    };
    while plan::cores(&current) < chain.cores {
        match greedy::give(chain, &current) {
            Some(next) => current = next,
            None => return with_core_past_full(chain, &current).is_some(),
        }
    }
    false
}

//! Document 01's "Bench way", with the limits of document 02, M-100, and its test of memory, M-103: the greedy procedure of 000,
//! 4.1, with refusals 1 to 6, 7, 10, 11.

use crate::answer::{Answer, Refusal, answer};
use crate::costs::{self, Chain};
use crate::plan::{self, Module, PLAN_BYTES, RULES, Rule, Rules};

/// Fills in the assignment that the greedy walk answers with, or leaves the plan bytes as they are.
pub fn greedy_plan(costs: &[u8], grouping: u16, plan: &mut [u8]) -> Answer {
    greedy_plan_by(start, walk, costs, grouping, plan)
}

/// The service with any first assignment of a grouping's modules, or refusal, and any walk from there to the answer.
pub fn greedy_plan_by(
    start: impl Fn(&Chain, Vec<Module>) -> Result<Vec<Module>, Refusal>,
    walk: impl Fn(&Chain, Vec<Module>) -> Vec<Module>,
    costs: &[u8],
    grouping: u16,
    plan: &mut [u8],
) -> Answer {
    let read = costs::read(costs);
    answer(read.and_then(|chain| planned(start, walk, &chain, grouping, plan)))
}

/// The service on a chain in place of the bytes of its costs.
pub fn greedy_plan_on(chain: &Chain, grouping: u16, plan: &mut [u8]) -> Answer {
    answer(planned(start, walk, chain, grouping, plan))
}

fn planned(
    start: impl Fn(&Chain, Vec<Module>) -> Result<Vec<Module>, Refusal>,
    walk: impl Fn(&Chain, Vec<Module>) -> Vec<Module>,
    chain: &Chain,
    grouping: u16,
    plan: &mut [u8],
) -> Result<Answer, Refusal> {
    plan::enough_bytes(plan)?;
    if grouping >> (chain.tasks - 1) != 0 {
        return Err(Refusal::new(10));
    }
    let modules = groups(chain.tasks, grouping);
    let best = walk(chain, start(chain, modules)?);
    plan[..PLAN_BYTES].copy_from_slice(&plan::encode(&best));
    Ok(plan::figures(chain, &best))
}

/// Bit i ends a module after task i + 1; the last one ends at the last task. One copy of one core each.
pub fn groups(tasks: usize, grouping: u16) -> Vec<Module> {
    let mut modules = Vec::new();
    let mut first = 1;
    for last in 1..=tasks {
        if last == tasks || grouping >> (last - 1) & 1 == 1 {
            modules.push(Module {
                first,
                last,
                copies: 1,
                cores: 1,
            });
            first = last + 1;
        }
    }
    modules
}

/// The first assignment: each module has the fewest cores that its memory allows. Refusal 11 where these are more than the
/// board has, or some module's more than its limit.
pub fn start(chain: &Chain, modules: Vec<Module>) -> Result<Vec<Module>, Refusal> {
    start_by(RULES, chain, modules)
}

/// The first assignment with any tests of memory and of limits.
pub fn start_by(rules: Rules, chain: &Chain, modules: Vec<Module>) -> Result<Vec<Module>, Refusal> {
    let fewest = with_fewest_cores(rules.fits, chain, modules);
    fitting(rules.within, chain, fewest)
}

/// The modules with these cores, where the board has so many and each is within its limit by this test.
pub fn fitting(within: Rule, chain: &Chain, modules: Vec<Module>) -> Result<Vec<Module>, Refusal> {
    let all_within = modules.iter().all(|module| within(module, chain));
    if plan::cores(&modules) > chain.cores || !all_within {
        return Err(Refusal::new(11));
    }
    Ok(modules)
}

/// The modules with the fewest cores that a test of memory allows.
pub fn with_fewest_cores(fits: Rule, chain: &Chain, mut modules: Vec<Module>) -> Vec<Module> {
    for module in &mut modules {
        module.cores = fewest_cores_by(fits, chain, *module);
    }
    modules
}

/// The fewest cores that the module's memory allows, one more than the board has where it fits at no count of them: M-103, "each
/// such module counts as needing more than P".
pub fn fewest_cores(chain: &Chain, module: Module) -> usize {
    fewest_cores_by(RULES.fits, chain, module)
}

/// The same by any test of memory.
pub fn fewest_cores_by(fits: Rule, chain: &Chain, mut module: Module) -> usize {
    module.cores = 1;
    while !fits(&module, chain) && module.cores <= chain.cores {
        module.cores += 1;
    }
    module.cores
}

/// Gives out the cores that are left, or ends before where nothing comes next; the earliest assignment of least bottleneck is
/// the answer.
pub fn walk(chain: &Chain, start: Vec<Module>) -> Vec<Module> {
    walk_by(give, chain, start)
}

/// The walk with any way to give out one core, or to end.
pub fn walk_by(
    give: impl Fn(&Chain, &[Module]) -> Option<Vec<Module>>,
    chain: &Chain,
    start: Vec<Module>,
) -> Vec<Module> {
    let mut best = start.clone();
    let mut current = start;
    while plan::cores(&current) < chain.cores {
        let Some(next) = give(chain, &current) else {
            break;
        };
        current = next;
        if plan::bottleneck(chain, &current).is_less(plan::bottleneck(chain, &best)) {
            best = current.clone();
        }
    }
    best
}

/// One more core for the first slowest module, its predecessor or its successor, by the bottleneck afterwards; where equal
/// itself goes first, then the predecessor. A module at its limit takes none; nothing comes next where none of them may take it.
pub fn give(chain: &Chain, current: &[Module]) -> Option<Vec<Module>> {
    give_by(RULES.within, chain, current)
}

/// The same with any test of the limits.
pub fn give_by(within: Rule, chain: &Chain, current: &[Module]) -> Option<Vec<Module>> {
    let slowest = plan::slowest(&plan::loads(chain, current));
    give_around(slowest, within, chain, current)
}

/// The same around any module, counted from 0, in place of the slowest one.
pub fn give_around(
    module: usize,
    within: Rule,
    chain: &Chain,
    current: &[Module],
) -> Option<Vec<Module>> {
    let predecessor = module.checked_sub(1);
    let successor = Some(module + 1).filter(|&i| i < current.len());
    let mut choice: Option<Vec<Module>> = None;
    for i in [Some(module), predecessor, successor].into_iter().flatten() {
        let other = with_core(current, i);
        let is_better = choice.as_ref().is_none_or(|choice| {
            plan::bottleneck(chain, &other).is_less(plan::bottleneck(chain, choice))
        });
        if within(&other[i], chain) && is_better {
            choice = Some(other);
        }
    }
    choice
}

/// The assignment with one more core for the i-th module, counted from 0.
pub fn with_core(current: &[Module], i: usize) -> Vec<Module> {
    let mut given = current.to_vec();
    given[i].cores += 1;
    given
}

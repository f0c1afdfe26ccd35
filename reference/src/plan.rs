//! Document 01, "The chain and the board" and "Plan bytes", with the limits of document 02, M-100, its test of memory, M-103,
//! its single-block time, M-104, and the cost of handing out to copies, M-106: modules, rules, responses, figures and the 48 bytes.

use std::cmp::Ordering;

use crate::answer::{Answer, Refusal};
use crate::costs::{Chain, MOST_TASKS};

/// A plan may have a module for each task.
pub const RECORDS: usize = MOST_TASKS;
const MODULE_BYTES: usize = 4;
pub const PLAN_BYTES: usize = RECORDS * MODULE_BYTES;

/// An unbroken run of tasks, counted from 1, in so many copies of so many cores each.
#[derive(Clone, Copy, Debug, PartialEq, Eq)]
pub struct Module {
    pub first: usize,
    pub last: usize,
    pub copies: usize,
    pub cores: usize,
}

impl Module {
    pub fn replicable(&self, chain: &Chain) -> bool {
        (self.first..=self.last).all(|task| chain.replicable(task))
    }

    /// M-103: "A module fits if the shares, each need ÷ p rounded up, add to at most the capacity." On no cores none does.
    pub fn memory_fits(&self, chain: &Chain) -> bool {
        self.cores > 0 && self.shares(chain) <= chain.capacity.into()
    }

    /// What each of its cores, of which there is one at least, holds: of every task a share, rounded up.
    pub fn shares(&self, chain: &Chain) -> u64 {
        let need = |task| u64::from(chain.need(task));
        (self.first..=self.last)
            .map(|task| need(task).div_ceil(self.cores as u64))
            .sum()
    }

    /// The least of its tasks' limits, those without one left aside; none if no task has one.
    pub fn limit(&self, chain: &Chain) -> Option<usize> {
        (self.first..=self.last)
            .filter_map(|task| chain.limit(task))
            .min()
    }

    /// Whether one copy has at most as many cores as the limit says; how many copies there are does not count.
    pub fn within_limit(&self, chain: &Chain) -> bool {
        self.limit(chain).is_none_or(|most| self.cores <= most)
    }

    /// The executions and internal transfers; what goes out and comes in is not in it.
    pub fn body(&self, chain: &Chain) -> u32 {
        let executions = (self.first..=self.last).map(|task| chain.execution(task, self.cores));
        let internals = (self.first..self.last).map(|task| chain.internal(task, self.cores));
        executions.chain(internals).sum()
    }

    /// M-106: what it takes to hand out to its copies, "D if its r is above 1", and nothing where there is one.
    pub fn dispatch(&self, chain: &Chain) -> u32 {
        if self.copies > 1 {
            chain.dispatch.into()
        } else {
            0
        }
    }
}

/// A test of a module, by what its tasks need or allow.
pub type Rule = fn(&Module, &Chain) -> bool;

/// The tests of memory and of limits that a planner goes by.
#[derive(Clone, Copy)]
pub struct Rules {
    pub fits: Rule,
    pub within: Rule,
}

/// The right ones.
pub const RULES: Rules = Rules {
    fits: Module::memory_fits,
    within: Module::within_limit,
};

/// The sum of copies times cores.
pub fn cores(plan: &[Module]) -> usize {
    plan.iter().map(|module| module.copies * module.cores).sum()
}

/// Whether modules of both end at the same tasks.
pub fn same_split(plan: &[Module], other: &[Module]) -> bool {
    let ends = |plan: &[Module]| plan.iter().map(|module| module.last).collect::<Vec<_>>();
    ends(plan) == ends(other)
}

/// Whether the modules keep the rules of document 01 and are within the limits; they cover the tasks in order.
pub fn keeps_rules(chain: &Chain, plan: &[Module]) -> bool {
    keeps_rules_by(RULES, chain, plan)
}

/// The rules with any tests of memory and of limits.
pub fn keeps_rules_by(rules: Rules, chain: &Chain, plan: &[Module]) -> bool {
    cores(plan) <= chain.cores
        && plan.iter().all(|module| {
            let copies_allowed = module.copies == 1 || module.replicable(chain);
            copies_allowed && (rules.fits)(module, chain) && (rules.within)(module, chain)
        })
}

/// What the module before the i-th, counted from 0, sends to it.
pub fn received(chain: &Chain, plan: &[Module], i: usize) -> u32 {
    if i == 0 {
        return 0;
    }
    let before = plan[i - 1];
    chain.external(before.last, before.cores, plan[i].cores)
}

/// What the i-th module, counted from 0, sends to the one after it.
pub fn sent(chain: &Chain, plan: &[Module], i: usize) -> u32 {
    if i + 1 == plan.len() {
        return 0;
    }
    chain.external(plan[i].last, plan[i].cores, plan[i + 1].cores)
}

/// The response of the i-th module, counted from 0.
pub fn response(chain: &Chain, plan: &[Module], i: usize) -> u32 {
    let module = plan[i];
    received(chain, plan, i) + module.body(chain) + sent(chain, plan, i) + module.dispatch(chain)
}

/// A response divided by the copies, not reduced: a bottleneck or one that might be.
#[derive(Clone, Copy, Debug)]
pub struct Load {
    pub response: u32,
    pub copies: u32,
}

impl Load {
    /// How this fraction compares with the other one, exactly.
    pub fn compare(self, other: Load) -> Ordering {
        let this = u64::from(self.response) * u64::from(other.copies);
        this.cmp(&(u64::from(other.response) * u64::from(self.copies)))
    }

    /// Whether this fraction is less than the other one, exactly.
    pub fn is_less(self, other: Load) -> bool {
        self.compare(other).is_lt()
    }
}

/// The loads of all modules.
pub fn loads(chain: &Chain, plan: &[Module]) -> Vec<Load> {
    let load = |i: usize| Load {
        response: response(chain, plan, i),
        copies: plan[i].copies as u32,
    };
    (0..plan.len()).map(load).collect()
}

/// The first greatest of at least one load, counted from 0.
pub fn slowest(loads: &[Load]) -> usize {
    let mut first = 0;
    for i in 1..loads.len() {
        if loads[first].is_less(loads[i]) {
            first = i;
        }
    }
    first
}

/// The greatest load of a plan.
pub fn bottleneck(chain: &Chain, plan: &[Module]) -> Load {
    let loads = loads(chain, plan);
    loads[slowest(&loads)]
}

/// M-104: "That time adds each task's execution and each transfer once, at the plan's cores." By M-106 it rises by D for each module
/// that has copies; how many these are does not enter it.
pub fn block_time(chain: &Chain, plan: &[Module]) -> u32 {
    let execution = |task| chain.execution(task, module_of(plan, task).cores);
    let executions = (1..=chain.tasks).map(execution);
    let transfers = (1..chain.tasks).map(|task| transfer(chain, plan, task));
    let dispatches = plan.iter().map(|module| module.dispatch(chain));
    executions.chain(transfers).chain(dispatches).sum()
}

/// The transfer from a task to the next one: internal if one module has both, else external.
pub fn transfer(chain: &Chain, plan: &[Module], task: usize) -> u32 {
    let (from, to) = (module_of(plan, task), module_of(plan, task + 1));
    if from == to {
        chain.internal(task, from.cores)
    } else {
        chain.external(task, from.cores, to.cores)
    }
}

/// The module that has the task.
pub fn module_of(plan: &[Module], task: usize) -> Module {
    let mut modules = plan.iter();
    let found = modules.find(|module| (module.first..=module.last).contains(&task));
    *found.expect("the modules cover the tasks")
}

/// The figures of a plan that keeps the rules.
pub fn figures(chain: &Chain, plan: &[Module]) -> Answer {
    let loads = loads(chain, plan);
    let slowest = slowest(&loads);
    Answer {
        refusal: 0,
        place: 0,
        modules: plan.len() as u32,
        cores: cores(plan) as u32,
        slowest: slowest as u32 + 1,
        response: loads[slowest].response,
        copies: loads[slowest].copies,
    }
}

/// The bytes of a plan: unused records are zero and stand last.
pub fn encode(plan: &[Module]) -> [u8; PLAN_BYTES] {
    let mut bytes = [0; PLAN_BYTES];
    for (record, module) in bytes.chunks_exact_mut(MODULE_BYTES).zip(plan) {
        let numbers = [module.first, module.last, module.copies, module.cores];
        record.copy_from_slice(&numbers.map(|number| number as u8));
    }
    bytes
}

/// The twelve records as they are written: first, last, copies, cores.
pub fn records(plan: &[u8; PLAN_BYTES]) -> Vec<Module> {
    let module = |record: &[u8]| Module {
        first: record[0].into(),
        last: record[1].into(),
        copies: record[2].into(),
        cores: record[3].into(),
    };
    plan.chunks_exact(MODULE_BYTES).map(module).collect()
}

/// The modules of plan bytes whose unused records are zero and stand last.
pub fn used(plan: &[u8; PLAN_BYTES]) -> Vec<Module> {
    let records = records(plan).into_iter();
    records.take_while(|module| module.cores > 0).collect()
}

/// Refusal 7 unless the lent bytes have room for a plan.
pub fn enough_bytes(plan: &[u8]) -> Result<(), Refusal> {
    if plan.len() < PLAN_BYTES {
        return Err(Refusal::new(7));
    }
    Ok(())
}

#[cfg(test)]
mod tests {
    use super::*;
    use crate::cases::{constant, small_of_each, worked_example};
    use crate::every::each_plan;

    /// All tasks of the chain, in one copy of so many cores.
    fn whole(chain: &Chain, cores: usize) -> Module {
        Module {
            first: 1,
            last: chain.tasks,
            copies: 1,
            cores,
        }
    }

    /// M-103: "Needs 5 and 5 with capacity 5 at p = 2 passed before; 3 + 3 does not."
    #[test]
    fn shares_of_two_tasks() {
        let chain = Chain {
            capacity: 5,
            needs: vec![5, 5],
            ..worked_example()
        };
        let fits = |cores| whole(&chain, cores).memory_fits(&chain);
        assert_eq!(
            [0, 1, 2, 3, 255].map(fits),
            [false, false, false, true, true]
        );
    }

    /// On no cores nothing fits, not even no need.
    #[test]
    fn nothing_fits_on_no_cores() {
        let chain = constant(3, 4, 0);
        assert!(!whole(&chain, 0).memory_fits(&chain));
        assert!(whole(&chain, 1).memory_fits(&chain));
    }

    /// Rounded up: a share is the least whole number of which p times as much is at least the need.
    #[test]
    fn a_share_is_the_least_that_is_enough() {
        for need in (0..600).chain([999_999, 1_000_000]) {
            let chain = Chain {
                needs: vec![need],
                ..constant(1, 1, 0)
            };
            for cores in 1..=255 {
                let held = whole(&chain, cores).shares(&chain) * cores as u64;
                assert!(held >= need.into() && held < u64::from(need) + cores as u64);
            }
        }
    }

    /// In the responses each external transfer counts twice, for the sender and for the receiver.
    #[test]
    fn a_time_is_the_responses_less_each_external_transfer() {
        for case in small_of_each(20) {
            let chain = case.chain();
            each_plan(&chain, &mut |plan| {
                let places = 0..plan.len();
                let responses: u32 = places.clone().map(|i| response(&chain, plan, i)).sum();
                let externals: u32 = places.map(|i| sent(&chain, plan, i)).sum();
                assert_eq!(block_time(&chain, plan), responses - externals, "{plan:?}");
            });
        }
    }
}

//! Judge on the costs of an accepted file: the rules and the figures of a plan. Nothing is allocated.

use super::lookup::Lookup;
use crate::answer::{Answer, Refusal};
use crate::judge::test_all;
use crate::plan::{self, Load, Module, PLAN_BYTES, RECORDS};

/// The figures of the plan, or the refusal that is due.
pub fn judge(costs: &Lookup, plan: &[u8; PLAN_BYTES]) -> Result<Answer, Refusal> {
    let (modules, count) = passed(costs, plan)?;
    Ok(figures(costs, &modules[..count]))
}

/// The modules of the plan, of which there are so many, or refusals 12, 13, 14, 16, 15, in this order.
pub fn passed(
    costs: &Lookup,
    plan: &[u8; PLAN_BYTES],
) -> Result<([Module; RECORDS], usize), Refusal> {
    let records = std::array::from_fn(|i| record(plan, i));
    let count = test_shape(costs.tasks, &records)?;
    let modules = &records[..count];
    test_all(modules, 13, |module| {
        module.copies <= 1 || costs.copies_allowed(module.first, module.last)
    })?;
    test_all(modules, 14, |module| {
        costs.memory_fits(module.first, module.last, module.cores)
    })?;
    test_all(modules, 16, |module| {
        let mut tasks = module.first..=module.last;
        tasks.all(|task| costs.within_limit(task, module.cores))
    })?;
    if plan::cores(modules) > costs.cores {
        return Err(Refusal::new(15));
    }
    Ok((records, count))
}

/// Record i, counted from 0.
fn record(plan: &[u8; PLAN_BYTES], i: usize) -> Module {
    Module {
        first: plan[4 * i].into(),
        last: plan[4 * i + 1].into(),
        copies: plan[4 * i + 2].into(),
        cores: plan[4 * i + 3].into(),
    }
}

/// How many records are modules, the last of which ends at task k, all others being blank; or refusal 12 at the first record at
/// fault.
fn test_shape(k: usize, records: &[Module; RECORDS]) -> Result<usize, Refusal> {
    let (mut covered, mut count) = (0, 0);
    for (i, record) in records.iter().enumerate() {
        let is_right = if covered == k {
            is_blank(record)
        } else {
            count += 1;
            is_module(k, covered + 1, record)
        };
        if !is_right {
            return Err(Refusal::at(12, i + 1));
        }
        covered = covered.max(record.last);
    }
    Ok(count)
}

fn is_blank(record: &Module) -> bool {
    [record.first, record.last, record.copies, record.cores] == [0; 4]
}

/// Whether the record is a module that starts with the due task and ends at k or before.
fn is_module(k: usize, due: usize, record: &Module) -> bool {
    let is_run = record.first == due && (due..=k).contains(&record.last);
    is_run && record.copies >= 1 && record.cores >= 1
}

/// The load of the i-th module, counted from 0.
fn load(costs: &Lookup, modules: &[Module], i: usize) -> Load {
    let before = if i == 0 { 0 } else { modules[i - 1].cores };
    let next = modules.get(i + 1).map_or(0, |next| next.cores);
    Load {
        response: costs.response(before, modules[i], next) as u32,
        copies: modules[i].copies as u32,
    }
}

/// The figures of a plan that keeps the rules.
pub fn figures(costs: &Lookup, modules: &[Module]) -> Answer {
    let (mut slowest, mut bottleneck) = (0, load(costs, modules, 0));
    for i in 1..modules.len() {
        let own = load(costs, modules, i);
        if bottleneck.is_less(own) {
            (slowest, bottleneck) = (i, own);
        }
    }
    Answer {
        refusal: 0,
        place: 0,
        modules: modules.len() as u32,
        cores: plan::cores(modules) as u32,
        slowest: slowest as u32 + 1,
        response: bottleneck.response,
        copies: bottleneck.copies,
    }
}

#[cfg(test)]
mod tests {
    use super::*;
    use crate::answer::answer;
    use crate::cases::small_of_each;
    use crate::damage;
    use crate::judge as service;
    use crate::random::Random;

    #[test]
    fn judges_as_the_service() {
        for case in small_of_each(300) {
            let (chain, costs) = (case.chain(), Lookup::new(&case.costs));
            let mut random = Random::new(case.seed);
            for _ in 0..10 {
                let plan = if random.once_in(2) {
                    damage::random_plan(chain.tasks, chain.cores, &mut random)
                } else {
                    damage::tight_plan(&chain, &mut random)
                };
                let due = service::judge(&case.costs, &plan);
                assert_eq!(
                    answer(judge(&costs, &plan)),
                    due,
                    "seed {}, {plan:?}",
                    case.seed
                );
            }
        }
    }
}

//! Document 01's Judge, with the limits of document 02, M-100, and its test of memory, M-103: the figures of given plan bytes, or
//! refusals 1 to 6, 7, 12, 13, 14, 16, 15, in this order.

use crate::answer::{Answer, Refusal, answer};
use crate::costs::{self, Chain};
use crate::plan::{self, Module, PLAN_BYTES, RULES, Rules};

/// The figures of the plan in the first 48 bytes.
pub fn judge(costs: &[u8], plan: &[u8]) -> Answer {
    judge_by(RULES, costs, plan)
}

/// The service with any tests of memory and of limits.
pub fn judge_by(rules: Rules, costs: &[u8], plan: &[u8]) -> Answer {
    let read = costs::read(costs);
    answer(read.and_then(|chain| figures_or_refusal(rules, &chain, plan)))
}

/// The service on a chain in place of the bytes of its costs.
pub fn judge_on(chain: &Chain, plan: &[u8]) -> Answer {
    answer(figures_or_refusal(RULES, chain, plan))
}

fn figures_or_refusal(rules: Rules, chain: &Chain, plan: &[u8]) -> Result<Answer, Refusal> {
    let modules = passed(rules, chain, plan)?;
    Ok(plan::figures(chain, &modules))
}

/// The modules of the plan in the first 48 bytes, or refusal 7, 12, 13, 14, 16 or 15.
pub fn passed(rules: Rules, chain: &Chain, plan: &[u8]) -> Result<Vec<Module>, Refusal> {
    let Some(bytes) = plan.first_chunk::<PLAN_BYTES>() else {
        return Err(Refusal::new(7));
    };
    let modules = covering_modules(chain, bytes)?;
    let only_allowed_copies = |module: &Module| module.copies == 1 || module.replicable(chain);
    test_all(&modules, 13, only_allowed_copies)?;
    test_all(&modules, 14, |module| (rules.fits)(module, chain))?;
    test_all(&modules, 16, |module| (rules.within)(module, chain))?;
    if plan::cores(&modules) > chain.cores {
        return Err(Refusal::new(15));
    }
    Ok(modules)
}

/// The modules up to the one that ends at task k, or refusal 12 at the first record at fault.
fn covering_modules(chain: &Chain, plan: &[u8; PLAN_BYTES]) -> Result<Vec<Module>, Refusal> {
    let blank = plan::records(&[0; PLAN_BYTES])[0];
    let mut modules = Vec::new();
    let mut covered = 0;
    for (i, record) in plan::records(plan).into_iter().enumerate() {
        let at_fault = Refusal::at(12, i + 1);
        if covered == chain.tasks {
            if record != blank {
                return Err(at_fault);
            }
            continue;
        }
        let tasks_due =
            record.first == covered + 1 && (record.first..=chain.tasks).contains(&record.last);
        if !tasks_due || record.copies == 0 || record.cores == 0 {
            return Err(at_fault);
        }
        covered = record.last;
        modules.push(record);
    }
    // twelve records that start at the due tasks cover the at most twelve tasks
    assert_eq!(covered, chain.tasks);
    Ok(modules)
}

/// The refusal with the first module that fails the test as its place.
pub fn test_all(
    modules: &[Module],
    number: u32,
    passes: impl Fn(&Module) -> bool,
) -> Result<(), Refusal> {
    match modules.iter().position(|module| !passes(module)) {
        None => Ok(()),
        Some(i) => Err(Refusal::at(number, i + 1)),
    }
}

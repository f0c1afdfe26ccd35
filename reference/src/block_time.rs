//! Document 02, M-104, "Equally good, more finely": the single-block time of given plan bytes, with Judge's refusals.

use crate::answer::{Filled, Refusal, answer};
use crate::costs::{self, Chain};
use crate::judge;
use crate::plan::{self, Module, RULES, Rules};

/// The time of the plan in the first 48 bytes as the count, or the refusal that Judge gives.
pub fn block_time(costs: &[u8], plan: &[u8]) -> Filled {
    block_time_by(RULES, plan::block_time, costs, plan)
}

/// The service with any tests of memory and of limits, and any time of a plan.
pub fn block_time_by(
    rules: Rules,
    time: impl Fn(&Chain, &[Module]) -> u32,
    costs: &[u8],
    plan: &[u8],
) -> Filled {
    let read = costs::read(costs);
    answer(read.and_then(|chain| timed(rules, time, &chain, plan)))
}

/// The service on a chain in place of the bytes of its costs.
pub fn block_time_on(chain: &Chain, plan: &[u8]) -> Filled {
    answer(timed(RULES, plan::block_time, chain, plan))
}

fn timed(
    rules: Rules,
    time: impl Fn(&Chain, &[Module]) -> u32,
    chain: &Chain,
    plan: &[u8],
) -> Result<Filled, Refusal> {
    let modules = judge::passed(rules, chain, plan)?;
    Ok(Filled::counted(time(chain, &modules)))
}

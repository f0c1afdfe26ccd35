//! The services under other tests of memory or of limits.

use reference::answer::Answer;
use reference::costs::Chain;
use reference::plan::{Module, Rules};
use reference::{every, greedy};

pub use reference::judge::judge_by as judge;

pub fn best_plan(rules: Rules, costs: &[u8], plan: &mut [u8], work: &mut [u32]) -> Answer {
    let search = |chain: &Chain| every::search_by(rules, every::ORDER, chain);
    every::best_plan_by(search, costs, plan, work)
}

/// At its start and on its walk.
pub fn greedy_plan(rules: Rules, costs: &[u8], grouping: u16, plan: &mut [u8]) -> Answer {
    let start = |chain: &Chain, modules| greedy::start_by(rules, chain, modules);
    let give = |chain: &Chain, current: &[Module]| greedy::give_by(rules.within, chain, current);
    let walk = |chain: &Chain, start| greedy::walk_by(give, chain, start);
    greedy::greedy_plan_by(start, walk, costs, grouping, plan)
}

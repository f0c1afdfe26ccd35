//! Greedy ways that go by single-block times too. M-104 speaks of demand 3, which is Best plan's.

use std::cmp::Ordering;
use std::iter;

use crate::mistakes::searches::{BY_BOTTLENECK, BY_TIME};
use crate::mistakes::{Mistake, in_greedy_plan};
use reference::costs::Chain;
use reference::greedy::{self, with_core};
use reference::plan::{self, Module};

pub const MISTAKES: [Mistake; 2] = [
    in_greedy_plan("a core by time among equals", |costs, grouping, plan| {
        let walk = |chain: &Chain, start| greedy::walk_by(give, chain, start);
        greedy::greedy_plan_by(greedy::start, walk, costs, grouping, plan)
    }),
    in_greedy_plan("least time, not the earliest", |costs, grouping, plan| {
        greedy::greedy_plan_by(greedy::start, walk, costs, grouping, plan)
    }),
];

fn compare(chain: &Chain, one: &[Module], other: &[Module]) -> Ordering {
    BY_BOTTLENECK(chain, one, other).then(BY_TIME(chain, one, other))
}

/// Who gets the core is decided by the bottleneck afterwards, then by the time, and only then as it should be.
fn give(chain: &Chain, current: &[Module]) -> Option<Vec<Module>> {
    let slowest = plan::slowest(&plan::loads(chain, current));
    let predecessor = slowest.checked_sub(1);
    let successor = Some(slowest + 1).filter(|&i| i < current.len());
    let takers = [Some(slowest), predecessor, successor]
        .into_iter()
        .flatten();
    let within = takers.filter(|&i| with_core(current, i)[i].within_limit(chain));
    let given = within.map(|i| with_core(current, i));
    given.min_by(|one, other| compare(chain, one, other))
}

/// Of the assignments of least bottleneck the answer is the first of those of least time.
fn walk(chain: &Chain, start: Vec<Module>) -> Vec<Module> {
    let visited = iter::successors(Some(start), |current| {
        let is_core_left = plan::cores(current) < chain.cores;
        is_core_left.then(|| greedy::give(chain, current)).flatten()
    });
    let best = visited.min_by(|one, other| compare(chain, one, other));
    best.expect("the start is among them")
}

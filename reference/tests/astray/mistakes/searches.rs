//! Searches that find a plan that keeps the rules, but not always the best one.

use std::cmp::Ordering;

use super::judges;
use reference::costs::Chain;
use reference::every::{ORDER, Order, each_plan, search_by};
use reference::plan::{self, Load, Module, RULES};

fn greatest(loads: &[Load]) -> Load {
    loads[plan::slowest(loads)]
}

/// The best plan by wrong bottlenecks.
fn with_bottlenecks(
    bottleneck: fn(&Chain, &[Module]) -> Load,
    chain: &Chain,
) -> Option<Vec<Module>> {
    let order = Order {
        bottleneck,
        ..ORDER
    };
    search_by(RULES, order, chain)
}

pub fn drops_the_rest(chain: &Chain) -> Option<Vec<Module>> {
    with_bottlenecks(
        |chain, plan| greatest(&judges::whole_loads(chain, plan)),
        chain,
    )
}

pub fn charges_sender(chain: &Chain) -> Option<Vec<Module>> {
    with_bottlenecks(
        |chain, plan| greatest(&judges::sender_loads(chain, plan)),
        chain,
    )
}

pub fn charges_receiver(chain: &Chain) -> Option<Vec<Module>> {
    with_bottlenecks(
        |chain, plan| greatest(&judges::receiver_loads(chain, plan)),
        chain,
    )
}

/// How two plans compare by something.
pub type Compare = fn(&Chain, &[Module], &[Module]) -> Ordering;

pub const BY_BOTTLENECK: Compare =
    |chain, one, other| plan::bottleneck(chain, one).compare(plan::bottleneck(chain, other));
pub const BY_CORES: Compare = |_, one, other| plan::cores(one).cmp(&plan::cores(other));
pub const BY_TIME: Compare =
    |chain, one, other| plan::block_time(chain, one).cmp(&plan::block_time(chain, other));

/// The first of these comparisons that tells two plans apart.
pub fn in_turn(by: &[Compare], chain: &Chain, one: &[Module], other: &[Module]) -> Ordering {
    let mut orders = by.iter().map(|by| by(chain, one, other));
    orders
        .find(|order| order.is_ne())
        .unwrap_or(Ordering::Equal)
}

/// The first plan in module order of those that pass and before which no other of them comes, by these comparisons in turn.
pub fn best_by(
    by: &[Compare],
    chain: &Chain,
    passes: impl Fn(&[Module]) -> bool,
) -> Option<Vec<Module>> {
    let mut best: Option<Vec<Module>> = None;
    each_plan(chain, &mut |rival| {
        let is_before = |best: &Vec<Module>| in_turn(by, chain, rival, best).is_lt();
        if passes(rival) && best.as_ref().is_none_or(is_before) {
            best = Some(rival.to_vec());
        }
    });
    best
}

/// The right comparisons.
const RIGHT: [Compare; 3] = [BY_BOTTLENECK, BY_CORES, BY_TIME];

/// The plan that comes first among those that pass.
pub fn best_that_passes(chain: &Chain, passes: impl Fn(&[Module]) -> bool) -> Option<Vec<Module>> {
    best_by(&RIGHT, chain, passes)
}

fn comes_before(chain: &Chain, rival: &[Module], best: &[Module]) -> bool {
    in_turn(&RIGHT, chain, rival, best).is_lt()
}

pub fn one_module(chain: &Chain) -> Option<Vec<Module>> {
    best_that_passes(chain, |plan| {
        plan.len() == 1 && plan::keeps_rules(chain, plan)
    })
}

/// Each module's p is the one with the least time to receive and execute; what it sends is only counted afterwards.
pub fn fixes_cores_early(chain: &Chain) -> Option<Vec<Module>> {
    best_that_passes(chain, |plan| {
        plan::keeps_rules(chain, plan) && (0..plan.len()).all(|i| is_quickest(chain, plan, i))
    })
}

/// Whether the i-th module, counted from 0, is at its quickest by what is known when it ends the plan.
fn is_quickest(chain: &Chain, plan: &[Module], i: usize) -> bool {
    let mut so_far = plan[..=i].to_vec();
    let time = plan::response(chain, &so_far, i);
    let left = chain.cores - plan::cores(&plan[..i]);
    (1..=left / plan[i].copies).all(|cores| {
        so_far[i].cores = cores;
        let may_be = so_far[i].memory_fits(chain) && so_far[i].within_limit(chain);
        !may_be || time <= plan::response(chain, &so_far, i)
    })
}

/// By covered tasks and used cores, the only plan that is kept.
type Kept = Vec<Vec<Option<Vec<Module>>>>;

/// For each task and count of cores only the best plan up to there is kept and continued.
pub fn forgets_last_cores(chain: &Chain) -> Option<Vec<Module>> {
    let mut kept: Kept = vec![vec![None; chain.cores + 1]; chain.tasks + 1];
    kept[0][0] = Some(Vec::new());
    for covered in 0..chain.tasks {
        for used in 0..=chain.cores {
            if let Some(plan) = kept[covered][used].clone() {
                continue_kept(chain, &mut kept, &plan);
            }
        }
    }
    let mut best: Option<Vec<Module>> = None;
    for rival in kept[chain.tasks].iter().flatten() {
        if best
            .as_ref()
            .is_none_or(|best| comes_before(chain, rival, best))
        {
            best = Some(rival.clone());
        }
    }
    best
}

fn continue_kept(chain: &Chain, kept: &mut Kept, plan: &[Module]) {
    let first = plan.last().map_or(1, |module| module.last + 1);
    let left = chain.cores - plan::cores(plan);
    for last in first..=chain.tasks {
        for copies in 1..=left {
            for cores in 1..=left / copies {
                let module = Module {
                    first,
                    last,
                    copies,
                    cores,
                };
                keep_better(chain, kept, [plan, &[module]].concat());
            }
        }
    }
}

/// By the bottleneck alone, since both have as many cores; of equals the first is kept, whatever its time.
fn keep_better(chain: &Chain, kept: &mut Kept, rival: Vec<Module>) {
    let covered = rival.last().map_or(0, |module| module.last);
    let former = &mut kept[covered][plan::cores(&rival)];
    let is_better = match former {
        None => true,
        Some(former) => BY_BOTTLENECK(chain, &rival, former).is_lt(),
    };
    if is_better && plan::keeps_rules(chain, &rival) {
        *former = Some(rival);
    }
}

/// The best plan by other comparisons.
pub fn best_in_turn(by: &[Compare], chain: &Chain) -> Option<Vec<Module>> {
    best_by(by, chain, |plan| plan::keeps_rules(chain, plan))
}

pub fn ignores_cores(chain: &Chain) -> Option<Vec<Module>> {
    best_in_turn(&[BY_BOTTLENECK, BY_TIME], chain)
}

/// The last plan in module order of those of least bottleneck, fewest cores and least time.
pub fn last_in_order(chain: &Chain) -> Option<Vec<Module>> {
    let later: Compare = |_, _, _| Ordering::Less;
    best_in_turn(&[BY_BOTTLENECK, BY_CORES, BY_TIME, later], chain)
}

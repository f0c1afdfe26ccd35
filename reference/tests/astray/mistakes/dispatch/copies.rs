//! Best plans by thresholds, as the library and the quick search find them, that take other copies than the fewest that suffice.

use crate::mistakes::{Mistake, in_best_plan};
use reference::costs::Chain;
use reference::every::{self, each_plan};
use reference::plan::{self, Module};
use reference::threshold::{GRAIN, TOP};

macro_rules! by_copies {
    ($what:literal, $copies:path) => {
        in_best_plan($what, |costs, plan, work| {
            let search = |chain: &Chain| search($copies, chain);
            every::best_plan_by(search, costs, plan, work)
        })
    };
}

pub const MISTAKES: [Mistake; 6] = [
    // "if its r is above 1": with the second copy a module may be slower than with one
    by_copies!("copies by bisection", by_bisection),
    by_copies!(
        "no copies where two are no better than one",
        unless_two_help
    ),
    by_copies!("D counts before one copy is tried", charged_first),
    by_copies!("copies without D, then tried with it", charged_last),
    // the division itself, whatever D is
    by_copies!("a copy more than suffice", one_more),
    by_copies!(
        "a copy more where the division leaves no rest",
        more_if_even
    ),
];

/// A module of a plan, by its response in one copy, and the threshold: no load, in its grain, may be above n.
#[derive(Clone, Copy)]
pub struct Asked {
    response: u64,
    dispatch: u64,
    most_copies: u64,
    n: u64,
}

impl Asked {
    fn suffice(&self, copies: u64) -> bool {
        let handed_out = if copies > 1 { self.dispatch } else { 0 };
        (self.response + handed_out) * GRAIN <= self.n * copies
    }

    /// The fewest of which each takes its share of a response within the threshold; none where no number of them does.
    fn sharing(&self, response: u64) -> Option<u64> {
        if response * GRAIN <= self.n {
            return Some(1);
        }
        (self.n > 0).then(|| (response * GRAIN).div_ceil(self.n))
    }
}

/// How many copies a module is given; none where it cannot have so many.
pub type Copies = fn(Asked) -> Option<u64>;

/// The right ones: one, or by one division.
pub fn fewest(asked: Asked) -> Option<u64> {
    if asked.suffice(1) {
        return Some(1);
    }
    asked.sharing(asked.response + asked.dispatch)
}

/// As if more copies than suffice sufficed too.
fn by_bisection(asked: Asked) -> Option<u64> {
    let (mut least, mut most) = (1, asked.most_copies);
    while least < most {
        let middle = (least + most) / 2;
        if asked.suffice(middle) {
            most = middle;
        } else {
            least = middle + 1;
        }
    }
    asked.suffice(least).then_some(least)
}

/// As if three were no better then either.
fn unless_two_help(asked: Asked) -> Option<u64> {
    let helps = asked.response + asked.dispatch < 2 * asked.response;
    fewest(asked).filter(|&copies| copies == 1 || helps)
}

fn charged_first(asked: Asked) -> Option<u64> {
    if asked.most_copies == 1 {
        return fewest(asked);
    }
    asked.sharing(asked.response + asked.dispatch)
}

fn charged_last(asked: Asked) -> Option<u64> {
    let copies = asked.sharing(asked.response);
    copies.filter(|&copies| asked.suffice(copies))
}

fn one_more(asked: Asked) -> Option<u64> {
    fewest(asked).map(|copies| if copies > 1 { copies + 1 } else { 1 })
}

/// The quotient rounded down, and one more.
fn more_if_even(asked: Asked) -> Option<u64> {
    if asked.suffice(1) {
        return Some(1);
    }
    let response = asked.response + asked.dispatch;
    (asked.n > 0).then(|| response * GRAIN / asked.n + 1)
}

/// All plans of one copy that keep the rules: what copies are added to.
fn of_one_copy(chain: &Chain) -> Vec<Vec<Module>> {
    let mut plans = Vec::new();
    each_plan(chain, &mut |plan| {
        let mut modules = plan.iter();
        if modules.all(|module| module.copies == 1) && plan::keeps_rules(chain, plan) {
            plans.push(plan.to_vec());
        }
    });
    plans
}

/// The plan with the copies that its modules are given at the threshold n, if it keeps the rules so.
fn in_copies(copies: Copies, chain: &Chain, plan: &[Module], n: u64) -> Option<Vec<Module>> {
    let mut given = plan.to_vec();
    for (i, module) in given.iter_mut().enumerate() {
        let is_replicable = module.replicable(chain);
        let most_copies = if is_replicable { chain.cores } else { 1 };
        let asked = Asked {
            response: plan::response(chain, plan, i).into(),
            dispatch: chain.dispatch.into(),
            most_copies: most_copies as u64,
            n,
        };
        let copies = copies(asked).filter(|&copies| copies <= asked.most_copies)?;
        module.copies = copies as usize;
    }
    plan::keeps_rules(chain, &given).then_some(given)
}

/// The best plan of those that are found at the least threshold at which some are, by bisection.
pub fn search(copies: Copies, chain: &Chain) -> Option<Vec<Module>> {
    let plans = of_one_copy(chain);
    let within = |n| {
        let given = plans
            .iter()
            .filter_map(|plan| in_copies(copies, chain, plan, n));
        given.collect::<Vec<_>>()
    };
    let (mut least, mut most) = (0, TOP);
    while least < most {
        let middle = least + (most - least) / 2;
        if within(middle).is_empty() {
            least = middle + 1;
        } else {
            most = middle;
        }
    }
    let found = within(least).into_iter();
    found.min_by_key(|plan| {
        let order = plan
            .iter()
            .map(|module| (module.last, module.copies, module.cores));
        let (cores, time) = (plan::cores(plan), plan::block_time(chain, plan));
        (cores, time, order.collect::<Vec<_>>())
    })
}

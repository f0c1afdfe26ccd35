//! Document 02, M-106, "Handing out to copies costs time": every D on the small example, on one task and on all small times of two
//! tasks; and what D decides in the files that are made.

use reference::cases::{constant, small_of_each, worked_example};
use reference::compare::{self, Both, Difference, Lent};
use reference::costs::{self, Chain, MOST_CORES};
use reference::every::{self, each_plan};
use reference::plan::{self, Module, same_split};
use reference::reach::of_one_core;
use reference::round;
use reference::services::{LIBRARY, QUICK_REFERENCE, REFERENCE};
use reference::tally::Tally;

/// All services on the small example with this D: Judge, the single-block time and a timetable on every plan.
fn check_example(chain: &Chain, seed: u64, tally: &mut Tally) -> Result<(), Difference> {
    let costs = costs::write(chain);
    let both = Both::on(&REFERENCE, &LIBRARY, &costs);
    let lent = Lent::enough(seed);
    let mut plans = Vec::new();
    each_plan(chain, &mut |plan| plans.push(plan::encode(plan)));
    for plan in plans {
        round::judged(&both, &plan, tally)?;
    }
    compare::best_plan(&both, lent)?;
    for first in 0..=2 {
        compare::greedy_plan(&both, first.into(), lent)?;
        compare::reach(&both, first)?;
    }
    compare::costs_as_lent(&both)
}

/// "The task byte of the kind 1 record … is that cost D, 0 to 255." The second planner's reader and all services of the library go
/// by it: two copies of both tasks take 18 and D, one 11 or 18.
#[test]
fn every_d_of_the_small_example() {
    let mut tally = Tally::default();
    for dispatch in 0..=255 {
        let chain = Chain {
            dispatch,
            ..worked_example()
        };
        let costs = costs::write(&chain);
        assert_eq!(costs::read(&costs), Ok(chain.clone()));
        for (copies, cores, response) in [(2, 2, 18 + u32::from(dispatch)), (1, 2, 18), (1, 4, 11)]
        {
            let plan = plan::encode(&[Module {
                copies,
                cores,
                ..of_one_core(1, 2)
            }]);
            assert_eq!((LIBRARY.judge)(&costs, &plan).response, response);
            assert_eq!((LIBRARY.block_time)(&costs, &plan).count, response);
        }
        // 9 and half of D are below 11
        let (answer, _) = LIBRARY.best_filled(&costs);
        assert_eq!(
            answer.copies,
            if dispatch < 4 { 2 } else { 1 },
            "D = {dispatch}"
        );
        if let Err(difference) = check_example(&chain, dispatch.into(), &mut tally) {
            compare::fail(dispatch.into(), &costs, &difference);
        }
    }
    tally.print("the small example with every D");
    tally.assert_at_least("judge: D in the slowest's response", 500);
    tally.assert_at_least("judge: a D, but not in the slowest's response", 1_500);
}

/// A task that takes as long on any cores, with every D: it has all copies that the board has cores for, or one where these are no
/// better. How many cores a copy has makes no difference, so that it has one.
#[test]
fn one_task_with_every_d() {
    let mut tally = Tally::default();
    for cores in 1..=MOST_CORES {
        for time in [0, 1, 2, 10, 100] {
            for dispatch in 0..=255 {
                let chain = Chain {
                    dispatch,
                    ..constant(1, cores, time)
                };
                let costs = costs::write(&chain);
                let in_all = time + u32::from(dispatch);
                let is_better = cores > 1 && in_all < time * cores as u32;
                let copies = if is_better { cores } else { 1 };
                let due = plan::encode(&[Module {
                    copies,
                    ..of_one_core(1, 1)
                }]);
                for services in [LIBRARY, REFERENCE, QUICK_REFERENCE] {
                    let (answer, plan) = services.best_filled(&costs);
                    let response = if is_better { in_all } else { time };
                    assert_eq!(plan, due, "{time} on {cores} cores, D = {dispatch}");
                    assert_eq!(answer.response, response);
                }
                tally.add(if is_better { "all copies" } else { "one copy" });
            }
        }
    }
    tally.print("one task with every D");
    tally.assert_at_least("all copies", 5_000);
    tally.assert_at_least("one copy", 20_000);
}

/// The times of two tasks on two cores that some plan of these has: executions, the internal transfer, and the external one at one
/// core each. The n-th of all that can be made of these ticks.
fn nth_of_two_tasks(n: usize, ticks: &[u32]) -> Chain {
    let mut chain = constant(2, 2, 0);
    let mut rest = n;
    let [executions, internals, externals] = chain.times_mut();
    let times = executions.iter_mut().chain(internals);
    for time in times.chain(externals.first_mut()) {
        *time = ticks[rest % ticks.len()];
        rest /= ticks.len();
    }
    chain
}

#[test]
fn all_small_times_of_two_tasks() {
    let mut tally = Tally::default();
    let ticks = [0, 1, 2, 5];
    for n in 0..ticks.len().pow(7) {
        for dispatch in [0, 1, 2, 3, 6] {
            let chain = Chain {
                dispatch,
                ..nth_of_two_tasks(n, &ticks)
            };
            let costs = costs::write(&chain);
            let due = REFERENCE.best_filled(&costs);
            assert_eq!(LIBRARY.best_filled(&costs), due, "{chain:?}");
            assert_eq!(QUICK_REFERENCE.best_filled(&costs), due, "{chain:?}");
            let is_copied = plan::used(&due.1).iter().any(|module| module.copies > 1);
            let copies = if is_copied { "copies" } else { "none" };
            tally.add(format!("D = {dispatch}: {copies}"));
        }
    }
    tally.print("all small times of two tasks, with copies and without");
    for (what, least) in [
        ("D = 0: copies", 9_000),
        ("D = 1: copies", 7_000),
        ("D = 2: copies", 5_000),
        ("D = 3: copies", 3_000),
        ("D = 6: copies", 600),
        ("D = 6: none", 15_000),
    ] {
        tally.assert_at_least(what, least);
    }
}

fn copied(plan: &[Module]) -> usize {
    plan.iter().filter(|module| module.copies > 1).count()
}

/// Whether some module of the one has, on the same cores, more copies than one of the same tasks in the other.
fn has_more(plan: &[Module], other: &[Module]) -> bool {
    plan.iter().any(|module| {
        let mut others = other.iter();
        others.any(|other| {
            module.copies > other.copies
                && Module {
                    copies: other.copies,
                    ..*module
                } == *other
        })
    })
}

/// What D makes of the best plan: each thing once.
fn met(chain: &Chain) -> Vec<&'static str> {
    if chain.dispatch == 0 {
        return vec!["no D"];
    }
    let without = Chain {
        dispatch: 0,
        ..chain.clone()
    };
    let plans = every::search(chain).zip(every::search(&without));
    let Some((best, former)) = plans else {
        return vec!["no plan"];
    };
    let (cores, former_cores) = (plan::cores(&best), plan::cores(&former));
    let particulars = [
        (best == former && copied(&best) == 0, "none, without copies"),
        (best == former && copied(&best) > 0, "none, with copies"),
        (copied(&best) == 0 && copied(&former) > 0, "no copies"),
        (has_more(&best, &former), "more copies of a module"),
        (has_more(&former, &best), "fewer copies of a module"),
        (!same_split(&best, &former), "another split"),
        (cores > former_cores, "more cores"),
        (cores < former_cores, "fewer cores"),
        (copied(&best) > 1, "several modules with copies"),
    ];
    let met = particulars.iter().filter(|(is_so, _)| *is_so);
    met.map(|&(_, what)| what).collect()
}

/// In how many of the small files of a kind each thing is to be met, of a thousand.
const FLOORS: [(&str, usize); 20] = [
    ("Dispatch, none, without copies", 150),
    ("Dispatch, none, with copies", 400),
    ("Dispatch, no copies", 210),
    ("Dispatch, more copies of a module", 80),
    ("Dispatch, fewer copies of a module", 40),
    ("Dispatch, another split", 250),
    ("Dispatch, more cores", 65),
    ("Dispatch, fewer cores", 45),
    ("Dispatch, several modules with copies", 120),
    ("Random, no copies", 90),
    ("Random, fewer copies of a module", 35),
    ("Random, several modules with copies", 30),
    ("Ties, no copies", 50),
    ("Ties, another split", 40),
    ("NotMonotone, no copies", 55),
    ("Realistic, no copies", 55),
    ("Hidden, no copies", 50),
    ("BlockTimes, more copies of a module", 15),
    ("TightLimits, no copies", 40),
    ("Shares, no copies", 30),
];

#[test]
fn what_d_decides_in_small_files() {
    let mut tally = Tally::default();
    for case in small_of_each(1_000) {
        for what in met(&case.chain()) {
            tally.add(format!("{:?}, {what}", case.kind));
        }
    }
    tally.print("best plans of small files, and what D makes of them");
    for (what, least) in FLOORS {
        tally.assert_at_least(what, least);
    }
}

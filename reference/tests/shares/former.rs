//! How often the files that are made tell the test of memory from the one before, "needs added up": by the second planner, with
//! both tests.

use super::{large_files, module};
use reference::cases::small_of_each;
use reference::costs::Chain;
use reference::every;
use reference::plan;
use reference::reach;
use reference::round::memory::{self, FORMER, added_up};
use reference::round::reaches;
use reference::services::QUICK_REFERENCE;
use reference::tally::Tally;

/// How the best plan is another than by needs added up; it is never a better one.
fn best_plan(chain: &Chain) -> &'static str {
    let former = every::search_by(FORMER, every::ORDER, chain);
    match (former, every::search(chain)) {
        (None, None) => "none, nor before",
        (None, Some(_)) => panic!("a plan where there was none"),
        (Some(_), None) => "none, one before",
        (Some(former), Some(now)) if former == now => "the same",
        (Some(former), Some(now)) => {
            let [former, now] = [former, now].map(|plan| plan::bottleneck(chain, &plan));
            assert!(!now.is_less(former), "a better plan");
            "another"
        }
    }
}

/// What is met in a file: each thing once.
fn met(chain: &Chain) -> Tally {
    let mut tally = Tally::default();
    let tasks = 0..=chain.tasks;
    let reached: Vec<usize> = tasks.map(|first| reach::reach_of(chain, first)).collect();
    reaches::count(chain, &reached, &mut tally);
    for grouping in 0..1 << (chain.tasks - 1) {
        memory::count_start(chain, grouping, &mut tally);
    }
    let best = best_plan(chain);
    tally.add(format!("best plan: {best}"));
    if reached[1] < chain.tasks && !best.starts_with("none") {
        tally.add("best plan: one, where task 1's reach is not k");
    }
    tally
}

/// In how many of the small files of a kind each thing is to be met, of a thousand.
const FLOORS: [(&str, usize); 20] = [
    ("TightMemory, best plan: another", 19),
    (
        "TightMemory, best plan: one, where task 1's reach is not k",
        80,
    ),
    ("TightMemory, greedy plan: more cores at the start", 17),
    (
        "TightMemory, greedy plan: refusal 11, not by needs added up",
        90,
    ),
    ("NoPlan, best plan: none, nor before", 320),
    ("NoPlan, best plan: none, one before", 150),
    (
        "NoPlan, greedy plan: refusal 11, not by needs added up",
        160,
    ),
    ("NoPlan, reach: shorter than by needs added up", 180),
    (
        "TightLimits, greedy plan: refusal 11 by a limit, not by needs added up",
        11,
    ),
    (
        "TightLimits, greedy plan: more cores at the start, up to a limit",
        6,
    ),
    ("Reaches, best plan: none, one before", 20),
    ("Reaches, best plan: one, where task 1's reach is not k", 14),
    ("Reaches, reach: shorter than by needs added up", 60),
    ("Shares, best plan: another", 70),
    ("Shares, best plan: one, where task 1's reach is not k", 80),
    ("Shares, greedy plan: more cores at the start", 60),
    ("Shares, greedy plan: refusal 11, not by needs added up", 70),
    ("Shares, reach: 0", 20),
    ("Shares, reach: shorter than by needs added up", 75),
    ("Shares, reach: with the next task it fits at no count", 60),
];

#[test]
fn small_files_tell_the_tests_apart() {
    let mut tally = Tally::default();
    for case in small_of_each(1_000) {
        for what in met(&case.chain()).names() {
            tally.add(format!("{:?}, {what}", case.kind));
        }
    }
    tally.print("small files, by needs added up and by shares");
    for (what, least) in FLOORS {
        tally.assert_at_least(what, least);
    }
    let planned = ["the same", "another"].map(|what| format!("NoPlan, best plan: {what}"));
    let planned: usize = planned.iter().map(|what| tally.count(what)).sum();
    assert!(planned <= 60, "NoPlan, but a plan: {planned} times");
}

/// Whether all tasks fit in one module on all cores, and whether there is a plan.
#[test]
fn large_files_tell_the_tests_apart() {
    let mut tally = Tally::default();
    for case in large_files(12) {
        let chain = case.chain();
        let whole = module(1, chain.tasks, chain.cores);
        let fits = match (added_up(&whole, &chain), whole.memory_fits(&chain)) {
            (true, true) => "as before",
            (true, false) => "no more",
            (false, _) => "nor before",
        };
        let plan = if QUICK_REFERENCE.has_plan(&case.costs) {
            "a plan"
        } else {
            "no plan"
        };
        tally.add(format!("{:?}, {fits}: {plan}", case.kind));
    }
    tally.print("12 tasks on 32 cores: all tasks in one module, and a plan");
    for (what, least) in [
        ("NoPlan, no more: no plan", 2),
        ("NoPlan, nor before: no plan", 4),
        ("Reaches, nor before: no plan", 3),
        ("Shares, as before: a plan", 12),
        ("Shares, no more: a plan", 8),
        ("Shares, nor before: no plan", 3),
        ("TightMemory, as before: a plan", 3),
        ("TightMemory, no more: a plan", 2),
    ] {
        tally.assert_at_least(what, least);
    }
}

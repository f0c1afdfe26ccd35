//! Files that are too large for trying all plans: the library's plan is that of the same search in Rust, byte for byte, and
//! its bottleneck, cores and single-block time are those of the dynamic programs.

use reference::cases::{self, Case, KINDS, Kind};
use reference::compare::{self, Both, Difference, Lent};
use reference::costs::{self, MOST_CORES, MOST_TASKS, MOST_VALUE};
use reference::random::Random;
use reference::round;
use reference::services::{LIBRARY, QUICK_REFERENCE};
use reference::tally::Tally;
use reference::threshold::{self, JUMPS, MOST_TRIES};

/// Best plan by both searches and both dynamic programs, the greedy plan with some groupings, Judge, the single-block time and a
/// timetable on these plans, and the reaches.
fn check(case: &Case, tally: &mut Tally) -> Result<(), Difference> {
    let both = Both::on(&QUICK_REFERENCE, &LIBRARY, &case.costs);
    let lent = Lent::enough(case.seed);
    let (answer, plan) = compare::best_plan(&both, lent)?;
    round::count("best plan", &both, answer, tally);
    let (_, time) = round::judged(&both, &plan, tally)?;
    round::dynamic::expect_least(&case.chain(), answer, time)?;
    let mut random = Random::new(case.seed);
    for _ in 0..20 {
        let grouping = random.word() as u16 & ((1 << (case.costs[3] - 1)) - 1);
        let grouping = grouping & random.word() as u16;
        let (answer, plan) = compare::greedy_plan(&both, grouping, lent)?;
        round::count("greedy plan", &both, answer, tally);
        round::judged(&both, &plan, tally)?;
    }
    round::reaches::all(&both, case, &mut random, tally)?;
    compare::costs_as_lent(&both)
}

fn check_all(title: &str, files: impl Iterator<Item = Case>) -> Tally {
    let mut tally = Tally::default();
    for case in files {
        tally.add(format!("kind {:?}", case.kind));
        if let Err(difference) = check(&case, &mut tally) {
            compare::fail(case.seed, &case.costs, &difference);
        }
    }
    tally.print(title);
    tally
}

#[test]
fn most_tasks_and_cores() {
    let seeds = 0..4;
    let files =
        seeds.flat_map(|seed| KINDS.map(|kind| cases::sized(kind, MOST_TASKS, MOST_CORES, seed)));
    let tally = check_all("12 tasks, 32 cores", files);
    tally.assert_at_least("best plan: figures", 32);
    tally.assert_at_least("best plan: refusal 9", 4);
    tally.assert_at_least("best plan: several modules", 10);
    tally.assert_at_least("reach: shorter than by needs added up", 12);
}

/// Searches that the guesses do not end: their last tries halve what is left.
#[test]
fn more_tries_than_are_guessed() {
    let files = [
        (Kind::NotReplicable, 163),
        (Kind::Hidden, 1_262),
        (Kind::Limits, 658),
    ]
    .map(|(kind, seed)| cases::sized(kind, MOST_TASKS, MOST_CORES, seed));
    for case in &files {
        let tries = threshold::least_threshold(&case.costs).tries;
        assert!(JUMPS < tries && tries <= MOST_TRIES, "{tries} tries");
    }
    check_all("12 tasks, 32 cores, many tries", files.into_iter());
}

/// All times equal; in the last four chains with the greatest D (document 02, M-106), in the very last of which a core holds one task
/// only, and a block takes as long as it can in a best plan.
#[test]
fn greatest_and_least_times() {
    let times = [0, 1, MOST_VALUE, 0, 1, MOST_VALUE, MOST_VALUE];
    let mut chains = times.map(|time| cases::constant(MOST_TASKS, MOST_CORES, time));
    chains[1].flags[5] = false;
    chains[2].flags.fill(false);
    chains[3..]
        .iter_mut()
        .for_each(|chain| chain.dispatch = 255);
    chains[6].needs.fill(1);
    let files = chains.iter().map(|chain| Case {
        seed: 0,
        kind: Kind::Ties,
        costs: costs::write(chain),
    });
    check_all("12 tasks, 32 cores, all times equal", files);
}

#[test]
fn sizes_between() {
    let files = (0..17 * KINDS.len() as u64).map(|seed| {
        let mut random = Random::new(!seed);
        let (tasks, cores) = (random.within(4, 12), random.within(8, 20));
        let kind = KINDS[seed as usize % KINDS.len()];
        cases::sized(kind, tasks, cores, seed)
    });
    let tally = check_all("4 to 12 tasks, 8 to 20 cores", files);
    for (what, least) in [
        ("best plan: figures", 150),
        ("best plan: several modules", 60),
        ("best plan: refusal 9", 20),
        ("reach: 0", 8),
        ("reach: the first task itself", 7),
        ("reach: in the middle", 16),
        ("reach: one short of k", 12),
        ("reach: k", 800),
        ("reach: shorter than by needs added up", 60),
        ("reach: with the next task it fits at no count", 40),
    ] {
        tally.assert_at_least(what, least);
    }
}

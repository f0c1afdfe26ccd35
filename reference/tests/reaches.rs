//! Document 02, M-102: "a module needs at most P cores exactly if it ends within its reach", by M-103's test of memory. The
//! reaches are the library's; what needs at most P cores, the second planner says, and the library's Judge. Then where reaches
//! end in the files that are made.

use reference::answer::{Answer, Filled};
use reference::cases::{self, Case, KINDS, Kind};
use reference::costs::{MOST_CORES, MOST_TASKS};
use reference::plan::Module;
use reference::reach;
use reference::round;
use reference::services::{LIBRARY, QUICK_REFERENCE};
use reference::tally::Tally;

/// Files of the most tasks and cores: one of each kind, and forty more of the one that is made for this.
fn large_files() -> impl Iterator<Item = Case> {
    let of_each = KINDS.map(|kind| (kind, 0)).into_iter();
    let more = (1..=40).map(|seed| (Kind::Reaches, seed));
    let sized = |(kind, seed)| cases::sized(kind, MOST_TASKS, MOST_CORES, seed);
    of_each.chain(more).map(sized)
}

/// The library's reach of a first task: one that the module can end with, or 0.
fn reach_of(case: &Case, first: usize) -> usize {
    let answer = (LIBRARY.reach)(&case.costs, first as u8);
    let due = Filled::counted(answer.count);
    assert_eq!(answer, due, "seed {}, task {first}", case.seed);
    let (reach, tasks) = (answer.count as usize, case.costs[3].into());
    let is_last_or_none = reach == 0 || (first..=tasks).contains(&reach);
    assert!(is_last_or_none, "seed {}, task {first}: {reach}", case.seed);
    reach
}

/// The reach of 0, and then those of the chain's tasks.
fn reaches(case: &Case) -> Vec<usize> {
    let tasks = case.costs[3].into();
    (0..=tasks).map(|first| reach_of(case, first)).collect()
}

/// All modules of the chain, on one core, with whether they end within their reach.
fn modules(case: &Case) -> Vec<(Module, bool)> {
    let reaches = reaches(case);
    let tasks = reaches.len() - 1;
    let of_first = |first: usize| {
        let reach = reaches[first];
        (first..=tasks).map(move |last| (reach::of_one_core(first, last), last <= reach))
    };
    (1..=tasks).flat_map(of_first).collect()
}

/// In both directions, by the fewest cores that the module's memory allows; and 0 for whatever is no task of the chain.
fn check_fewest_cores(case: &Case, tally: &mut Tally) {
    let (chain, seed) = (case.chain(), case.seed);
    for (module, is_within) in modules(case) {
        let needs_at_most_all = reach::fits_board(&chain, module);
        assert_eq!(is_within, needs_at_most_all, "seed {seed}, {module:?}");
        tally.add(if is_within { "within" } else { "beyond" });
    }
    for first in (0..=255).filter(|first| !(1..=chain.tasks).contains(first)) {
        assert_eq!(reach_of(case, first), 0, "seed {seed}, task {first}");
    }
}

#[test]
fn fewest_cores_of_small_files() {
    let mut tally = Tally::default();
    cases::small_of_each(1_000).for_each(|case| check_fewest_cores(&case, &mut tally));
    tally.print("modules of small files");
    tally.assert_at_least("within", 40_000);
    tally.assert_at_least("beyond", 2_400);
}

#[test]
fn fewest_cores_of_large_files() {
    let mut tally = Tally::default();
    large_files().for_each(|case| check_fewest_cores(&case, &mut tally));
    tally.print("modules of 12 tasks on 32 cores");
    tally.assert_at_least("within", 1_200);
    tally.assert_at_least("beyond", 800);
}

/// The library's Judge on a plan that has the module, in one copy of so many cores, among modules of a task each.
fn judged(case: &Case, module: Module, cores: usize) -> Answer {
    let module = Module { cores, ..module };
    round::memory::judged_among_single_tasks(LIBRARY.judge, &case.costs, module)
}

/// In both directions, by refusal 14. Beyond its reach a module is refused with it, at its place, at each of these counts of
/// cores; within its reach it is not, on all cores: only limits, or the number of cores, are still at fault.
fn check_judge(case: &Case, some_cores: &[usize], tally: &mut Tally) {
    let (all, seed) = (case.costs[2].into(), case.seed);
    for (module, is_within) in modules(case) {
        if is_within {
            let refusal = judged(case, module, all).refusal;
            assert!(matches!(refusal, 0 | 15 | 16), "seed {seed}, {module:?}");
            tally.add(format!("within: refusal {refusal}"));
            continue;
        }
        for &cores in some_cores.iter().filter(|&&cores| cores <= all) {
            let answer = judged(case, module, cores);
            // the modules before it have a task each
            let due = (14, module.first as u32);
            let found = (answer.refusal, answer.place);
            assert_eq!(found, due, "seed {seed}, {module:?}, {cores} cores");
        }
        tally.add("beyond: refusal 14");
    }
}

/// What Judge is to answer, each so often at least.
fn assert_judged(tally: &Tally, [figures, cores, limit, memory]: [usize; 4]) {
    tally.assert_at_least("within: refusal 0", figures);
    tally.assert_at_least("within: refusal 15", cores);
    tally.assert_at_least("within: refusal 16", limit);
    tally.assert_at_least("beyond: refusal 14", memory);
}

#[test]
fn judged_modules_of_small_files() {
    let mut tally = Tally::default();
    let every: Vec<usize> = (1..=MOST_CORES).collect();
    cases::small_of_each(1_000).for_each(|case| check_judge(&case, &every, &mut tally));
    tally.print("modules of small files, judged");
    assert_judged(&tally, [4_000, 25_000, 10_000, 2_400]);
}

#[test]
fn judged_modules_of_large_files() {
    let mut tally = Tally::default();
    let some = [1, 2, 16, MOST_CORES - 1, MOST_CORES];
    large_files().for_each(|case| check_judge(&case, &some, &mut tally));
    tally.print("modules of 12 tasks on 32 cores, judged");
    assert_judged(&tally, [5, 1_000, 200, 800]);
}

/// Counts where the reaches of files end that are made for it, and whether these have plans.
fn count_ends(files: impl Iterator<Item = Case>) -> Tally {
    let mut tally = Tally::default();
    for case in files.filter(|case| case.kind == Kind::Reaches) {
        round::reaches::count(&case.chain(), &reaches(&case), &mut tally);
        tally.add(if QUICK_REFERENCE.has_plan(&case.costs) {
            "a plan"
        } else {
            "no plan"
        });
    }
    tally
}

#[test]
fn reaches_end_everywhere_in_small_files() {
    let tally = count_ends(cases::small_of_each(1_000));
    tally.print("where reaches end in small files");
    for (what, least) in [
        ("a plan", 180),
        ("no plan", 340),
        ("reach: 0", 230),
        ("reach: the first task itself", 250),
        ("reach: in the middle", 70),
        ("reach: one short of k", 130),
        ("reach: k", 850),
        ("reach: 0 after a positive one", 100),
        ("reach: that of the task before", 560),
        ("reach: all of the board", 500),
        ("reach: a KiB short for the next task", 460),
        ("reach: shorter than by needs added up", 75),
        ("reach: with the next task it fits at no count", 24),
        ("reach: begins with a need of 0", 120),
        ("reach: ends with a need of 0", 120),
        ("reach: needs of 0 only", 260),
        ("reach: over a limit", 35),
        ("reach: not replicable", 140),
    ] {
        tally.assert_at_least(what, least);
    }
}

#[test]
fn reaches_end_everywhere_in_large_files() {
    let tally = count_ends(large_files());
    tally.print("where reaches end with 12 tasks on 32 cores");
    for (what, least) in [
        ("a plan", 4),
        ("no plan", 20),
        ("reach: 0", 25),
        ("reach: the first task itself", 47),
        ("reach: in the middle", 60),
        ("reach: one short of k", 18),
        ("reach: k", 100),
        ("reach: shorter than by needs added up", 18),
    ] {
        tally.assert_at_least(what, least);
    }
}

//! Modules at all counts of cores, by the library's Judge and the second planner, and what follows for fewer tasks and more cores.

use std::collections::BTreeMap;

use super::{large_files, module};
use reference::cases::{Case, small_of_each};
use reference::costs::{Chain, MOST_CORES};
use reference::plan::Module;
use reference::round::memory::{added_up, fits_nowhere, judged_among_single_tasks};
use reference::services::LIBRARY;
use reference::tally::Tally;

/// Whether the module fits by the library's Judge: all but refusal 14 comes from another test, and 14 has the module's place. The
/// second planner says the same.
fn fits(case: &Case, chain: &Chain, module: Module) -> bool {
    let seed = case.seed;
    let answer = judged_among_single_tasks(LIBRARY.judge, &case.costs, module);
    let fits = answer.refusal != 14;
    // the modules before it have a task each
    let has_place = fits || answer.place == module.first as u32;
    assert!(has_place, "seed {seed}, {module:?}: {answer:?}");
    assert_eq!(fits, module.memory_fits(chain), "seed {seed}, {module:?}");
    fits
}

/// By first and last task, whether the module fits at each of some counts of cores.
type Fits = BTreeMap<(usize, usize), Vec<bool>>;

fn all_modules(case: &Case, counts: &[usize], tally: &mut Tally) -> Fits {
    let chain = case.chain();
    let lasts = |first| (first..=chain.tasks).map(move |last| (first, last));
    let mut all = Fits::new();
    for (first, last) in (1..=chain.tasks).flat_map(lasts) {
        let modules = counts.iter().map(|&cores| module(first, last, cores));
        let at_counts = modules.map(|module| {
            let fits = fits(case, &chain, module);
            count(&chain, module, fits, tally);
            fits
        });
        all.insert((first, last), at_counts.collect());
    }
    all
}

/// Fewer tasks at either end never make a module that fits unfit, and nor do more cores.
fn check(case: &Case, counts: &[usize], tally: &mut Tally) {
    let all = all_modules(case, counts, tally);
    for (&(first, last), longer) in &all {
        let name = format!("seed {}, tasks {first} to {last}", case.seed);
        // false goes before true
        assert!(longer.is_sorted(), "{name}: more cores");
        let parts = [(first + 1, last), (first, last - 1)];
        for part in parts.iter().filter_map(|part| all.get(part)) {
            let stay = longer.iter().zip(part).all(|(longer, part)| longer <= part);
            assert!(stay, "{name}: fewer tasks");
        }
    }
}

/// Counts what is particular about a module at its cores, on the board's and above them.
fn count(chain: &Chain, module: Module, fits: bool, tally: &mut Tally) {
    let is_new = !fits && added_up(&module, chain);
    let (shares, capacity) = (module.shares(chain), u64::from(chain.capacity));
    let divides = |task| chain.need(task).is_multiple_of(module.cores as u32);
    let is_even = (module.first..=module.last).all(divides);
    let is_above = module.cores > chain.cores;
    let cores = if is_above {
        "more cores"
    } else {
        "the board's"
    };
    for (is_so, what) in [
        (fits, "fits"),
        (!fits, "does not fit"),
        (is_new, "not as before"),
        (is_new && capacity >= 1_000, "not as before, from 1,000 on"),
        (
            is_new && capacity >= 100_000,
            "not as before, from 100,000 on",
        ),
        (is_new && shares == capacity + 1, "not as before, by a KiB"),
        (fits_nowhere(&module, chain), "fits at no count"),
        (shares == capacity && is_even, "just fits without a rest"),
        (shares == capacity && !is_even, "just fits with a rest"),
    ] {
        if is_so {
            tally.add(format!("{cores}: {what}"));
        }
    }
}

#[test]
fn modules_of_small_files() {
    let mut tally = Tally::default();
    let every: Vec<usize> = (1..=255).collect();
    small_of_each(60).for_each(|case| check(&case, &every, &mut tally));
    tally.print("modules of small files at 1 to 255 cores");
    for (what, least) in [
        ("the board's: does not fit", 2_900),
        ("the board's: not as before", 120),
        ("the board's: not as before, from 1,000 on", 18),
        ("the board's: not as before, from 100,000 on", 7),
        ("the board's: not as before, by a KiB", 110),
        ("the board's: fits at no count", 150),
        ("the board's: just fits without a rest", 200),
        ("the board's: just fits with a rest", 300),
        ("more cores: does not fit", 7_000),
        ("more cores: not as before, by a KiB", 4_000),
        ("more cores: not as before, from 100,000 on", 4),
        ("more cores: just fits without a rest", 5),
        ("more cores: just fits with a rest", 13_000),
    ] {
        tally.assert_at_least(what, least);
    }
}

#[test]
fn modules_of_large_files() {
    let mut tally = Tally::default();
    let some: Vec<usize> = (1..=MOST_CORES + 1).chain([64, 128, 254, 255]).collect();
    large_files(5).for_each(|case| check(&case, &some, &mut tally));
    tally.print("modules of 12 tasks on 32 cores, at 37 counts of cores");
    for (what, least) in [
        ("the board's: does not fit", 17_000),
        ("the board's: not as before", 3_500),
        ("the board's: not as before, from 1,000 on", 22),
        ("the board's: not as before, from 100,000 on", 14),
        ("the board's: not as before, by a KiB", 1_100),
        ("the board's: fits at no count", 5_500),
        ("the board's: just fits without a rest", 120),
        ("the board's: just fits with a rest", 1_900),
        ("more cores: does not fit", 1_000),
        ("more cores: not as before, by a KiB", 230),
        ("more cores: just fits with a rest", 340),
    ] {
        tally.assert_at_least(what, least);
    }
}

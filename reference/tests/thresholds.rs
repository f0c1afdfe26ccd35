//! The threshold search in Rust: its least threshold is that of the least bottleneck of all plans, and few are tried.

use reference::cases::{self, Case, KINDS, Kind};
use reference::costs::{MOST_CORES, MOST_TASKS};
use reference::plan::{self, Load};
use reference::random::Random;
use reference::services::QUICK_REFERENCE;
use reference::threshold::{self, GRAIN, MOST_TRIES, TOP};
use reference::{every, paper};

fn is_within(load: Load, n: u64) -> bool {
    u64::from(load.response) * GRAIN <= n * u64::from(load.copies)
}

/// The tries of a search, not too many. By the least bottleneck of all plans, some plan is within the threshold that it finds, and none
/// within one less; or there is no plan, and it finds none.
fn tries(case: &Case, bottleneck: Option<Load>) -> usize {
    let found = threshold::least_threshold(&case.costs);
    let n = found.threshold;
    let is_least = match bottleneck {
        None => n == TOP + 1,
        Some(load) => is_within(load, n) && (n == 0 || !is_within(load, n - 1)),
    };
    let file = format!("{:?}, seed {}", case.kind, case.seed);
    assert!(is_least, "{file}: {found:?}, {bottleneck:?}");
    assert!(found.tries <= MOST_TRIES, "{file}: {found:?}");
    found.tries
}

/// How many tries there were on average and at most, kind by kind.
fn print(title: &str, tries: &[(Kind, usize)]) {
    println!("{title}");
    for kind in KINDS {
        let of_kind = tries.iter().filter(|(other, _)| *other == kind);
        let counts: Vec<usize> = of_kind.map(|(_, tries)| *tries).collect();
        let average = counts.iter().sum::<usize>() as f64 / counts.len() as f64;
        let most = counts.iter().max().expect("files of each kind");
        println!("{average:>9.1} tries, {most:>2} at most  {kind:?}");
    }
}

/// By trying all plans, which finds the same plan, too.
#[test]
fn least_thresholds_of_small_files() {
    let mut all_tries = Vec::new();
    for case in cases::small_of_each(500) {
        let chain = case.chain();
        let best = every::search(&chain);
        let (answer, bytes) = QUICK_REFERENCE.best_filled(&case.costs);
        match &best {
            None => assert_eq!(answer.refusal, 9, "seed {}", case.seed),
            Some(best) => {
                assert_eq!(answer, plan::figures(&chain, best), "seed {}", case.seed);
                assert_eq!(bytes, plan::encode(best), "seed {}", case.seed);
            }
        }
        let bottleneck = best.map(|best| plan::bottleneck(&chain, &best));
        all_tries.push((case.kind, tries(&case, bottleneck)));
    }
    print("small files", &all_tries);
}

/// By the dynamic program, on the largest board and others.
#[test]
fn least_thresholds_of_large_files() {
    let largest = (0..45).map(|seed| (seed, MOST_TASKS, MOST_CORES));
    let between = (45..450).map(|seed| {
        let mut random = Random::new(!seed);
        (seed, random.within(4, 12), random.within(8, 20))
    });
    for (title, sizes) in [
        ("12 tasks, 32 cores", largest.collect::<Vec<_>>()),
        ("4 to 12 tasks, 8 to 20 cores", between.collect()),
    ] {
        let mut all_tries = Vec::new();
        for (seed, tasks, cores) in sizes {
            let kind = KINDS[seed as usize % KINDS.len()];
            let case = cases::sized(kind, tasks, cores, seed);
            let bottleneck = paper::least_bottleneck(&case.chain());
            all_tries.push((kind, tries(&case, bottleneck)));
        }
        print(title, &all_tries);
    }
}

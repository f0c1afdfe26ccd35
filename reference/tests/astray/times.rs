//! Wrong single-block times in the ties of Best plan (document 02, M-104) lead to plans that take longer.

use super::mistakes::times;
use reference::cases::{Case, Kind, small_of_each};
use reference::costs::Chain;
use reference::every;
use reference::plan::{self, Module};

/// Small files that are made for such ties, with the best plan.
fn planned_files() -> Vec<(Case, Chain, Vec<Module>)> {
    let files = small_of_each(1_000).filter(|case| case.kind == Kind::BlockTimes);
    let planned = files.filter_map(|case| {
        let chain = case.chain();
        let best = every::search(&chain)?;
        Some((case, chain, best))
    });
    planned.collect()
}

/// In how many files, of a thousand, each is to show at least.
const FLOOR: usize = 15;

/// Files show each with a plan of the fewest cores that takes longer than the best one, and not only with another that takes as
/// long.
#[test]
fn wrong_times_lead_to_longer_times() {
    let files = planned_files();
    for mistake in times::in_ties() {
        let takes_longer = |(case, chain, best): &&(Case, Chain, Vec<Module>)| {
            let (_, bytes) = mistake.services.best_filled(&case.costs);
            let found = plan::used(&bytes);
            assert_eq!(plan::cores(&found), plan::cores(best));
            plan::block_time(chain, best) < plan::block_time(chain, &found)
        };
        let count = files.iter().filter(takes_longer).count();
        let (what, all) = (mistake.what, files.len());
        println!("a longer time on {count} of {all} files: {what}");
        assert!(count >= FLOOR, "a longer time on {count} files: {what}");
    }
}

//! Wrong programs that find reaches (document 02, M-102) are told from the right one by small files, accepted and damaged.

use super::FILES;
use super::mistakes::reaches;
use reference::cases;
use reference::compare::{Both, Difference};
use reference::damage::{self, DAMAGES};
use reference::random::Random;
use reference::round;
use reference::services::{LIBRARY, REFERENCE, Services};
use reference::tally::Tally;

/// What a program answers in another way than the right one: the first difference of each file on which there is one.
fn differences(found: &Services) -> Vec<Difference> {
    let mut tally = Tally::default();
    let mut differences = Vec::new();
    for seed in 0..FILES {
        let case = cases::small(seed);
        let both = Both::on(&REFERENCE, found, &case.costs);
        let result = round::reaches::all(&both, &case, &mut Random::new(seed), &mut tally);
        differences.extend(result.err());
        let damage = DAMAGES[seed as usize % DAMAGES.len()];
        let (costs, mut random) = damage::small(seed, damage);
        let both = Both::on(&REFERENCE, found, &costs);
        let result = round::reaches::damaged(&both, &mut random, &mut tally);
        differences.extend(result.err());
    }
    differences
}

/// Some files show each in the part of the answer that it is about; a wrong refusal with both numbers.
#[test]
fn every_wrong_reach_shows() {
    for mistake in reaches::mistakes() {
        let (what, shows_in) = (mistake.what, mistake.shows_in);
        let differences = differences(&mistake.services);
        let told = differences.iter().filter(|d| mistake.is_told_by(d));
        let (count, all) = (told.count(), 2 * FILES);
        println!("{count:>5} of {all} files, {shows_in}: {what}");
        assert!(count > 0, "not told from the right one, {shows_in}: {what}");
    }
}

/// The very files that tell these mistakes tell neither the second planner from itself nor the library from it.
#[test]
fn right_reaches_show_no_difference() {
    for found in [REFERENCE, LIBRARY] {
        let differences = differences(&found);
        assert!(differences.is_empty(), "{differences:?}");
    }
}

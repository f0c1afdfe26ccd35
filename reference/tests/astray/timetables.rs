//! Wrong programs that fill in timetables (document 02, M-105) are told from the right one by streams, and by plans on small
//! files, accepted and damaged.

use super::FILES;
use super::mistakes::timetables::{self, sums};
use reference::cases::{self, streams};
use reference::compare::{Both, Difference};
use reference::damage::{self, DAMAGES};
use reference::plan::PLAN_BYTES;
use reference::random::Random;
use reference::round;
use reference::services::{LIBRARY, REFERENCE, Services};
use reference::tally::Tally;
use reference::timetable::timetable_by;

/// As many as a mistake in the width of numbers needs.
const STREAMS: u64 = 4 * FILES;

/// Costs and plan bytes.
type Lent = (Vec<u8>, Vec<u8>);

/// Those of streams, one plan in three of 48 bytes; small files with some plans; and damaged files with one.
fn lent() -> Vec<Lent> {
    let streams = (0..STREAMS).map(|seed| {
        let case = streams::small(seed);
        let mut plan = case.plan().to_vec();
        plan.resize(PLAN_BYTES + (seed % 3) as usize, 255);
        (case.costs, plan)
    });
    let accepted = (0..FILES).flat_map(|seed| {
        let case = cases::small(seed);
        let (tasks, cores) = (case.costs[3].into(), case.costs[2].into());
        let mut random = Random::new(seed);
        let plans = [(); 6].map(|()| damage::random_plan(tasks, cores, &mut random).to_vec());
        plans.map(|plan| (case.costs.clone(), plan))
    });
    let damaged = (0..FILES).map(|seed| {
        let damage = DAMAGES[seed as usize % DAMAGES.len()];
        let (costs, mut random) = damage::small(seed, damage);
        let plan = damage::random_plan(3, 8, &mut random);
        (costs, plan.to_vec())
    });
    streams.chain(accepted).chain(damaged).collect()
}

/// What a program answers or fills in in another way than the right one.
fn difference(found: &Services, (costs, plan): &Lent) -> Option<Difference> {
    let both = Both::on(&REFERENCE, found, costs);
    round::judged(&both, plan, &mut Tally::default()).err()
}

/// Some plan shows each in the part of the answer that it is about, or in the table; a wrong refusal with both numbers.
#[test]
fn every_wrong_timetable_shows() {
    let lent = lent();
    for mistake in timetables::mistakes() {
        let (what, shows_in) = (mistake.what, mistake.shows_in);
        let is_told = |lent: &Lent| {
            let difference = difference(&mistake.services, lent);
            difference.is_some_and(|difference| mistake.is_told_by(&difference))
        };
        let Some(i) = lent.iter().position(is_told) else {
            panic!("not told from the right one, {shows_in}: {what}");
        };
        println!("plan {i:>4}, {shows_in}: {what}");
    }
}

fn expect_no_difference(found: &Services) {
    for (i, lent) in lent().iter().enumerate() {
        let difference = difference(found, lent);
        assert!(difference.is_none(), "plan {i}: {difference:?}");
    }
}

/// To answer (n − 1)·B + L for block n comes to the same. Its end waits for rows of executions and transfers, each of which starts
/// when the one before it ends, from the start of block 1 on. Such a row goes n − 1 times from a block to the next, each time where
/// a module turns from the one to the other, and so repeats all that this module does for a block, which takes its response; the
/// rest of the row is one way through the plan, L. The longest row repeats what the slowest module does each time.
#[test]
fn the_latest_end_is_the_end() {
    let by_bottleneck = Services {
        timetable: |costs, plan, blocks, table| {
            timetable_by(sums::by_bottleneck, costs, plan, blocks, table)
        },
        ..REFERENCE
    };
    expect_no_difference(&by_bottleneck);
}

/// The very plans that tell these mistakes tell neither the second planner from itself nor the library from it.
#[test]
fn right_timetables_show_no_difference() {
    expect_no_difference(&REFERENCE);
    expect_no_difference(&LIBRARY);
}

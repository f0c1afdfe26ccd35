//! Damaged files and damaged plans: the library refuses what the reference refuses, with the same place.

use reference::answer::Refusal;
use reference::cases::{self, Case, Kind};
use reference::compare::{self, Both, Lent};
use reference::costs::{self, MOST_CORES, RECORD_BYTES};
use reference::damage::{self, DAMAGES, Damage};
use reference::every::WORK_WORDS;
use reference::plan::{self, Module, PLAN_BYTES, RECORDS};
use reference::random::Random;
use reference::round;
use reference::services::{LIBRARY, QUICK_REFERENCE, REFERENCE};
use reference::tally::Tally;

const OF_EACH_DAMAGE: usize = 3_000;

#[test]
fn damaged_files() {
    let mut tally = Tally::default();
    for seed in 0..(OF_EACH_DAMAGE * DAMAGES.len()) as u64 {
        // many seeds in a row, so that each damage meets files of all kinds
        let kind = DAMAGES[seed as usize / OF_EACH_DAMAGE];
        let (costs, mut random) = damage::small(seed, kind);
        tally.add(format!("damage {kind:?}"));
        // whatever D is, the costs are accepted
        assert!(kind != Damage::OtherDispatch || costs::read(&costs).is_ok());
        let both = Both::on(&REFERENCE, &LIBRARY, &costs);
        if let Err(difference) = round::damaged(&both, &mut random, &mut tally) {
            compare::fail(seed, &costs, &difference);
        }
    }
    tally.print("damaged files");
    for kind in DAMAGES {
        assert_eq!(tally.count(&format!("damage {kind:?}")), OF_EACH_DAMAGE);
    }
    for service in ["best plan", "greedy plan", "judge", "timetable"] {
        for refusal in 1..=6 {
            tally.assert_at_least(&format!("{service}: refusal {refusal}"), 500);
        }
        tally.assert_at_least(&format!("{service}: refusal 7"), 500);
    }
    tally.assert_at_least("best plan: refusal 8", 500);
    tally.assert_at_least("best plan: D in the slowest's response", 600);
    for refusal in 1..=6 {
        tally.assert_at_least(&format!("reach: refusal {refusal}"), 500);
    }
    tally.assert_at_least("reach: a refusal with a place", 6_000);
    tally.assert_at_least("reach: answered", 2_500);
    tally.assert_at_least("block time: a refusal with a place", 13_000);
}

/// A work area that is one word short spares the search where the file is accepted after all.
#[test]
fn damaged_files_of_the_greatest_size() {
    let whole = cases::sized(Kind::Random, 12, 32, 0).costs;
    for seed in 0..540 {
        let mut random = Random::new(seed);
        let kind = DAMAGES[seed as usize % DAMAGES.len()];
        let costs = damage::damaged(&whole, kind, &mut random);
        let lent = Lent {
            plan: PLAN_BYTES,
            work: WORK_WORDS - 1,
            seed,
        };
        let both = Both::on(&REFERENCE, &LIBRARY, &costs);
        let result = compare::best_plan(&both, lent).and_then(|_| {
            let plan = damage::random_plan(12, 32, &mut random);
            let tally = &mut Tally::default();
            round::judged(&both, &plan, tally)?;
            round::reaches::damaged(&both, &mut random, tally)
        });
        if let Err(difference) = result {
            compare::fail(seed, &costs, &difference);
        }
    }
}

#[test]
fn every_byte_of_a_file() {
    let costs = costs::write(&cases::worked_example());
    for i in 0..costs.len() {
        for value in 0..=255 {
            let mut changed = costs.clone();
            changed[i] = value;
            let seed = i as u64 * 256 + u64::from(value);
            let plan = [1, 2, 1, 2].repeat(RECORDS);
            let both = Both::on(&REFERENCE, &LIBRARY, &changed);
            let result = round::judged(&both, &plan, &mut Tally::default())
                .and_then(|_| compare::greedy_plan(&both, 1, Lent::enough(seed)))
                .and_then(|_| compare::reach(&both, 1))
                .and_then(|_| compare::reach(&both, 2));
            if let Err(difference) = result {
                compare::fail(seed, &changed, &difference);
            }
        }
    }
}

/// Document 02, M-100: "0 for no limit, else 1 to 32". Refusal 6 tests the byte, with the record's place. The second planner's
/// reader and all services of the library go by it.
#[test]
fn every_limit_of_a_task() {
    let costs = costs::write(&cases::worked_example());
    for task in 1..=2 {
        for limit in 0..=255_u8 {
            let mut changed = costs.clone();
            changed[task * RECORD_BYTES + 3] = limit;
            let expected = match usize::from(limit) {
                0 => Ok(None),
                limit @ 1..=MOST_CORES => Ok(Some(limit)),
                _ => Err(Refusal::at(6, task + 1)),
            };
            let read = costs::read(&changed).map(|chain| chain.limit(task));
            assert_eq!(read, expected, "limit {limit} of task {task}");
            let judged = limit_by_library(&changed);
            assert_eq!(judged, expected, "limit {limit} of task {task}, library");
            let lent = Lent::enough(limit.into());
            let both = Both::on(&REFERENCE, &LIBRARY, &changed);
            let result = compare::best_plan(&both, lent).and_then(|_| {
                compare::greedy_plan(&both, 0, lent)?;
                compare::greedy_plan(&both, 1, lent)?;
                compare::reach(&both, task as u8)
            });
            if let Err(difference) = result {
                compare::fail(lent.seed, &changed, &difference);
            }
        }
    }
}

/// The limit of a module of tasks 1 and 2 by the library: one less than the fewest cores that Judge refuses with 16. Or
/// the refusal of the costs.
fn limit_by_library(costs: &[u8]) -> Result<Option<usize>, Refusal> {
    for cores in 1..=255 {
        let plan = plan::encode(&[Module {
            first: 1,
            last: 2,
            copies: 1,
            cores,
        }]);
        let answer = (LIBRARY.judge)(costs, &plan);
        match answer.refusal {
            number @ 1..=6 => return Err(Refusal::at(number, answer.place as usize)),
            16 => return Ok(Some(cores - 1)),
            _ => {}
        }
    }
    Ok(None)
}

fn best_bytes(case: &Case) -> Option<Vec<u8>> {
    let (answer, plan) = QUICK_REFERENCE.best_filled(&case.costs);
    (answer.refusal == 0).then_some(plan.to_vec())
}

/// Judge, the single-block time and a timetable on the plan with each byte set to each value, the zero records behind the last
/// module included.
fn judge_all_changes(case: &Case, plan: &[u8], values: &[u8], tally: &mut Tally) {
    let both = Both::on(&REFERENCE, &LIBRARY, &case.costs);
    let mut changed = plan.to_vec();
    for i in 0..PLAN_BYTES {
        for &value in values {
            changed[i] = value;
            judged(&both, case.seed, &changed, tally);
        }
        changed[i] = plan[i];
    }
}

fn judged(both: &Both, seed: u64, plan: &[u8], tally: &mut Tally) {
    if let Err(difference) = round::judged(both, plan, tally) {
        compare::fail(seed, both.costs, &difference);
    }
}

#[test]
fn changed_plans() {
    let mut tally = Tally::default();
    let all_values: Vec<u8> = (0..=255).collect();
    for seed in 0..120 {
        let case = cases::small(seed);
        if let Some(plan) = best_bytes(&case) {
            judge_all_changes(&case, &plan, &all_values, &mut tally);
        }
    }
    // all twelve records used
    let plan: Vec<u8> = (1..=12).flat_map(|task| [task, task, 1, 1]).collect();
    let case = cases::sized(Kind::Random, 12, 12, 0);
    judge_all_changes(&case, &plan, &all_values, &mut tally);
    let case = cases::sized(Kind::Realistic, 12, 32, 0);
    let values = [0, 1, 2, 11, 12, 13, 20, 21, 32, 33, 255];
    judge_all_changes(&case, &plan, &values, &mut tally);
    tally.print("plans with one byte changed");
    tally.assert_at_least("judge: figures", 1_000);
    for (refusal, least) in [
        (12, 100_000),
        (13, 1_000),
        (14, 100),
        (15, 10_000),
        (16, 1_000),
    ] {
        tally.assert_at_least(&format!("judge: refusal {refusal}"), least);
    }
}

#[test]
fn random_plans() {
    let mut tally = Tally::default();
    for seed in 0..600 {
        let case = cases::small(seed);
        let mut random = Random::new(seed);
        let best = best_bytes(&case).unwrap_or(vec![1; PLAN_BYTES]);
        let both = Both::on(&REFERENCE, &LIBRARY, &case.costs);
        for _ in 0..60 {
            let any: Vec<u8> = (0..PLAN_BYTES).map(|_| random.byte()).collect();
            let small: Vec<u8> = any.iter().map(|byte| byte % 4).collect();
            // the best plan with two bytes changed, or with its first module once more at some record
            let mut near = best.clone();
            near[random.below(PLAN_BYTES)] = random.byte() % 14;
            near[random.below(8)] = random.byte() % 14;
            let mut behind = best.clone();
            behind.copy_within(0..4, 4 * random.below(RECORDS));
            for plan in [any, small, near, behind] {
                judged(&both, seed, &plan, &mut tally);
            }
        }
    }
    tally.print("random plans");
    tally.assert_at_least("judge: figures", 1_000);
    tally.assert_at_least("judge: refusal 12", 100_000);
}

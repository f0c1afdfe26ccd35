//! What is lent: too little, enough, more; dirty; at any address; empty. Bytes, words and entries beside it stay as
//! they are.

use reference::cases::laws::{self, LawCase, LawKind};
use reference::cases::{self, Case, Kind};
use reference::compare::{self, Both, Lent};
use reference::costs;
use reference::every::WORK_WORDS;
use reference::plan::PLAN_BYTES;
use reference::round;
use reference::round::laws::full_bytes;
use reference::services::{LIBRARY, QUICK_REFERENCE, REFERENCE};
use reference::tally::Tally;

/// Files that end in a plan, in refusal 9 and 11, and in refusals 1 and 6.
fn files() -> Vec<Case> {
    let kinds = [
        Kind::Realistic,
        Kind::Ties,
        Kind::NoPlan,
        Kind::TightMemory,
        Kind::Limits,
        Kind::Reaches,
        Kind::Shares,
        Kind::BlockTimes,
        Kind::Dispatch,
    ];
    let mut files: Vec<Case> = kinds
        .into_iter()
        .map(|kind| cases::sized(kind, 3, 6, 1))
        .collect();
    let kind = Kind::Random;
    for costs in [
        costs::write(&cases::constant(1, 1, 5)),
        costs::write(&cases::constant(2, 2, 1_000_001)),
        Vec::new(),
        vec![1, 0, 2],
    ] {
        let seed = 0;
        files.push(Case { seed, kind, costs });
    }
    let refusal = |case: &Case| REFERENCE.best_filled(&case.costs).0.refusal;
    let refusals: Vec<u32> = files.iter().map(refusal).collect();
    assert_eq!(refusals, [0, 0, 9, 0, 0, 9, 0, 0, 0, 0, 6, 1, 1]);
    files
}

const PLAN_LENGTHS: [usize; 9] = [0, 1, 4, 46, 47, 48, 49, 52, 1_000];
const WORK_LENGTHS: [usize; 8] = [0, 1, 11_264, 16_382, 16_383, 16_384, 16_385, 40_000];

#[test]
fn every_length() {
    assert!(PLAN_LENGTHS.contains(&PLAN_BYTES) && WORK_LENGTHS.contains(&WORK_WORDS));
    for case in files() {
        let both = Both::on(&REFERENCE, &LIBRARY, &case.costs);
        for plan in PLAN_LENGTHS {
            for work in WORK_LENGTHS {
                let seed = (plan * work) as u64;
                let lent = Lent { plan, work, seed };
                if let Err(difference) = compare::best_plan(&both, lent) {
                    compare::fail(seed, &case.costs, &difference);
                }
            }
            for grouping in [0, 1, 2, 3, 4, 0x8000, 0xffff] {
                let lent = Lent {
                    plan,
                    work: 0,
                    seed: grouping.into(),
                };
                if let Err(difference) = compare::greedy_plan(&both, grouping, lent) {
                    compare::fail(lent.seed, &case.costs, &difference);
                }
            }
        }
    }
}

/// By Judge, for the single-block time and for a timetable.
#[test]
fn of_a_plan_48_bytes_are_read() {
    for case in files() {
        let mut plan = REFERENCE.best_filled(&case.costs).1.to_vec();
        let judge = |plan: &[u8]| (LIBRARY.judge)(&case.costs, plan);
        let block_time = |plan: &[u8]| (LIBRARY.block_time)(&case.costs, plan);
        let timetable = |plan: &[u8]| {
            let mut table = [9; 5];
            ((LIBRARY.timetable)(&case.costs, plan, 4, &mut table), table)
        };
        let whole = (judge(&plan), block_time(&plan), timetable(&plan));
        plan.resize(100, 255);
        assert_eq!((judge(&plan), block_time(&plan), timetable(&plan)), whole);
        let both = Both::on(&REFERENCE, &LIBRARY, &case.costs);
        for length in 0..=plan.len() {
            let result = round::judged(&both, &plan[..length], &mut Tally::default());
            if let Err(difference) = result {
                compare::fail(case.seed, &case.costs, &difference);
            }
        }
    }
}

/// How many bytes stand behind those that are placed.
const BEHIND: usize = 8;

/// The bytes from `start` on in something longer.
fn placed(start: usize, bytes: &[u8]) -> Vec<u8> {
    [&vec![7; start], bytes, &[7; BEHIND]].concat()
}

fn lent_at(start: usize, longer: &mut [u8]) -> &mut [u8] {
    let end = longer.len() - BEHIND;
    &mut longer[start..end]
}

#[test]
fn costs_at_every_address() {
    for case in files() {
        for start in 0..16 {
            let mut longer = placed(start, &case.costs);
            let costs = &*lent_at(start, &mut longer);
            let both = Both::on(&REFERENCE, &LIBRARY, costs);
            let lent = Lent::enough(start as u64);
            let result = compare::best_plan(&both, lent).and_then(|(_, plan)| {
                round::judged(&both, &plan, &mut Tally::default())?;
                compare::reach(&both, 1)?;
                compare::reach(&both, 3)
            });
            if let Err(difference) = result {
                compare::fail(case.seed, costs, &difference);
            }
        }
    }
}

/// What is written does not depend on what the words held, nor on an earlier call.
#[test]
fn same_answer_again() {
    let case = cases::sized(Kind::Realistic, 5, 12, 3);
    let (mut plan, mut work) = (vec![255; PLAN_BYTES], vec![u32::MAX; WORK_WORDS]);
    let first = (LIBRARY.best_plan)(&case.costs, &mut plan, &mut work);
    let first_plan = plan.clone();
    for fill in [0, 1, 33, u32::MAX] {
        work.fill(fill);
        plan.fill(fill as u8);
        let again = (LIBRARY.best_plan)(&case.costs, &mut plan, &mut work);
        assert_eq!((again, &plan), (first, &first_plan));
        assert!(work.iter().all(|&word| word == 0));
    }
    let both = Both::on(&QUICK_REFERENCE, &LIBRARY, &case.costs);
    if let Err(difference) = compare::best_plan(&both, Lent::enough(3)) {
        compare::fail(case.seed, &case.costs, &difference);
    }
}

/// First parts and laws that are filled in, and some that end in refusals 18, 17, 6 and 1.
fn law_files() -> Vec<LawCase> {
    let kinds = [
        LawKind::Realistic,
        LawKind::Constant,
        LawKind::Brim,
        LawKind::Above,
    ];
    let mut files: Vec<LawCase> = kinds
        .into_iter()
        .map(|kind| laws::sized(kind, 3, 6, 1))
        .collect();
    files.push(laws::sized(LawKind::Few, 1, 1, 1));
    for change in [
        |case: &mut LawCase| case.laws[3] = 1,
        |case: &mut LawCase| case.head[10] = 2,
        |case: &mut LawCase| case.head.truncate(7),
        |case: &mut LawCase| case.head.clear(),
    ] {
        let mut case = laws::sized(LawKind::Few, 2, 4, 1);
        change(&mut case);
        files.push(case);
    }
    let refusal = |case: &LawCase| {
        let mut out = vec![0; full_bytes(&case.head)];
        (REFERENCE.fill_costs)(&case.head, &case.laws, &mut out).refusal
    };
    let refusals: Vec<u32> = files.iter().map(refusal).collect();
    assert_eq!(refusals, [0, 0, 0, 18, 0, 17, 6, 1, 1]);
    files
}

/// Outputs that are too short, just enough and longer, with other bytes in them each time.
#[test]
fn outputs_of_every_length() {
    for case in law_files() {
        let due = full_bytes(&case.head);
        let lengths = [0, 1, 7, 8, due / 2, due - 8, due - 1, due, due + 1, due + 8];
        for room in lengths.into_iter().chain([due + 4_096]) {
            for seed in 0..8 {
                let lent = (&case.head[..], &case.laws[..]);
                let result = compare::fill_costs(&REFERENCE, &LIBRARY, lent, room, seed);
                if let Err(difference) = result {
                    compare::fail(seed, &[lent.0, lent.1].concat(), &difference);
                }
            }
        }
    }
}

/// First part, laws and output, each at every address, with just enough room and with one byte less.
#[test]
fn laws_at_every_address() {
    for case in law_files() {
        let due = full_bytes(&case.head);
        for (at, room) in (0..16).flat_map(|at| [(at, due), (at, due - 1)]) {
            let (laws_at, out_at) = (at + 5, at + 11);
            let mut head = placed(at, &case.head);
            let mut laws = placed(laws_at, &case.laws);
            let mut out = placed(out_at, &vec![9; room]);
            let mut expected = out.clone();
            let lent = (lent_at(at, &mut head), lent_at(laws_at, &mut laws));
            let found = (LIBRARY.fill_costs)(lent.0, lent.1, lent_at(out_at, &mut out));
            let room = lent_at(out_at, &mut expected);
            let answer = (REFERENCE.fill_costs)(&case.head, &case.laws, room);
            assert_eq!((found, out), (answer, expected));
            assert_eq!(head, placed(at, &case.head));
            assert_eq!(laws, placed(laws_at, &case.laws));
        }
    }
}

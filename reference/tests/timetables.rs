//! Document 02, M-105, "Timetable of a stream": the library, and its way in Rust, against the machine, on streams that are made for
//! it; and the machine that leaps against the one that leaves no tick out.

use reference::cases;
use reference::cases::streams::{self, STREAM_KINDS, StreamCase};
use reference::compare::{self, Asked, Both, Difference};
use reference::costs;
use reference::damage::{self, DAMAGES};
use reference::plan::{self, Module, PLAN_BYTES};
use reference::recurrence;
use reference::round::{self, tables};
use reference::services::{LIBRARY, REFERENCE, Services, TICK_BY_TICK};
use reference::tally::Tally;
use reference::timetable::{MOST_BLOCKS, ends};

/// The library's way in Rust.
const IN_RUST: Services = Services {
    timetable: recurrence::timetable,
    ..REFERENCE
};

/// A table of so many blocks, in as many entries.
fn exactly(blocks: u32, seed: u64) -> Asked {
    let entries = blocks as usize;
    Asked {
        blocks,
        entries,
        seed,
    }
}

/// A table as the costs and the plan come to, and one of so many blocks.
fn checked(
    expected: &Services,
    found: &Services,
    case: &StreamCase,
    blocks: u32,
    tally: &mut Tally,
) -> Result<(), Difference> {
    let both = Both::on(expected, found, &case.costs);
    let plan = case.plan();
    let judged = round::judged(&both, &plan, tally)?;
    tables::of_blocks(&both, &plan, judged, exactly(blocks, case.seed), tally)?;
    compare::costs_as_lent(&both)
}

fn check_by(
    expected: &Services,
    found: &Services,
    case: &StreamCase,
    blocks: u32,
    tally: &mut Tally,
) {
    if let Err(difference) = checked(expected, found, case, blocks, tally) {
        compare::fail(case.seed, &case.costs, &difference);
    }
}

/// Against the machine that leaps.
fn check(found: &Services, case: &StreamCase, blocks: u32, tally: &mut Tally) {
    check_by(&REFERENCE, found, case, blocks, tally);
}

const OF_EACH_KIND: usize = 2_000;

/// So many of each kind.
fn small_streams() -> impl Iterator<Item = StreamCase> {
    (0..(OF_EACH_KIND * STREAM_KINDS.len()) as u64).map(streams::small)
}

/// In how many of the streams each thing is to be met, and in how many of a kind.
const FLOORS: [(&str, usize); 20] = [
    ("one module", 3_500),
    ("several modules", 10_800),
    ("more than two modules", 7_300),
    ("a transfer waits for the receiver", 6_700),
    ("a receiver waits for the sender", 7_500),
    ("both wait", 4_500),
    ("of the most blocks", 200),
    ("refusal 21", 5_900),
    ("refusal 21 of no block", 1_000),
    ("refusal 21 of too many blocks, entries enough", 840),
    ("refusal 21 of a table one short", 1_650),
    ("both wait, Even", 570),
    ("both wait, Transfers", 800),
    ("a transfer waits for the receiver, Zeros", 480),
    ("a receiver waits for the sender, SlowFirst", 1_150),
    ("both wait, SlowMiddle", 800),
    ("a transfer waits for the receiver, SlowLast", 1_200),
    ("both wait, Greatest", 680),
    ("both wait, Instant", 340),
    ("both wait, SlowTransfer", 660),
];

#[test]
fn library_answers_as_the_machine() {
    let mut tally = Tally::default();
    for case in small_streams() {
        let mut of_case = Tally::default();
        check(&LIBRARY, &case, 30, &mut of_case);
        for name in of_case.names() {
            tally.add(name);
            tally.add(format!("{name}, {:?}", case.kind));
        }
    }
    tally.print("streams, library against the machine");
    for (what, least) in FLOORS {
        tally.assert_at_least(&format!("timetable: {what}"), least);
    }
}

#[test]
fn recurrence_answers_as_the_machine() {
    let mut tally = Tally::default();
    small_streams().for_each(|case| check(&IN_RUST, &case, 30, &mut tally));
    for seed in 0..(100 * DAMAGES.len()) as u64 {
        let damage = DAMAGES[seed as usize % DAMAGES.len()];
        let (damaged, mut random) = damage::small(seed, damage);
        let whole = cases::small(seed).costs;
        let (tasks, cores) = (whole[3].into(), whole[2].into());
        for costs in [whole, damaged] {
            let both = Both::on(&REFERENCE, &IN_RUST, &costs);
            let mut plan = damage::random_plan(tasks, cores, &mut random).to_vec();
            plan.resize(
                random.pick(&[PLAN_BYTES, PLAN_BYTES + 1, PLAN_BYTES - 1]),
                255,
            );
            if let Err(difference) = round::judged(&both, &plan, &mut tally) {
                compare::fail(seed, &costs, &difference);
            }
        }
    }
    tally.print("streams and damaged files, the library's way in Rust against the machine");
    for refusal in [1, 2, 3, 4, 5, 6, 7, 12, 13, 14, 15, 16, 20, 21] {
        tally.assert_at_least(&format!("timetable: refusal {refusal}"), 15);
    }
    tally.assert_at_least("timetable: several modules", 17_500);
}

/// Twelve tasks in twelve modules on 32 cores, and the most blocks.
#[test]
fn most_modules_and_blocks() {
    let mut tally = Tally::default();
    for kind in STREAM_KINDS {
        for seed in 0..4 {
            let case = streams::largest(kind, seed);
            check(&LIBRARY, &case, MOST_BLOCKS, &mut tally);
            check(&IN_RUST, &case, MOST_BLOCKS, &mut tally);
        }
    }
    // by the library and in Rust
    tally.assert_at_least("timetable: of the most blocks", 2 * 4 * STREAM_KINDS.len());
}

/// The leaps leave out no tick at which something happens, and the library answers as the machine that leaves out none.
#[test]
fn tick_by_tick() {
    let mut tally = Tally::default();
    for case in small_streams() {
        let ends = ends(&case.chain(), &case.modules, 12);
        if ends[11] <= 5_000 {
            check(&TICK_BY_TICK, &case, 12, &mut Tally::default());
            check_by(&TICK_BY_TICK, &LIBRARY, &case, 12, &mut tally);
        }
    }
    tally.print("streams, the library against the machine tick by tick");
    tally.assert_at_least("timetable: several modules", 10_500);
    tally.assert_at_least("timetable: both wait", 3_600);
}

/// Every count of blocks in as many entries, in one less and in one more: the small example in one module, in two, and in copies.
#[test]
fn every_count_of_blocks() {
    let costs = costs::write(&cases::worked_example());
    let both = Both::on(&REFERENCE, &LIBRARY, &costs);
    let module = |first, last, copies| Module {
        first,
        last,
        copies,
        cores: 2,
    };
    let plans = [
        vec![module(1, 2, 1)],
        vec![module(1, 1, 1), module(2, 2, 1)],
        vec![module(1, 2, 2)],
    ];
    let mut tally = Tally::default();
    for plan in plans.map(|modules| plan::encode(&modules)) {
        for blocks in 0..=MOST_BLOCKS + 2 {
            let exact = exactly(blocks, blocks.into());
            for entries in [
                exact.entries.saturating_sub(1),
                exact.entries,
                exact.entries + 1,
            ] {
                match compare::timetable(&both, &plan, Asked { entries, ..exact }) {
                    Ok((answer, _)) => tally.add(format!("refusal {}", answer.refusal)),
                    Err(difference) => compare::fail(blocks.into(), &costs, &difference),
                }
            }
        }
    }
    // 1,000 counts in two lengths; one in the third, and 0, 1,001 and 1,002 in all three; all of them in the third plan
    let counts = ["refusal 0", "refusal 21", "refusal 20"].map(|what| tally.count(what));
    assert_eq!(counts, [2 * 2_000, 2 * 1_009, 3 * 1_003]);
}

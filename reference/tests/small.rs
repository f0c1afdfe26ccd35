//! Many small files: the library against the planner that tries all plans, and the two quick searches against it too.

use reference::answer::Answer;
use reference::cases::{self, KINDS, Kind};
use reference::compare::{self, Both, Lent};
use reference::costs::{self, Chain, MOST_CORES, MOST_VALUE};
use reference::greedy;
use reference::plan::{self, Module, PLAN_BYTES};
use reference::round;
use reference::services::{LIBRARY, QUICK_REFERENCE, REFERENCE};
use reference::tally::Tally;

const OF_EACH_KIND: usize = 4_000;

#[test]
fn library_answers_as_the_reference() {
    let mut tally = Tally::default();
    for seed in 0..(OF_EACH_KIND * KINDS.len()) as u64 {
        let case = cases::small(seed);
        tally.add(format!("kind {:?}", case.kind));
        let both = Both::on(&REFERENCE, &LIBRARY, &case.costs);
        if let Err(difference) = round::all(&both, &case, &mut tally) {
            compare::fail(seed, &case.costs, &difference);
        }
    }
    tally.print("small files, library against reference");
    for kind in KINDS {
        assert_eq!(tally.count(&format!("kind {kind:?}")), OF_EACH_KIND);
    }
    assert_all_met(&tally);
    assert_reaches_met(&tally);
    assert_times_met(&tally);
    assert_tables_met(&tally);
}

/// Which timetables are to be met, each at least so often, and the refusals that come after Judge's.
fn assert_tables_met(tally: &Tally) {
    for (what, least) in [
        ("one module", 63_000),
        ("several modules", 135_000),
        ("more than two modules", 80_000),
        ("a transfer waits for the receiver", 37_000),
        ("a receiver waits for the sender", 41_000),
        ("both wait", 22_000),
        ("of the most blocks", 5_700),
        ("refusal 20", 42_000),
        ("refusal 20 behind others", 12_500),
        ("refusal 21", 143_000),
        ("refusal 21 of no block", 25_800),
        ("refusal 21 of too many blocks, entries enough", 21_500),
        ("refusal 21 of a table one short", 39_800),
    ] {
        tally.assert_at_least(&format!("timetable: {what}"), least);
    }
}

/// Which single-block times are to be met, each at least so often; their refusals are Judge's.
fn assert_times_met(tally: &Tally) {
    for (what, least) in [
        ("block time: 0, one module", 15_000),
        ("block time: the slowest response, one module", 110_000),
        ("block time: the slowest response, several modules", 14_000),
        (
            "block time: more than the slowest response, several modules",
            230_000,
        ),
    ] {
        tally.assert_at_least(what, least);
    }
}

/// Where the reaches are to end, each at least so often.
fn assert_reaches_met(tally: &Tally) {
    for (what, least) in [
        ("reach: 0", 1_400),
        ("reach: the first task itself", 1_900),
        ("reach: in the middle", 550),
        ("reach: one short of k", 2_400),
        ("reach: k", 70_000),
        ("reach: 0 after a positive one", 450),
        ("reach: that of the task before", 47_000),
        ("reach: all of the board", 5_500),
        ("reach: a KiB short for the next task", 4_500),
        ("reach: shorter than by needs added up", 2_100),
        ("reach: with the next task it fits at no count", 850),
        ("reach: begins with a need of 0", 650),
        ("reach: ends with a need of 0", 700),
        ("reach: needs of 0 only", 25_000),
        ("reach: over a limit", 3_700),
        ("reach: not replicable", 18_000),
    ] {
        tally.assert_at_least(what, least);
    }
}

/// What the files are to bring about, each at least so often.
fn assert_all_met(tally: &Tally) {
    for (what, least) in [
        ("best plan: refusal 9", OF_EACH_KIND),
        ("best plan: several modules", 5_000),
        ("best plan: more than two modules", 1_000),
        ("best plan: slowest is not the first module", 1_000),
        ("best plan: several copies of the slowest", 2_000),
        ("best plan: D in the slowest's response", 5_800),
        ("best plan: a D, but not in the slowest's response", 21_000),
        ("best plan: bottleneck 0", 500),
        ("best plan: bottleneck not a whole number", 1_000),
        ("greedy plan: several modules", 10_000),
        ("greedy plan: slowest is not the first module", 5_000),
        ("greedy plan: refusal 10", 10_000),
        ("greedy plan: refusal 11", 5_000),
        ("greedy plan: refusal 11, not by needs added up", 3_000),
        ("greedy plan: more cores at the start", 1_600),
        ("judge: figures", 119_000),
        ("judge: several copies of the slowest", 14_500),
        ("judge: D in the slowest's response", 14_000),
        ("judge: a D, but not in the slowest's response", 83_000),
        ("judge: refusal 12", 67_500),
        ("judge: refusal 13", 48_000),
        ("judge: refusal 14", 97_000),
        ("judge: refusal 14, not by needs added up", 3_000),
        (
            "judge: refusal 14, not by needs added up, behind others",
            690,
        ),
        ("judge: refusal 14, at 255 cores", 390),
        ("judge: refusal 14, a core short", 28_000),
        ("judge: refusal 15", 135_000),
        ("judge: refusal 16", 29_000),
    ] {
        tally.assert_at_least(what, least);
    }
}

/// What a planner of the second planner answers and fills in.
type Filled = (Answer, [u8; PLAN_BYTES]);

fn best_filled(chain: &Chain) -> Filled {
    QUICK_REFERENCE.best_filled(&costs::write(chain))
}

fn greedy_filled(chain: &Chain, grouping: u16) -> Filled {
    let mut plan = [0; PLAN_BYTES];
    let answer = (QUICK_REFERENCE.greedy_plan)(&costs::write(chain), grouping, &mut plan);
    (answer, plan)
}

/// What the limits change for a planner.
fn decided(with_limits: Filled, without: Filled) -> &'static str {
    match (with_limits.0.refusal, without.0.refusal) {
        _ if with_limits == without => "as without limits",
        (0, 0) => "another plan",
        _ => "no plan",
    }
}

/// Whether the greedy walk ends while a core is left.
fn ends_early(chain: &Chain, start: Vec<Module>) -> bool {
    let mut current = start;
    while plan::cores(&current) < chain.cores {
        match greedy::give(chain, &current) {
            Some(next) => current = next,
            None => return true,
        }
    }
    false
}

/// In the files that have limits, these change what both planners answer, and end walks.
#[test]
fn limits_decide() {
    let mut tally = Tally::default();
    let files = (0..1_000 * KINDS.len() as u64).map(cases::small);
    for case in files.filter(|case| matches!(case.kind, Kind::Limits | Kind::TightLimits)) {
        let chain = case.chain();
        let unlimited = Chain {
            limits: vec![None; chain.tasks],
            ..chain.clone()
        };
        let best = decided(best_filled(&chain), best_filled(&unlimited));
        tally.add(format!("{:?}, best plan: {best}", case.kind));
        for grouping in 0..1 << (chain.tasks - 1) {
            let filled = greedy_filled(&chain, grouping);
            let greedy = decided(filled, greedy_filled(&unlimited, grouping));
            tally.add(format!("{:?}, greedy plan: {greedy}", case.kind));
            let start = greedy::start(&chain, greedy::groups(chain.tasks, grouping));
            if start.is_ok_and(|start| ends_early(&chain, start)) {
                tally.add(format!("{:?}, greedy plan: a core left", case.kind));
            }
        }
    }
    tally.print("what limits decide");
    for kind in [Kind::Limits, Kind::TightLimits] {
        for service in ["best plan", "greedy plan"] {
            for (what, least) in [("another plan", 200), ("no plan", 40)] {
                tally.assert_at_least(&format!("{kind:?}, {service}: {what}"), least);
            }
        }
        tally.assert_at_least(&format!("{kind:?}, greedy plan: a core left"), 400);
    }
}

/// Two tasks and two plans that are far better than all others: copies + 1 copies of both tasks in one module, or so many
/// copies of task 1 and one of task 2. Their bottlenecks differ by 1 ÷ (copies · (copies + 1)), as little as can be. What D adds to
/// task 1 it takes less; D is not so great that one copy would do.
fn nearly_equal_plans(copies: usize, transfer: u32, first_is_less: bool, dispatch: u8) -> Chain {
    let mut chain = cases::constant(2, copies + 1, MOST_VALUE);
    let even = transfer * copies as u32;
    let handed_out = (even / 2 - 1).min(dispatch.into());
    chain.dispatch = handed_out as u8;
    chain.executions[0] = if first_is_less { even + 1 } else { even - 1 } - handed_out;
    chain.executions[chain.cores] = 0;
    chain.internals[0] = transfer;
    chain.externals[0] = 0;
    chain
}

#[test]
fn fractions_as_near_as_can_be() {
    let mut tally = Tally::default();
    for copies in 2..MOST_CORES {
        for transfer in [1, 2, 3, 30_000] {
            for (seed, first_is_less) in [(0, true), (1, false)] {
                for dispatch in [0, 1, 10, 255] {
                    let chain = nearly_equal_plans(copies, transfer, first_is_less, dispatch);
                    let costs = costs::write(&chain);
                    let both = Both::on(&REFERENCE, &LIBRARY, &costs);
                    match compare::best_plan(&both, Lent::enough(seed)) {
                        Ok((answer, _)) => tally.add(format!("{} modules", answer.modules)),
                        Err(difference) => compare::fail(seed, &costs, &difference),
                    }
                }
            }
        }
    }
    tally.print("nearly equal plans");
    tally.assert_at_least("1 modules", 480);
    tally.assert_at_least("2 modules", 480);
}

#[test]
fn quick_searches_find_what_trying_all_plans_finds() {
    for seed in 1_000_000..1_006_000 {
        let case = cases::small(seed);
        let [quick, library] =
            [&QUICK_REFERENCE, &LIBRARY].map(|found| Both::on(&REFERENCE, found, &case.costs));
        let result = compare::best_plan(&quick, Lent::enough(seed)).and_then(|(answer, plan)| {
            let time = compare::block_time(&library, &plan)?.count;
            round::dynamic::expect_least(&case.chain(), answer, time)
        });
        if let Err(difference) = result {
            compare::fail(seed, &case.costs, &difference);
        }
    }
}

//! Calls two providers of the services with the same bytes and tells what differs: the answer, or anything lent.

use std::env;
use std::fmt::Debug;
use std::fs;
use std::thread;

use crate::answer::{Answer, Filled};
use crate::every::WORK_WORDS;
use crate::plan::PLAN_BYTES;
use crate::random::Random;
use crate::services::{Planner, Services};

/// Two planners on the same costs; what the expected one answers and fills in is due from the other.
pub struct Both<'a> {
    expected: Box<dyn Planner + 'a>,
    found: Box<dyn Planner + 'a>,
    pub costs: &'a [u8],
    /// The costs as they were before any call.
    before: Vec<u8>,
    /// A seed of the costs' own.
    seed: u64,
}

impl<'a> Both<'a> {
    /// Two providers on these bytes.
    pub fn on(expected: &Services, found: &Services, costs: &'a [u8]) -> Both<'a> {
        Both::with(expected.on(costs), found, costs)
    }

    /// Any planner, and a provider on these bytes.
    pub fn with(expected: impl Planner + 'a, found: &Services, costs: &'a [u8]) -> Both<'a> {
        Both {
            expected: Box::new(expected),
            found: Box::new(found.on(costs)),
            costs,
            before: costs.to_vec(),
            seed: seed_of(0, costs),
        }
    }

    /// A seed of the costs' and this plan's own.
    pub fn seed_of_plan(&self, plan: &[u8]) -> u64 {
        seed_of(self.seed, plan)
    }
}

/// From one seed and some bytes, another one.
fn seed_of(seed: u64, bytes: &[u8]) -> u64 {
    bytes.chunks(8).fold(seed, |seed, chunk| {
        let mut word = [0; 8];
        word[..chunk.len()].copy_from_slice(chunk);
        Random::new(seed ^ u64::from_le_bytes(word)).word()
    })
}

/// In which service the two differ, and how.
#[derive(Debug)]
pub struct Difference {
    pub service: &'static str,
    pub what: String,
}

/// How much is lent for output, and the seed of what it holds before. It is lent as the middle of something longer, so that
/// a byte or word written beside it shows.
#[derive(Clone, Copy)]
pub struct Lent {
    pub plan: usize,
    pub work: usize,
    pub seed: u64,
}

const MARGIN: usize = 16;
const PLAN_NAME: &str = "plan bytes (those lent begin at 16)";
const OUT_NAME: &str = "output (the lent bytes begin at 16)";
const WORK_NAME: &str = "work area (the lent words begin at 16)";
const TABLE_NAME: &str = "table (the lent entries begin at 16)";

impl Lent {
    /// As much as is needed.
    pub fn enough(seed: u64) -> Lent {
        Lent {
            plan: PLAN_BYTES,
            work: WORK_WORDS,
            seed,
        }
    }

    fn dirty_plan(&self) -> Vec<u8> {
        dirty_bytes(self.plan, self.seed)
    }

    fn dirty_work(&self) -> Vec<u32> {
        let mut random = Random::new(self.seed);
        let length = self.work + 2 * MARGIN;
        (0..length).map(|_| random.word() as u32).collect()
    }

    fn plan_in<'a>(&self, bytes: &'a mut [u8]) -> &'a mut [u8] {
        lent_in(self.plan, bytes)
    }

    fn work_in<'a>(&self, words: &'a mut [u32]) -> &'a mut [u32] {
        lent_in(self.work, words)
    }
}

/// Of how many blocks a timetable is asked for, in so many entries, and the seed of what these hold before.
#[derive(Clone, Copy, Debug)]
pub struct Asked {
    pub blocks: u32,
    pub entries: usize,
    pub seed: u64,
}

impl Asked {
    /// The entries and the margins around them: numbers that rise from one to the next.
    fn dirty_table(&self) -> Vec<u64> {
        let length = (self.entries + 2 * MARGIN) as u64;
        (0..length).map(|i| self.seed.wrapping_add(i)).collect()
    }
}

/// So many bytes and the margins around them.
fn dirty_bytes(length: usize, seed: u64) -> Vec<u8> {
    let mut random = Random::new(seed);
    let length = length + 2 * MARGIN;
    (0..length).map(|_| random.byte()).collect()
}

/// What is between the margins.
fn lent_in<T>(length: usize, longer: &mut [T]) -> &mut [T] {
    &mut longer[MARGIN..MARGIN + length]
}

/// The first place where the two differ, with what `name` says of it.
fn expect_same<T: PartialEq + Debug>(
    service: &'static str,
    expected: &[T],
    found: &[T],
    name: impl Fn() -> String,
) -> Result<(), Difference> {
    if expected == found {
        return Ok(());
    }
    let differs = (0..expected.len()).find(|&i| expected[i] != found[i]);
    let i = differs.expect("both are as long");
    let (expected, found) = (&expected[i], &found[i]);
    let what = format!("{}, at {i}: expected {expected:?}, found {found:?}", name());
    Err(Difference { service, what })
}

/// The same for an answer whose parts, refusal, place and count, have these names.
fn expect_same_parts(
    parts: [&'static str; 3],
    expected: Filled,
    found: Filled,
    name: impl Fn() -> String,
) -> Result<(), Difference> {
    let due = [expected.refusal, expected.place, expected.count];
    let given = [found.refusal, found.place, found.count];
    for (i, part) in parts.into_iter().enumerate() {
        expect_same(part, &[due[i]], &[given[i]], &name)?;
    }
    Ok(())
}

/// Judge, with whatever plan bytes; the answer of both.
pub fn judge(both: &Both, plan: &[u8]) -> Result<Answer, Difference> {
    let answer = both.expected.judge(plan);
    let found_answer = both.found.judge(plan);
    let name = || format!("answer on the plan {plan:?}");
    expect_same("judge", &[answer], &[found_answer], name)?;
    Ok(answer)
}

/// The greedy plan; the answer and the plan bytes of both.
pub fn greedy_plan(
    both: &Both,
    grouping: u16,
    lent: Lent,
) -> Result<(Answer, Vec<u8>), Difference> {
    let mut plan = lent.dirty_plan();
    let mut found_plan = plan.clone();
    let answer = both.expected.greedy_plan(grouping, lent.plan_in(&mut plan));
    let found_answer = both
        .found
        .greedy_plan(grouping, lent.plan_in(&mut found_plan));
    let name = |what: &str| format!("{what} with grouping {grouping}");
    expect_same("greedy plan", &[answer], &[found_answer], || name("answer"))?;
    expect_same("greedy plan", &plan, &found_plan, || name(PLAN_NAME))?;
    Ok((answer, lent.plan_in(&mut plan).to_vec()))
}

/// The best plan; the answer and the plan bytes of both.
pub fn best_plan(both: &Both, lent: Lent) -> Result<(Answer, Vec<u8>), Difference> {
    let (mut plan, mut work) = (lent.dirty_plan(), lent.dirty_work());
    let (mut found_plan, mut found_work) = (plan.clone(), work.clone());
    let answer = both
        .expected
        .best_plan(lent.plan_in(&mut plan), lent.work_in(&mut work));
    let found_answer = both
        .found
        .best_plan(lent.plan_in(&mut found_plan), lent.work_in(&mut found_work));
    let name = |what: &str| what.to_string();
    expect_same("best plan", &[answer], &[found_answer], || name("answer"))?;
    expect_same("best plan", &plan, &found_plan, || name(PLAN_NAME))?;
    expect_same("best plan", &work, &found_work, || name(WORK_NAME))?;
    Ok((answer, lent.plan_in(&mut plan).to_vec()))
}

/// The costs filled in from laws, into so many bytes; the answer and the output of both. What is lent for reading stays as it is.
/// A difference names the first part of the answer in which it shows, or else the output.
pub fn fill_costs(
    expected: &Services,
    found: &Services,
    (head, laws): (&[u8], &[u8]),
    room: usize,
    seed: u64,
) -> Result<(Filled, Vec<u8>), Difference> {
    let mut out = dirty_bytes(room, seed);
    let mut found_out = out.clone();
    let (found_head, found_laws) = (head.to_vec(), laws.to_vec());
    let filled = (expected.fill_costs)(head, laws, lent_in(room, &mut out));
    let found_filled = (found.fill_costs)(&found_head, &found_laws, lent_in(room, &mut found_out));
    let name = |what: &str| format!("{what}, with {room} bytes lent");
    let parts = [
        "fill costs: refusal",
        "fill costs: place",
        "fill costs: count",
    ];
    expect_same_parts(parts, filled, found_filled, || name("answer"))?;
    expect_same("fill costs: output", &out, &found_out, || name(OUT_NAME))?;
    expect_same("fill costs", head, &found_head, || name("first part"))?;
    expect_same("fill costs", laws, &found_laws, || name("laws"))?;
    Ok((filled, lent_in(room, &mut out).to_vec()))
}

/// The reach of a first task; the answer of both. A difference names the first part of the answer in which it shows.
pub fn reach(both: &Both, first: u8) -> Result<Filled, Difference> {
    let (reached, found) = (both.expected.reach(first), both.found.reach(first));
    let parts = ["reach: refusal", "reach: place", "reach: count"];
    let name = || format!("answer on the first task {first}");
    expect_same_parts(parts, reached, found, name)?;
    Ok(reached)
}

/// The single-block time of whatever plan bytes, which stay as they are; the answer of both. A difference names the first part of
/// the answer in which it shows.
pub fn block_time(both: &Both, plan: &[u8]) -> Result<Filled, Difference> {
    let found_plan = plan.to_vec();
    let timed = both.expected.block_time(plan);
    let found = both.found.block_time(&found_plan);
    let parts = [
        "block time: refusal",
        "block time: place",
        "block time: count",
    ];
    let name = |what: &str| format!("{what} on the plan {plan:?}");
    expect_same_parts(parts, timed, found, || name("answer"))?;
    expect_same("block time", plan, &found_plan, || name("bytes"))?;
    Ok(timed)
}

/// The timetable of whatever plan bytes, which stay as they are; the answer and the table of both. A difference names the first
/// part of the answer in which it shows, or else the table.
pub fn timetable(both: &Both, plan: &[u8], asked: Asked) -> Result<(Filled, Vec<u64>), Difference> {
    let mut table = asked.dirty_table();
    let mut found_table = table.clone();
    let found_plan = plan.to_vec();
    let fill = |planner: &dyn Planner, plan: &[u8], table: &mut [u64]| {
        planner.timetable(plan, asked.blocks, lent_in(asked.entries, table))
    };
    let filled = fill(&*both.expected, plan, &mut table);
    let found = fill(&*both.found, &found_plan, &mut found_table);
    let parts = ["timetable: refusal", "timetable: place", "timetable: count"];
    let name = |what: &str| format!("{what} on the plan {plan:?}, {asked:?}");
    expect_same_parts(parts, filled, found, || name("answer"))?;
    let tables = (&table, &found_table);
    expect_same("timetable: table", tables.0, tables.1, || name(TABLE_NAME))?;
    expect_same("timetable", plan, &found_plan, || name("bytes"))?;
    Ok((filled, lent_in(asked.entries, &mut table).to_vec()))
}

/// No call has changed the costs.
pub fn costs_as_lent(both: &Both) -> Result<(), Difference> {
    let name = || "costs, by some service".to_string();
    expect_same("costs", &both.before, both.costs, name)
}

/// Keeps the file and fails with the seed, the file's path and the difference.
pub fn fail(seed: u64, costs: &[u8], difference: &Difference) -> ! {
    let test = thread::current().name().unwrap_or("test").to_string();
    let path = env::temp_dir().join(format!("reference-{test}-{seed}.costs"));
    let kept = match fs::write(&path, costs) {
        Ok(()) => path.display().to_string(),
        Err(error) => format!("nowhere ({error})"),
    };
    panic!(
        "seed {seed}, costs kept in {kept}: {}: {}",
        difference.service, difference.what
    );
}

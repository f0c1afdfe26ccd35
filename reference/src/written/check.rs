//! Holds the library and the second planner to a case: the answer, and every byte and word that was lent.

use std::fmt::Debug;

use super::call::{Call, Lent, PLAN, TABLE, WORK};
use super::due::Due;
use super::fill;
use super::laws::Lawful;
use super::{Costs, Planned};
use crate::answer::{Answer, Filled};
use crate::costs::Chain;
use crate::plan::PLAN_BYTES;
use crate::round::dynamic::expect_least;
use crate::services::{LIBRARY, Planner, QUICK_REFERENCE, REFERENCE, Services, TICK_BY_TICK};
use crate::{costs, laws};

/// The work area of a service that is lent none.
const NO_WORK: Lent<u32> = Lent { length: 0, ..WORK };

/// What was lent is the middle of something longer, so that a byte or word written beside it shows.
pub const MARGIN: usize = 16;

/// An answer, with the plan bytes and the work area after it, margins included.
struct Given {
    answer: Answer,
    plan: Vec<u8>,
    work: Vec<u32>,
}

/// The library and the second planner give what the text says: the planner that searches as the library does, and the one that
/// tries all plans, or where there are too many for it the dynamic programs; a timetable that ends early also tick by tick. Costs
/// that are given as laws are also planned from these, without bytes, unless the call would try too many plans.
pub fn agree(case: &Planned) -> Result<(), String> {
    let chain = match &case.costs {
        Costs::Records(bytes) => costs::read(bytes),
        Costs::Laws(Lawful { head, laws }) => laws::chain(head, laws),
    };
    let few_plans = chain.as_ref().map_or(true, has_few_plans);
    let mut providers = vec![("library", &LIBRARY), ("quick reference", &QUICK_REFERENCE)];
    if few_plans {
        providers.push(("reference", &REFERENCE));
    }
    for (name, services) in providers {
        held(services, case).map_err(|what| format!("the {name}: {what}"))?;
    }
    if let (Ok(chain), false, Call::Best { .. }) = (&chain, few_plans, &case.call) {
        least(chain, &case.due)?;
    }
    if let Due::Table(ends) = &case.due
        && ends.iter().all(|&end| end <= FEW_TICKS)
    {
        held(&TICK_BY_TICK, case).map_err(|what| format!("tick by tick: {what}"))?;
    }
    let tries_all = matches!(case.call, Call::Best { .. } | Call::Read);
    match chain {
        Ok(chain) if chain.laws.is_some() && (few_plans || !tries_all) => {
            served(&chain, case).map_err(|what| format!("from the laws: {what}"))
        }
        _ => Ok(()),
    }
}

/// As many as a machine can go through one by one.
const FEW_TICKS: u64 = 100_000;

/// Whether all plans can be tried.
fn has_few_plans(chain: &Chain) -> bool {
    chain.tasks <= 2 || chain.cores <= 4 || (chain.tasks <= 5 && chain.cores <= 10)
}

/// A due plan has the bottleneck, the cores and the single-block time that the dynamic programs find; with 9 these find no plan.
fn least(chain: &Chain, due: &Due) -> Result<(), String> {
    let (answer, time) = match due {
        Due::Plan(plan, answer) => (*answer, chain.block_time(plan).count),
        Due::Refusal(refusal) if refusal.number == 9 => ((*refusal).into(), 0),
        _ => return Ok(()),
    };
    expect_least(chain, answer, time).map_err(|difference| difference.what)
}

/// One provider gives what the text says; where the costs are laws, on what it fills in from them.
pub fn held(services: &Services, case: &Planned) -> Result<(), String> {
    match &case.costs {
        Costs::Records(costs) => served(&services.on(costs), case),
        Costs::Laws(lawful) => {
            let costs = fill::filled_in(services, lawful)?;
            served(&services.on(&costs), case)
        }
    }
}

/// A planner gives what the text says.
fn served(planner: &dyn Planner, case: &Planned) -> Result<(), String> {
    match &case.call {
        Call::Read => read(planner, case),
        Call::Judge { plan } => {
            let answer = planner.judge(plan);
            same("answer", &[answer_due(&case.due)], &[answer])
        }
        Call::Greedy { grouping, plan } => {
            let given = greedy(planner, *grouping, *plan);
            left(&case.due, *plan, NO_WORK, &given)
        }
        Call::Best { plan, work } => {
            let given = best(planner, *plan, *work);
            left(&case.due, *plan, *work, &given)
        }
        Call::Reach { first } => {
            let reached = planner.reach(*first);
            same("answer", &[filled_due(&case.due)], &[reached])
        }
        Call::BlockTime { plan } => {
            let timed = planner.block_time(plan);
            same("answer", &[filled_due(&case.due)], &[timed])
        }
        Call::Timetable {
            blocks,
            plan,
            table,
        } => tabled(planner, plan, *blocks, *table, &case.due),
    }
}

/// The answer is the due one, and the table holds the due ends, and behind them what it held.
fn tabled(
    planner: &dyn Planner,
    plan: &[u8],
    blocks: u32,
    table: Lent<u64>,
    due: &Due,
) -> Result<(), String> {
    let (mut entries, mut due_entries) = (lent(table), lent(table));
    let lent_entries = &mut entries[MARGIN..MARGIN + table.length];
    let filled = planner.timetable(plan, blocks, lent_entries);
    if let Due::Table(ends) = due {
        due_entries[MARGIN..MARGIN + ends.len()].copy_from_slice(ends);
    }
    same("answer", &[filled_due(due)], &[filled])?;
    same("table, from 16 before", &due_entries, &entries)
}

/// All services refuse so, or none refuses the costs.
fn read(planner: &dyn Planner, case: &Planned) -> Result<(), String> {
    let blank = [0; PLAN_BYTES];
    let judged = planner.judge(&blank);
    let greedy = greedy(planner, 0, PLAN);
    let best = best(planner, PLAN, WORK);
    let answers = [judged, greedy.answer, best.answer];
    let (reached, timed) = (planner.reach(1), planner.block_time(&blank));
    if let Due::Accepted = case.due {
        let refusals = answers.iter().map(|answer| answer.refusal);
        let is_accepted = |refusal| !(1..=6).contains(&refusal);
        let tabled = planner.timetable(&blank, 1, &mut [TABLE.held]);
        let of_plan = [timed.refusal, tabled.refusal];
        if refusals.chain(of_plan).all(is_accepted) && reached.refusal == 0 {
            return Ok(());
        }
        return Err(format!(
            "accepted costs are due, not {answers:?}, {reached:?}, {timed:?}, {tabled:?}"
        ));
    }
    same(
        "answers of the services",
        &[answer_due(&case.due); 3],
        &answers,
    )?;
    same(
        "answers of reach and block time",
        &[filled_due(&case.due); 2],
        &[reached, timed],
    )?;
    tabled(planner, &blank, 1, TABLE, &case.due)?;
    left(&case.due, PLAN, NO_WORK, &greedy)?;
    left(&case.due, PLAN, WORK, &best)
}

fn greedy(planner: &dyn Planner, grouping: u16, plan: Lent<u8>) -> Given {
    let mut bytes = lent(plan);
    let lent_bytes = &mut bytes[MARGIN..MARGIN + plan.length];
    let answer = planner.greedy_plan(grouping, lent_bytes);
    Given {
        answer,
        plan: bytes,
        work: lent(NO_WORK),
    }
}

fn best(planner: &dyn Planner, plan: Lent<u8>, work: Lent<u32>) -> Given {
    let (mut bytes, mut words) = (lent(plan), lent(work));
    let lent_bytes = &mut bytes[MARGIN..MARGIN + plan.length];
    let lent_words = &mut words[MARGIN..MARGIN + work.length];
    let answer = planner.best_plan(lent_bytes, lent_words);
    Given {
        answer,
        plan: bytes,
        work: words,
    }
}

pub fn lent<T: Copy>(lent: Lent<T>) -> Vec<T> {
    vec![lent.held; lent.length + 2 * MARGIN]
}

fn answer_due(due: &Due) -> Answer {
    match due {
        Due::Accepted | Due::Reach(_) | Due::Time(_) | Due::Table(_) => Answer::default(),
        Due::Refusal(refusal) => (*refusal).into(),
        Due::Figures(answer) | Due::Plan(_, answer) => *answer,
    }
}

fn filled_due(due: &Due) -> Filled {
    match due {
        Due::Reach(count) | Due::Time(count) => Filled::counted(*count),
        Due::Table(ends) => Filled::counted(ends.len() as u32),
        Due::Refusal(refusal) => (*refusal).into(),
        Due::Accepted | Due::Figures(_) | Due::Plan(..) => Filled::default(),
    }
}

/// The answer is the due one, the plan bytes hold the due plan or what they held, and the work area is zero after a search.
fn left(due: &Due, plan: Lent<u8>, work: Lent<u32>, given: &Given) -> Result<(), String> {
    let (mut bytes, mut words) = (lent(plan), lent(work));
    if let Due::Plan(filled, _) = due {
        bytes[MARGIN..MARGIN + PLAN_BYTES].copy_from_slice(filled);
    }
    let searched = match due {
        Due::Plan(..) => true,
        Due::Refusal(refusal) => refusal.number == 9,
        Due::Accepted | Due::Figures(_) | Due::Reach(_) | Due::Time(_) | Due::Table(_) => false,
    };
    if searched {
        words[MARGIN..MARGIN + work.length].fill(0);
    }
    same("answer", &[answer_due(due)], &[given.answer])?;
    same("plan bytes, from 16 before", &bytes, &given.plan)?;
    same("work area, from 16 before", &words, &given.work)
}

/// The first place where they differ.
pub fn same<T: PartialEq + Debug>(what: &str, due: &[T], found: &[T]) -> Result<(), String> {
    match (0..due.len()).find(|&i| due[i] != found[i]) {
        None => Ok(()),
        Some(i) => Err(format!(
            "{what}, at {i}: {:?} is due, not {:?}",
            due[i], found[i]
        )),
    }
}

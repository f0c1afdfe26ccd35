//! Wrong programs that get document 02's M-106, the cost D of handing out to copies, wrong. Those that find reaches, fill in
//! timetables or fill in costs are among the others of these services.

mod answers;
pub mod copies;
pub mod readers;
mod rises;

use super::times::in_count;
use super::{Mistake, in_best_plan, in_judge, judges};
use reference::answer::Answer;
use reference::block_time::block_time_by;
use reference::costs::Chain;
use reference::every::{self, ORDER, Order};
use reference::judge::judge;
use reference::plan::{self, Load, Module, RULES};

/// All of them.
pub fn mistakes() -> impl Iterator<Item = Mistake> {
    in_figures().chain(readers::MISTAKES)
}

/// Those that give the right refusals.
pub fn in_figures() -> impl Iterator<Item = Mistake> {
    let rises = IN_EACH.into_iter().flatten();
    let in_some = IN_RESPONSES.into_iter().flatten().chain([IN_TIME]);
    let others = answers::MISTAKES.into_iter().chain(copies::MISTAKES);
    rises.chain(in_some).chain(others)
}

/// What the response of a plan's i-th module, counted from 0, rises by, or the time by its part.
type Rise = fn(&Chain, &[Module], usize) -> u32;

/// The wrong rise in Judge's responses, and in the bottlenecks that Best plan goes by.
macro_rules! in_responses {
    ($what:literal, $rise:path) => {
        [
            in_judge($what, |costs, plan| judge_by($rise, costs, plan)),
            in_best_plan(concat!($what, ", in bottlenecks"), |costs, plan, work| {
                let bottleneck = |chain: &Chain, plan: &[Module]| bottleneck($rise, chain, plan);
                let order = Order {
                    bottleneck,
                    ..ORDER
                };
                best_plan_by(order, costs, plan, work)
            }),
        ]
    };
}

/// In the time.
macro_rules! in_time {
    ($what:literal, $rise:path) => {
        in_count($what, |costs, plan| {
            let time = |chain: &Chain, plan: &[Module]| block_time($rise, chain, plan);
            block_time_by(RULES, time, costs, plan)
        })
    };
}

/// In each of these, and in the times that Best plan goes by.
macro_rules! in_each {
    ($what:literal, $rise:path) => {{
        let [judged, planned] = in_responses!($what, $rise);
        let tied = in_best_plan(concat!($what, ", in times"), |costs, plan, work| {
            let time = |chain: &Chain, plan: &[Module]| block_time($rise, chain, plan);
            best_plan_by(Order { time, ..ORDER }, costs, plan, work)
        });
        [judged, planned, in_time!($what, $rise), tied]
    }};
}

const IN_EACH: [[Mistake; 4]; 20] = [
    // "a module's response rises by D"
    in_each!("D left out", rises::none),
    in_each!("D once for a plan", rises::once),
    in_each!("D in the first module alone", rises::of_first),
    in_each!("D in the last module alone", rises::of_last),
    in_each!("D where a module receives", rises::of_receivers),
    in_each!("D where a module sends", rises::of_senders),
    in_each!("D times r", rises::for_each_copy),
    in_each!("D times r − 1", rises::for_each_more),
    in_each!("D ÷ r, rounded down", rises::shared),
    in_each!("D times p", rises::for_each_core),
    in_each!("D for each task", rises::for_each_task),
    // "if its r is above 1"
    in_each!("D for every module", rises::of_every),
    in_each!("D with one copy", rises::of_single),
    in_each!("D from three copies on", rises::from_three),
    in_each!("D where p is above 1", rises::of_several_cores),
    in_each!("D where r · p is above 1", rises::of_several_in_all),
    // "the task byte of the kind 1 record … is that cost D, 0 to 255"
    in_each!("D of 7 bits", rises::of_7_bits),
    in_each!("the kind for D", rises::by_kind),
    in_each!("P for D", rises::by_cores),
    in_each!("k for D", rises::by_tasks),
];

/// In a time the first two are those where a module receives and where it sends, and Best plan's times with the third compare as
/// those without D do.
const IN_RESPONSES: [[Mistake; 2]; 3] = [
    in_responses!("D in the module before", rises::before_copies),
    in_responses!("D in the module after", rises::after_copies),
    in_responses!(
        "D in the first module, whatever its r",
        rises::of_first_always
    ),
];
const IN_TIME: Mistake = in_time!(
    "D in the first module, whatever its r",
    rises::of_first_always
);

/// The loads of all modules with another rise.
fn loads(rise: Rise, chain: &Chain, plan: &[Module]) -> Vec<Load> {
    let mut loads = plan::loads(chain, plan);
    for (i, load) in loads.iter_mut().enumerate() {
        load.response -= plan[i].dispatch(chain);
        load.response += rise(chain, plan, i);
    }
    loads
}

fn bottleneck(rise: Rise, chain: &Chain, plan: &[Module]) -> Load {
    let loads = loads(rise, chain, plan);
    loads[plan::slowest(&loads)]
}

/// The time with another rise for each module.
fn block_time(rise: Rise, chain: &Chain, plan: &[Module]) -> u32 {
    let right: u32 = plan.iter().map(|module| module.dispatch(chain)).sum();
    let wrong: u32 = (0..plan.len()).map(|i| rise(chain, plan, i)).sum();
    plan::block_time(chain, plan) - right + wrong
}

/// Judge by these loads, which it answers with.
fn judge_by(rise: Rise, costs: &[u8], plan: &[u8]) -> Answer {
    let right = judge(costs, plan);
    if right.refusal != 0 {
        return right;
    }
    let (chain, modules) = judges::judged_modules(costs, plan);
    let loads = loads(rise, &chain, &modules);
    let slowest = plan::slowest(&loads);
    Answer {
        slowest: slowest as u32 + 1,
        response: loads[slowest].response,
        copies: loads[slowest].copies,
        ..right
    }
}

/// Best plan in another order, with the right figures of the plan that it finds.
fn best_plan_by(order: Order, costs: &[u8], plan: &mut [u8], work: &mut [u32]) -> Answer {
    let search = |chain: &Chain| every::search_by(RULES, order, chain);
    every::best_plan_by(search, costs, plan, work)
}

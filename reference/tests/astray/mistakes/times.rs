//! Wrong programs that get document 02's M-104, the single-block time, wrong.

mod answers;
mod orders;
mod sums;
mod walks;

use super::{Mistake, in_best_plan};
use reference::answer::{Answer, Filled};
use reference::block_time::block_time_by;
use reference::costs::Chain;
use reference::every::{self, ORDER, Order};
use reference::plan::{Module, RULES};
use reference::services::{REFERENCE, Services};

/// All of them.
pub fn mistakes() -> impl Iterator<Item = Mistake> {
    let sums = IN_BOTH.into_iter().flatten();
    let orders = orders::MISTAKES.into_iter().chain(walks::MISTAKES);
    sums.chain(orders).chain(answers::MISTAKES)
}

/// Those that break the ties of Best plan by a wrong time.
pub fn in_ties() -> impl Iterator<Item = Mistake> {
    IN_BOTH.into_iter().map(|[_, in_best_plan]| in_best_plan)
}

type BlockTime = fn(&[u8], &[u8]) -> Filled;

pub const fn in_refusal(what: &'static str, block_time: BlockTime) -> Mistake {
    in_part(what, "block time: refusal", block_time)
}

const fn in_place(what: &'static str, block_time: BlockTime) -> Mistake {
    in_part(what, "block time: place", block_time)
}

pub const fn in_count(what: &'static str, block_time: BlockTime) -> Mistake {
    in_part(what, "block time: count", block_time)
}

const fn in_part(what: &'static str, shows_in: &'static str, block_time: BlockTime) -> Mistake {
    let services = Services {
        block_time,
        ..REFERENCE
    };
    Mistake::new(what, shows_in, services)
}

/// The wrong time as an answer, and in the ties of Best plan.
macro_rules! in_both {
    ($what:literal, $time:path) => {
        [
            in_count($what, |costs, plan| {
                block_time_by(RULES, $time, costs, plan)
            }),
            in_best_plan($what, |costs, plan, work| {
                best_plan_by($time, costs, plan, work)
            }),
        ]
    };
}

const IN_BOTH: [[Mistake; 2]; 26] = [
    // "each task's execution"
    in_both!("executions left out", sums::without_executions),
    in_both!("the first task left out", sums::without_first),
    in_both!("the last task left out", sums::without_last),
    // "and each transfer"
    in_both!("internal transfers left out", sums::without_internals),
    in_both!("external transfers left out", sums::without_externals),
    in_both!("an internal transfer as external", sums::all_external),
    in_both!("an external transfer as internal", sums::all_internal),
    // "once". The responses added up have each external transfer twice
    in_both!("the responses added up", sums::responses),
    in_both!("each transfer twice", sums::transfers_twice),
    // "at the plan's cores": those of one copy
    in_both!("on one core", sums::on_one_core),
    in_both!("on the board's cores", sums::on_board),
    in_both!("on all copies' cores", sums::on_all_copies),
    in_both!("receiver and sender exchanged", sums::exchanged),
    in_both!("both sides on the sender's cores", sums::on_senders_cores),
    in_both!(
        "both sides on the receiver's cores",
        sums::on_receivers_cores
    ),
    // copies have no part in it
    in_both!("a module's part ÷ r, rounded down", sums::shared_down),
    in_both!("a module's part ÷ r, rounded up", sums::shared_up),
    in_both!("a module's part times r", sums::times_copies),
    in_both!("a transfer ÷ the sender's r", sums::shared_by_senders),
    in_both!("a transfer ÷ the receiver's r", sums::shared_by_receivers),
    in_both!("a transfer from each copy", sums::sent_by_each_copy),
    // "that time adds"
    in_both!("the first module's part alone", sums::first_module),
    in_both!("the greatest response alone", sums::greatest_response),
    in_both!("the bottleneck's response alone", sums::of_bottleneck),
    // the widths of numbers
    in_both!("a time of 8 bits", sums::of_8_bits),
    in_both!("a time of 16 bits", sums::of_16_bits),
];

/// Best plan with another time of a plan.
fn best_plan_by(
    time: fn(&Chain, &[Module]) -> u32,
    costs: &[u8],
    plan: &mut [u8],
    work: &mut [u32],
) -> Answer {
    let search = |chain: &Chain| every::search_by(RULES, Order { time, ..ORDER }, chain);
    every::best_plan_by(search, costs, plan, work)
}

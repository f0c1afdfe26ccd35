//! Wrong programs that get document 02's M-103, memory split task by task, wrong.

pub mod fits;
mod judges;
mod plans;
mod starts;

use super::reaches::in_count;
use super::{Mistake, in_best_plan, in_greedy_plan, in_judge, ruled};
use reference::answer::{Answer, Filled};
use reference::costs::Chain;
use reference::plan::{RULES, Rule, Rules};
use reference::reach;
use reference::round::memory::added_up;

/// All of them.
pub fn mistakes() -> impl Iterator<Item = Mistake> {
    let in_each = IN_EACH
        .into_iter()
        .flat_map(|(three, reach)| three.into_iter().chain([reach]));
    let tests = in_each.chain(IN_THREE.into_iter().flatten()).chain(IN_TWO);
    tests
        .chain(judges::MISTAKES)
        .chain(starts::MISTAKES)
        .chain(plans::MISTAKES)
}

/// The wrong test in Judge, in Best plan and in the greedy way.
macro_rules! in_three {
    ($what:literal, $fits:path) => {
        [
            in_judge($what, |costs, plan| judge_by($fits, costs, plan)),
            in_best_plan($what, |costs, plan, work| {
                best_plan_by($fits, costs, plan, work)
            }),
            in_greedy_plan($what, |costs, grouping, plan| {
                greedy_plan_by($fits, costs, grouping, plan)
            }),
        ]
    };
}

/// And in a reach.
macro_rules! in_each {
    ($what:literal, $fits:path) => {
        (
            in_three!($what, $fits),
            in_count($what, |costs, first| reach_by($fits, costs, first)),
        )
    };
}

const IN_EACH: [([Mistake; 3], Mistake); 20] = [
    // "cuts each task's data over the copy's cores separately". The sum rounded up once is the same as the needs added up: ⌈sum ÷
    // p⌉ is at most the capacity exactly if the sum is at most p times it; and so are fewest cores of ⌈sum ÷ capacity⌉, or one
    in_each!("needs added up", added_up),
    in_each!("p − 1 for each need, divided once", fits::divided_once),
    // "each need ÷ p rounded up"
    in_each!("shares rounded down", fits::rounded_down),
    in_each!("shares rounded to the nearest", fits::nearest),
    in_each!("need ÷ p, and always one more", fits::always_more),
    in_each!("a KiB at least for each task", fits::a_kib_each),
    in_each!("the last share rounded up alone", fits::last_rounded_up),
    // "the shares … add to"
    in_each!("the first task's share alone", fits::first_alone),
    in_each!("the last task's share alone", fits::last_alone),
    in_each!("the greatest share alone", fits::greatest_alone),
    in_each!("the first task's share left out", fits::without_first),
    in_each!("the last task's share left out", fits::without_last),
    in_each!("shares added up from task 1 on", fits::from_task_1),
    // "at most the capacity"
    in_each!("shares in p times the capacity", fits::in_all_cores),
    in_each!("shares below the capacity", fits::below_capacity),
    // the widths of numbers
    in_each!("shares of 8 bits", fits::shares_of_8_bits),
    in_each!("shares of 16 bits", fits::shares_of_16_bits),
    in_each!("a sum of 16 bits", fits::sum_of_16_bits),
    in_each!("needs of 16 bits", fits::needs_of_16_bits),
    in_each!("a capacity of 16 bits", fits::capacity_of_16_bits),
];

/// Tests that are not wrong in a reach, which goes by all cores of the board anyway; by a test that every module passes on them it
/// is "the whole chain always" of `reaches::ends`.
const IN_THREE: [[Mistake; 3]; 3] = [
    in_three!("shares of the board's cores", fits::of_board),
    // "some modules now fit at no count of cores"
    in_three!("all cores hold what no count does", fits::whole_board_holds),
    in_three!("memory is not asked", fits::ignored),
];

/// The greedy way has no copies.
const IN_TWO: [Mistake; 2] = [
    in_judge("shares of all copies' cores", |costs, plan| {
        judge_by(fits::of_all_copies, costs, plan)
    }),
    in_best_plan("shares of all copies' cores", |costs, plan, work| {
        best_plan_by(fits::of_all_copies, costs, plan, work)
    }),
];

/// The rules with another test of memory.
const fn by(fits: Rule) -> Rules {
    Rules { fits, ..RULES }
}

fn judge_by(fits: Rule, costs: &[u8], plan: &[u8]) -> Answer {
    ruled::judge(by(fits), costs, plan)
}

fn best_plan_by(fits: Rule, costs: &[u8], plan: &mut [u8], work: &mut [u32]) -> Answer {
    ruled::best_plan(by(fits), costs, plan, work)
}

fn greedy_plan_by(fits: Rule, costs: &[u8], grouping: u16, plan: &mut [u8]) -> Answer {
    ruled::greedy_plan(by(fits), costs, grouping, plan)
}

fn reach_by(fits: Rule, costs: &[u8], first: u8) -> Filled {
    let passes = |chain: &Chain, module| reach::fits_board_by(fits, chain, module);
    let reach_of = |chain: &Chain, first| reach::longest_by(passes, chain, first);
    reach::reach_by(reach_of, costs, first)
}

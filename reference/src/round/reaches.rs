//! The reaches of a file's first tasks, compared, with a count of where they end.

use super::memory;
use crate::cases::Case;
use crate::compare::{self, Both, Difference};
use crate::costs::Chain;
use crate::greedy;
use crate::plan::Module;
use crate::random::Random;
use crate::reach;
use crate::tally::Tally;

/// Every first task of an accepted file's chain, the number before them and the one behind, 255, and any other.
pub fn all(
    both: &Both,
    case: &Case,
    random: &mut Random,
    tally: &mut Tally,
) -> Result<(), Difference> {
    let chain = case.chain();
    let mut reaches = Vec::new();
    for first in 0..=case.costs[3] + 1 {
        reaches.push(compare::reach(both, first)?.count as usize);
    }
    count(&chain, &reaches, tally);
    for first in [255, random.byte()] {
        compare::reach(both, first)?;
    }
    Ok(())
}

/// Some first task of a file that may be damaged.
pub fn damaged(both: &Both, random: &mut Random, tally: &mut Tally) -> Result<(), Difference> {
    let first = random.pick(&[0, 1, 1, 2, 3, 255]);
    let answer = compare::reach(both, first)?;
    match answer.refusal {
        0 => tally.add("reach: answered"),
        number => tally.add(format!("reach: refusal {number}")),
    }
    if answer.place > 0 {
        tally.add("reach: a refusal with a place");
    }
    Ok(())
}

/// Counts where the reaches of the chain's tasks end, and what is particular about them. They are given from that of 0 on.
pub fn count(chain: &Chain, reaches: &[usize], tally: &mut Tally) {
    for first in 1..=chain.tasks {
        let reach = reaches[first];
        tally.add(format!("reach: {}", end(chain.tasks, first, reach)));
        let particulars = [
            (
                reach == 0 && reaches[first - 1] > 0,
                "0 after a positive one",
            ),
            (
                reach > 0 && reach == reaches[first - 1],
                "that of the task before",
            ),
        ];
        let of_module = particulars_of_module(chain, first, reach);
        let met = particulars
            .iter()
            .chain(&of_module)
            .filter(|(is_so, _)| *is_so);
        met.for_each(|(_, what)| tally.add(format!("reach: {what}")));
    }
}

/// Where the reach of a first task ends.
fn end(tasks: usize, first: usize, reach: usize) -> &'static str {
    match reach {
        0 => "0",
        _ if reach == tasks => "k",
        _ if reach == first => "the first task itself",
        _ if reach + 1 == tasks => "one short of k",
        _ => "in the middle",
    }
}

/// What is particular about the longest module, or about the one that is a task longer.
fn particulars_of_module(chain: &Chain, first: usize, reach: usize) -> [(bool, &'static str); 9] {
    let (cores, capacity) = (chain.cores, u64::from(chain.capacity));
    let on_board = |last| Module {
        cores,
        ..reach::of_one_core(first, last)
    };
    let shares = |last| on_board(last).shares(chain);
    let next = reach.max(first - 1) + 1;
    let has_next = next <= chain.tasks;
    let mut module = reach::of_one_core(first, reach);
    module.cores = greedy::fewest_cores(chain, module);
    let is_cut = (1..chain.tasks).contains(&reach);
    [
        (reach > 0 && shares(reach) == capacity, "all of the board"),
        (
            has_next && shares(next) == capacity + 1,
            "a KiB short for the next task",
        ),
        (
            has_next && memory::added_up(&on_board(next), chain),
            "shorter than by needs added up",
        ),
        (
            has_next && memory::fits_nowhere(&on_board(next), chain),
            "with the next task it fits at no count",
        ),
        (is_cut && chain.need(first) == 0, "begins with a need of 0"),
        (is_cut && chain.need(reach) == 0, "ends with a need of 0"),
        (reach > 0 && shares(reach) == 0, "needs of 0 only"),
        (!module.within_limit(chain), "over a limit"),
        (reach > 0 && !module.replicable(chain), "not replicable"),
    ]
}

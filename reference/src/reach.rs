//! Document 02, M-102, "A loop that ends sooner": the reach of a first task, by M-103's test of memory, with refusals 1 to 6.

use crate::answer::{Filled, answer};
use crate::costs::{self, Chain};
use crate::greedy;
use crate::plan::{Module, RULES, Rule};

/// The reach of a first task as the count, 0 for one that is not the chain's; or a refusal of the costs.
pub fn reach(costs: &[u8], first: u8) -> Filled {
    reach_by(reach_of, costs, first)
}

/// The service with any way to find a reach.
pub fn reach_by(reach_of: impl Fn(&Chain, usize) -> usize, costs: &[u8], first: u8) -> Filled {
    let read = costs::read(costs);
    answer(read.map(|chain| counted(reach_of(&chain, first.into()))))
}

/// The service on a chain in place of the bytes of its costs.
pub fn reach_on(chain: &Chain, first: u8) -> Filled {
    counted(reach_of(chain, first.into()))
}

fn counted(reach: usize) -> Filled {
    Filled::counted(reach as u32)
}

/// "The last task of its longest module that needs at most P cores, 0 if there is none."
pub fn reach_of(chain: &Chain, first: usize) -> usize {
    longest_by(fits_board, chain, first)
}

/// The last task of the longest module that passes a test; 0 if none does, as where the first task is not the chain's.
pub fn longest_by(passes: impl Fn(&Chain, Module) -> bool, chain: &Chain, first: usize) -> usize {
    if first == 0 {
        return 0;
    }
    let mut lasts = (first..=chain.tasks).rev();
    let longest = lasts.find(|&last| passes(chain, of_one_core(first, last)));
    longest.unwrap_or(0)
}

/// One copy of these tasks on one core.
pub fn of_one_core(first: usize, last: usize) -> Module {
    Module {
        first,
        last,
        copies: 1,
        cores: 1,
    }
}

/// Whether the module "needs at most P cores": the fewest that its memory allows, whatever its tasks' limits and flags.
pub fn fits_board(chain: &Chain, module: Module) -> bool {
    fits_board_by(RULES.fits, chain, module)
}

/// The same by any test of memory.
pub fn fits_board_by(fits: Rule, chain: &Chain, module: Module) -> bool {
    greedy::fewest_cores_by(fits, chain, module) <= chain.cores
}

//! What a module's response rises by, in wrong ways.

use reference::costs::Chain;
use reference::plan::Module;

/// D if it is so, else nothing.
fn if_so(is_so: bool, chain: &Chain) -> u32 {
    if is_so { chain.dispatch.into() } else { 0 }
}

fn has_copies(plan: &[Module], i: usize) -> bool {
    plan[i].copies > 1
}

pub fn none(_: &Chain, _: &[Module], _: usize) -> u32 {
    0
}

/// Of several modules with copies the first alone is slowed down.
pub fn once(chain: &Chain, plan: &[Module], i: usize) -> u32 {
    let is_first = (0..i).all(|before| !has_copies(plan, before));
    if_so(has_copies(plan, i) && is_first, chain)
}

pub fn of_first(chain: &Chain, plan: &[Module], i: usize) -> u32 {
    if_so(has_copies(plan, i) && i == 0, chain)
}

pub fn of_last(chain: &Chain, plan: &[Module], i: usize) -> u32 {
    if_so(has_copies(plan, i) && i + 1 == plan.len(), chain)
}

/// The first module receives nothing.
pub fn of_receivers(chain: &Chain, plan: &[Module], i: usize) -> u32 {
    if_so(has_copies(plan, i) && i > 0, chain)
}

/// The last module sends nothing.
pub fn of_senders(chain: &Chain, plan: &[Module], i: usize) -> u32 {
    if_so(has_copies(plan, i) && i + 1 < plan.len(), chain)
}

/// The sender picks the copy, and is charged.
pub fn before_copies(chain: &Chain, plan: &[Module], i: usize) -> u32 {
    if_so(i + 1 < plan.len() && has_copies(plan, i + 1), chain)
}

/// The receiver finds out which copy sends, and is charged.
pub fn after_copies(chain: &Chain, plan: &[Module], i: usize) -> u32 {
    if_so(i > 0 && has_copies(plan, i - 1), chain)
}

/// Divided by r, this is D: as if it were added after the division.
pub fn for_each_copy(chain: &Chain, plan: &[Module], i: usize) -> u32 {
    if_so(has_copies(plan, i), chain) * plan[i].copies as u32
}

/// Beside the first copy.
pub fn for_each_more(chain: &Chain, plan: &[Module], i: usize) -> u32 {
    u32::from(chain.dispatch) * (plan[i].copies as u32 - 1)
}

pub fn shared(chain: &Chain, plan: &[Module], i: usize) -> u32 {
    if_so(has_copies(plan, i), chain) / plan[i].copies as u32
}

pub fn for_each_core(chain: &Chain, plan: &[Module], i: usize) -> u32 {
    if_so(has_copies(plan, i), chain) * plan[i].cores as u32
}

pub fn for_each_task(chain: &Chain, plan: &[Module], i: usize) -> u32 {
    let tasks = plan[i].last - plan[i].first + 1;
    if_so(has_copies(plan, i), chain) * tasks as u32
}

pub fn of_every(chain: &Chain, _: &[Module], _: usize) -> u32 {
    chain.dispatch.into()
}

pub fn of_first_always(chain: &Chain, _: &[Module], i: usize) -> u32 {
    if_so(i == 0, chain)
}

pub fn of_single(chain: &Chain, plan: &[Module], i: usize) -> u32 {
    if_so(!has_copies(plan, i), chain)
}

pub fn from_three(chain: &Chain, plan: &[Module], i: usize) -> u32 {
    if_so(plan[i].copies > 2, chain)
}

pub fn of_several_cores(chain: &Chain, plan: &[Module], i: usize) -> u32 {
    if_so(plan[i].cores > 1, chain)
}

pub fn of_several_in_all(chain: &Chain, plan: &[Module], i: usize) -> u32 {
    if_so(plan[i].copies * plan[i].cores > 1, chain)
}

pub fn of_7_bits(chain: &Chain, plan: &[Module], i: usize) -> u32 {
    if_so(has_copies(plan, i), chain) & 0x7f
}

/// The first byte of the first record, which is 1.
pub fn by_kind(_: &Chain, plan: &[Module], i: usize) -> u32 {
    has_copies(plan, i).into()
}

/// The third byte.
pub fn by_cores(chain: &Chain, plan: &[Module], i: usize) -> u32 {
    u32::from(has_copies(plan, i)) * chain.cores as u32
}

/// The fourth byte.
pub fn by_tasks(chain: &Chain, plan: &[Module], i: usize) -> u32 {
    u32::from(has_copies(plan, i)) * chain.tasks as u32
}

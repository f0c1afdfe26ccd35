//! Wrong single-block times of a plan.

use crate::mistakes::judges::sender_loads;
use reference::costs::Chain;
use reference::plan::{self, Module, block_time, module_of, transfer};

/// What this makes of each module's part of the right time, all of its response but what it receives, and of its copies, added up.
fn of_parts(chain: &Chain, plan: &[Module], of_part: impl Fn(u32, u32) -> u32) -> u32 {
    let parts = sender_loads(chain, plan);
    let parts = parts.iter().map(|part| of_part(part.response, part.copies));
    parts.sum()
}

/// The right transfer between a sender and its receiver.
fn between(chain: &Chain, from: &Module, to: &Module) -> u32 {
    chain.external(from.last, from.cores, to.cores)
}

/// The right time but for the transfers between modules, by sender and receiver.
fn with_externals(
    chain: &Chain,
    plan: &[Module],
    external: impl Fn(&Module, &Module) -> u32,
) -> u32 {
    let pairs = plan.windows(2);
    let wrong: u32 = pairs.map(|pair| external(&pair[0], &pair[1])).sum();
    without_externals(chain, plan) + wrong
}

/// The right time but for the transfers within modules, by task and p.
fn with_internals(chain: &Chain, plan: &[Module], internal: impl Fn(usize, usize) -> u32) -> u32 {
    let of_module = |module: &Module| {
        let tasks = module.first..module.last;
        tasks.map(|task| internal(task, module.cores)).sum::<u32>()
    };
    without_internals(chain, plan) + plan.iter().map(of_module).sum::<u32>()
}

/// The right time of the same modules at other cores.
fn at_cores(chain: &Chain, plan: &[Module], cores: impl Fn(&Module) -> usize) -> u32 {
    let other = |module: &Module| Module {
        cores: cores(module),
        ..*module
    };
    let plan: Vec<Module> = plan.iter().map(other).collect();
    block_time(chain, &plan)
}

fn transfers(chain: &Chain, plan: &[Module]) -> u32 {
    let tasks = 1..chain.tasks;
    tasks.map(|task| transfer(chain, plan, task)).sum()
}

pub fn without_executions(chain: &Chain, plan: &[Module]) -> u32 {
    let execution = |task| chain.execution(task, module_of(plan, task).cores);
    block_time(chain, plan) - (1..=chain.tasks).map(execution).sum::<u32>()
}

pub fn without_first(chain: &Chain, plan: &[Module]) -> u32 {
    block_time(chain, plan) - chain.execution(1, plan[0].cores)
}

pub fn without_last(chain: &Chain, plan: &[Module]) -> u32 {
    let last = module_of(plan, chain.tasks);
    block_time(chain, plan) - chain.execution(chain.tasks, last.cores)
}

pub fn without_internals(chain: &Chain, plan: &[Module]) -> u32 {
    let within = |task: &usize| module_of(plan, *task) == module_of(plan, task + 1);
    let tasks = (1..chain.tasks).filter(within);
    let internals: u32 = tasks.map(|task| transfer(chain, plan, task)).sum();
    block_time(chain, plan) - internals
}

pub fn without_externals(chain: &Chain, plan: &[Module]) -> u32 {
    let sent = |i| plan::sent(chain, plan, i);
    block_time(chain, plan) - (0..plan.len()).map(sent).sum::<u32>()
}

pub fn all_external(chain: &Chain, plan: &[Module]) -> u32 {
    with_internals(chain, plan, |task, p| chain.external(task, p, p))
}

/// At the sender's cores.
pub fn all_internal(chain: &Chain, plan: &[Module]) -> u32 {
    with_externals(chain, plan, |from, _| chain.internal(from.last, from.cores))
}

pub fn responses(chain: &Chain, plan: &[Module]) -> u32 {
    let responses = plan::loads(chain, plan).into_iter();
    responses.map(|load| load.response).sum()
}

pub fn transfers_twice(chain: &Chain, plan: &[Module]) -> u32 {
    block_time(chain, plan) + transfers(chain, plan)
}

pub fn on_one_core(chain: &Chain, plan: &[Module]) -> u32 {
    at_cores(chain, plan, |_| 1)
}

pub fn on_board(chain: &Chain, plan: &[Module]) -> u32 {
    at_cores(chain, plan, |_| chain.cores)
}

pub fn on_all_copies(chain: &Chain, plan: &[Module]) -> u32 {
    at_cores(chain, plan, |module| module.copies * module.cores)
}

pub fn exchanged(chain: &Chain, plan: &[Module]) -> u32 {
    with_externals(chain, plan, |from, to| {
        chain.external(from.last, to.cores, from.cores)
    })
}

pub fn on_senders_cores(chain: &Chain, plan: &[Module]) -> u32 {
    with_externals(chain, plan, |from, _| between(chain, from, from))
}

pub fn on_receivers_cores(chain: &Chain, plan: &[Module]) -> u32 {
    with_externals(chain, plan, |from, to| {
        chain.external(from.last, to.cores, to.cores)
    })
}

pub fn shared_down(chain: &Chain, plan: &[Module]) -> u32 {
    of_parts(chain, plan, |part, copies| part / copies)
}

pub fn shared_up(chain: &Chain, plan: &[Module]) -> u32 {
    of_parts(chain, plan, |part, copies| part.div_ceil(copies))
}

pub fn times_copies(chain: &Chain, plan: &[Module]) -> u32 {
    of_parts(chain, plan, |part, copies| part * copies)
}

pub fn shared_by_senders(chain: &Chain, plan: &[Module]) -> u32 {
    with_externals(chain, plan, |from, to| {
        between(chain, from, to) / from.copies as u32
    })
}

pub fn shared_by_receivers(chain: &Chain, plan: &[Module]) -> u32 {
    with_externals(chain, plan, |from, to| {
        between(chain, from, to) / to.copies as u32
    })
}

pub fn sent_by_each_copy(chain: &Chain, plan: &[Module]) -> u32 {
    with_externals(chain, plan, |from, to| {
        between(chain, from, to) * from.copies as u32
    })
}

pub fn first_module(chain: &Chain, plan: &[Module]) -> u32 {
    sender_loads(chain, plan)[0].response
}

/// Whatever its copies.
pub fn greatest_response(chain: &Chain, plan: &[Module]) -> u32 {
    let responses = (0..plan.len()).map(|i| plan::response(chain, plan, i));
    responses.max().unwrap_or(0)
}

pub fn of_bottleneck(chain: &Chain, plan: &[Module]) -> u32 {
    plan::bottleneck(chain, plan).response
}

pub fn of_8_bits(chain: &Chain, plan: &[Module]) -> u32 {
    block_time(chain, plan) & 0xff
}

pub fn of_16_bits(chain: &Chain, plan: &[Module]) -> u32 {
    block_time(chain, plan) & 0xffff
}

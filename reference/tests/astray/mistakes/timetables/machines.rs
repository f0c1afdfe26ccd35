//! Machines in which one thing goes another way than document 02, M-105, says.

use crate::mistakes::Mistake;
use reference::cases::streams;
use reference::costs::Chain;
use reference::plan::{self, Module};
use reference::timetable::ends;

macro_rules! by_way {
    ($what:literal, $($part:ident: $wrong:expr),+) => {
        by_ends!($what, |chain: &Chain, plan: &[Module], blocks| {
            let way = Way { $($part: $wrong,)+ ..RIGHT };
            way.ends(chain, plan, blocks)
        })
    };
}

pub const MISTAKES: [Mistake; 13] = [
    // "a module receives, executes, sends, then turns to the next block"
    by_way!("receives once it has executed", receives: of_executed),
    by_way!("turns when its transfer starts", turns: |sending| sending.start),
    by_way!("receives when all behind it are through", receives: of_all_behind),
    // "a transfer occupies sender and receiver from start to end"
    by_way!("charges the sender only", starts: |executed, _| executed, executes: u64::max),
    by_way!("charges the receiver only", turns: |sending| sending.executed),
    // "it starts as soon as both are free for it"
    by_way!("starts whether the receiver is free or not", starts: |executed, _| executed),
    by_way!("starts a tick later", starts: |executed, free| executed.max(free) + 1),
    // "block 1 starts at tick 0"
    by_way!("block 1 starts with a reception", begins: sent_by_first),
    by_way!("block 1 starts at tick 1", begins: |_, _| 1),
    // what an execution and a transfer take
    by_way!("internal transfers left out", execution: of_tasks),
    by_way!("receiver and sender exchanged", transfer: exchanged),
    by_way!("an external transfer as internal", transfer: internal),
    // "rises by D if its r is above 1" (M-106)
    by_way!("D for every module", execution: handed_out),
];

/// What a module did with the block before: the ticks at which it had executed it, and turned to the next one.
#[derive(Clone, Copy)]
struct Past {
    executed: u64,
    turned: u64,
}

/// The ticks at which a module has executed a block, and begins and ends sending it.
struct Sending {
    executed: u64,
    start: u64,
    end: u64,
}

/// How a block goes on, from what was done with the block before.
struct Way {
    /// When the first module begins block 1.
    begins: fn(&Chain, &[Module]) -> u64,
    execution: fn(&Chain, &Module) -> u32,
    transfer: fn(&Chain, &Module, &Module) -> u32,
    /// When the i-th module, counted from 0, can receive.
    receives: fn(&[Past], usize) -> u64,
    /// When a transfer starts: from when the sender has executed, and when the receiver can receive.
    starts: fn(u64, u64) -> u64,
    /// When the receiver begins to execute: from when the transfer ends, and when it could receive.
    executes: fn(u64, u64) -> u64,
    /// When the sender turns to the next block.
    turns: fn(&Sending) -> u64,
}

const RIGHT: Way = Way {
    begins: |_, _| 0,
    execution: |chain, module| module.body(chain),
    transfer: |chain, from, to| chain.external(from.last, from.cores, to.cores),
    receives: |past, i| past[i].turned,
    starts: |executed, free| executed.max(free),
    executes: |end, _| end,
    turns: |sending| sending.end,
};

impl Way {
    fn ends(&self, chain: &Chain, plan: &[Module], blocks: u32) -> Vec<u64> {
        let nothing = Past {
            executed: 0,
            turned: 0,
        };
        let mut past = vec![nothing; plan.len()];
        past[0].turned = (self.begins)(chain, plan);
        let blocks = 0..blocks;
        blocks.map(|_| self.end(chain, plan, &mut past)).collect()
    }

    /// The end of the next block.
    fn end(&self, chain: &Chain, plan: &[Module], past: &mut [Past]) -> u64 {
        let execution = |i: usize| u64::from((self.execution)(chain, &plan[i]));
        let mut executed = past[0].turned + execution(0);
        let last = plan.len() - 1;
        for i in 0..last {
            let free = (self.receives)(past, i + 1);
            let start = (self.starts)(executed, free);
            let end = start + u64::from((self.transfer)(chain, &plan[i], &plan[i + 1]));
            let sending = Sending {
                executed,
                start,
                end,
            };
            let turned = (self.turns)(&sending);
            past[i] = Past { executed, turned };
            executed = (self.executes)(end, free) + execution(i + 1);
        }
        let turned = executed;
        past[last] = Past { executed, turned };
        executed
    }
}

fn of_executed(past: &[Past], i: usize) -> u64 {
    past[i].executed
}

fn of_all_behind(past: &[Past], i: usize) -> u64 {
    let turned = past[i..].iter().map(|module| module.turned);
    turned.max().unwrap_or(0)
}

/// As if input took as long as the first module sends.
fn sent_by_first(chain: &Chain, plan: &[Module]) -> u64 {
    plan::sent(chain, plan, 0).into()
}

fn of_tasks(chain: &Chain, module: &Module) -> u32 {
    let tasks = module.first..=module.last;
    tasks.map(|task| chain.execution(task, module.cores)).sum()
}

/// As if the one copy had to be picked.
fn handed_out(chain: &Chain, module: &Module) -> u32 {
    module.body(chain) + u32::from(chain.dispatch)
}

fn exchanged(chain: &Chain, from: &Module, to: &Module) -> u32 {
    chain.external(from.last, to.cores, from.cores)
}

/// At the sender's cores.
fn internal(chain: &Chain, from: &Module, _: &Module) -> u32 {
    chain.internal(from.last, from.cores)
}

/// The way that each mistake changes is the right one.
#[test]
fn the_way_without_a_mistake() {
    for seed in 0..2_000 {
        let case = streams::small(seed);
        let (chain, plan) = (case.chain(), &case.modules);
        let due = ends(&chain, plan, 20);
        assert_eq!(RIGHT.ends(&chain, plan, 20), due, "seed {seed}");
    }
}

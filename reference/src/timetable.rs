//! Document 02, M-105, "Timetable of a stream": when each block is through, by the machine itself, tick after tick, or leaping
//! over ticks at which nothing happens; and the service, with Judge's refusals, then 20, then 21.

use crate::answer::{Filled, Refusal, answer};
use crate::costs::{self, Chain};
use crate::judge;
use crate::plan::{self, Module, RULES};

/// Refusal 21: "n outside 1 to 1,000".
pub const MOST_BLOCKS: u32 = 1_000;

/// The ends of blocks 1 to n under the plan in the first 48 bytes, filled in from the first entry on; n is the count. A refusal
/// leaves the table as it is.
pub fn timetable(costs: &[u8], plan: &[u8], blocks: u32, table: &mut [u64]) -> Filled {
    timetable_by(ends, costs, plan, blocks, table)
}

/// The same by the clock that leaves no tick out.
pub fn timetable_tick_by_tick(costs: &[u8], plan: &[u8], blocks: u32, table: &mut [u64]) -> Filled {
    timetable_by(ends_tick_by_tick, costs, plan, blocks, table)
}

/// The service with any way to find the ends of so many blocks.
pub fn timetable_by(
    ends: impl Fn(&Chain, &[Module], u32) -> Vec<u64>,
    costs: &[u8],
    plan: &[u8],
    blocks: u32,
    table: &mut [u64],
) -> Filled {
    let read = costs::read(costs);
    answer(read.and_then(|chain| filled(ends, &chain, plan, blocks, table)))
}

/// The service on a chain in place of the bytes of its costs.
pub fn timetable_on(chain: &Chain, plan: &[u8], blocks: u32, table: &mut [u64]) -> Filled {
    answer(filled(ends, chain, plan, blocks, table))
}

fn filled(
    ends: impl Fn(&Chain, &[Module], u32) -> Vec<u64>,
    chain: &Chain,
    plan: &[u8],
    blocks: u32,
    table: &mut [u64],
) -> Result<Filled, Refusal> {
    let modules = judge::passed(RULES, chain, plan)?;
    judge::test_all(&modules, 20, |module| module.copies == 1)?;
    if !(1..=MOST_BLOCKS).contains(&blocks) || table.len() < blocks as usize {
        return Err(Refusal::new(21));
    }
    let ends = ends(chain, &modules, blocks);
    table[..ends.len()].copy_from_slice(&ends);
    Ok(Filled::counted(blocks))
}

/// The ends of blocks 1 to n: the machine's clock goes on by one tick at a time.
fn ends_tick_by_tick(chain: &Chain, plan: &[Module], blocks: u32) -> Vec<u64> {
    Machine::new(chain, plan, blocks).run(|machine| machine.clock + 1, |_| {})
}

/// The same where times may be great: it leaps to the next tick at which something ends. At those between nothing can start.
pub fn ends(chain: &Chain, plan: &[Module], blocks: u32) -> Vec<u64> {
    Machine::new(chain, plan, blocks).run(Machine::next_end, |_| {})
}

/// What a module is doing: "a module receives, executes, sends, then turns to the next block".
#[derive(Clone, Copy, Debug, PartialEq, Eq)]
pub enum Doing {
    /// Nothing. It is through with all of the block before, its sending included.
    Free,
    /// It receives until that tick.
    Receiving(u64),
    /// It executes until that tick.
    Executing(u64),
    /// Nothing. It has executed the block and has not begun to send it.
    Holding,
    /// It sends until that tick.
    Sending(u64),
}

/// The modules of a plan that has no copies, at a tick, while so many blocks go through. Blocks behind these would change
/// nothing for them.
pub struct Machine {
    clock: u64,
    modules: Vec<Doing>,
    /// How long each module executes: its tasks, and the transfers inside it.
    executions: Vec<u64>,
    /// How long each module but the last sends.
    transfers: Vec<u64>,
    /// The blocks that the first module has not begun.
    input: u32,
    /// The blocks that are not through.
    left: u32,
    ends: Vec<u64>,
}

impl Machine {
    /// At tick 0, when block 1 can start.
    pub fn new(chain: &Chain, plan: &[Module], blocks: u32) -> Machine {
        let senders = 0..plan.len() - 1;
        Machine {
            clock: 0,
            modules: vec![Doing::Free; plan.len()],
            executions: plan
                .iter()
                .map(|module| module.body(chain).into())
                .collect(),
            transfers: senders.map(|i| plan::sent(chain, plan, i).into()).collect(),
            input: blocks,
            left: blocks,
            ends: Vec::new(),
        }
    }

    /// Goes on until all blocks are through, with the clock's next tick as this says; the ends. What the modules are doing is
    /// shown at each tick, after all that happens at it.
    pub fn run(
        mut self,
        next: impl Fn(&Machine) -> u64,
        mut show: impl FnMut(&[Doing]),
    ) -> Vec<u64> {
        loop {
            while self.something_ends() || self.something_starts() {}
            show(&self.modules);
            if self.left == 0 {
                return self.ends;
            }
            self.clock = next(&self);
        }
    }

    /// The next tick at which something ends.
    pub fn next_end(&self) -> u64 {
        let until = |doing: &Doing| match *doing {
            Doing::Receiving(until) | Doing::Executing(until) | Doing::Sending(until) => {
                Some(until)
            }
            Doing::Free | Doing::Holding => None,
        };
        let next = self.modules.iter().filter_map(until).min();
        next.expect("a block that is not through is at some module")
    }

    /// Whether something that lasts until this tick has ended, if only just now.
    fn something_ends(&mut self) -> bool {
        let now = self.clock;
        for i in 0..self.modules.len() {
            self.modules[i] = match self.modules[i] {
                Doing::Receiving(until) if until == now => self.executing(i),
                Doing::Executing(until) if until == now => self.executed(i),
                Doing::Sending(until) if until == now => Doing::Free,
                _ => continue,
            };
            return true;
        }
        false
    }

    fn executing(&self, i: usize) -> Doing {
        Doing::Executing(self.clock + self.executions[i])
    }

    /// The last module sends nothing: where it has executed a block, this is through.
    fn executed(&mut self, i: usize) -> Doing {
        if i + 1 < self.modules.len() {
            return Doing::Holding;
        }
        self.left -= 1;
        self.ends.push(self.clock);
        Doing::Free
    }

    /// Whether something starts at this tick. The first module receives nothing, and "input is always waiting". A transfer
    /// "occupies sender and receiver from start to end" and "starts as soon as both are free for it".
    fn something_starts(&mut self) -> bool {
        if self.input > 0 && self.modules[0] == Doing::Free {
            self.input -= 1;
            self.modules[0] = self.executing(0);
            return true;
        }
        for i in 0..self.transfers.len() {
            if self.modules[i] == Doing::Holding && self.modules[i + 1] == Doing::Free {
                let until = self.clock + self.transfers[i];
                self.modules[i] = Doing::Sending(until);
                self.modules[i + 1] = Doing::Receiving(until);
                return true;
            }
        }
        false
    }
}

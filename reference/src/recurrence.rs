//! The timetable of a stream (document 02, M-105) in the lent entries, each block from the one before: the static library's way in
//! plain Rust. It reads and judges without allocating, as the library does. It is for the benchmark; what is to be filled in,
//! `timetable` says.

use crate::answer::{Filled, Refusal};
use crate::costs::MOST_TASKS;
use crate::judge::test_all;
use crate::plan::Module;
use crate::threshold::lookup::Lookup;
use crate::threshold::{judged, records};
use crate::timetable::MOST_BLOCKS;

/// Answers and leaves the table as `timetable::timetable` does. Nothing is allocated.
pub fn timetable(costs: &[u8], plan: &[u8], blocks: u32, table: &mut [u64]) -> Filled {
    filled(costs, plan, blocks, table).unwrap_or_else(Filled::from)
}

fn filled(costs: &[u8], plan: &[u8], blocks: u32, table: &mut [u64]) -> Result<Filled, Refusal> {
    records::test(costs)?;
    let costs = Lookup::new(costs);
    let plan = plan.first_chunk().ok_or(Refusal::new(7))?;
    let (modules, count) = judged::passed(&costs, plan)?;
    let modules = &modules[..count];
    test_all(modules, 20, |module| module.copies == 1)?;
    if !(1..=MOST_BLOCKS).contains(&blocks) || table.len() < blocks as usize {
        return Err(Refusal::new(21));
    }
    Stream::of(&costs, modules).fill(&mut table[..blocks as usize]);
    Ok(Filled::counted(blocks))
}

/// What the modules take, and when each is through with the block before.
struct Stream {
    count: usize,
    executions: [u64; MOST_TASKS],
    transfers: [u64; MOST_TASKS],
    free: [u64; MOST_TASKS],
}

impl Stream {
    fn of(costs: &Lookup, modules: &[Module]) -> Stream {
        let mut stream = Stream {
            count: modules.len(),
            executions: [0; MOST_TASKS],
            transfers: [0; MOST_TASKS],
            free: [0; MOST_TASKS],
        };
        for (i, module) in modules.iter().enumerate() {
            stream.executions[i] = costs.body(module.first, module.last, module.cores);
            let next = modules.get(i + 1).map_or(0, |next| next.cores);
            stream.transfers[i] = costs.transfer(module.last, module.cores, next);
        }
        stream
    }

    fn fill(&mut self, table: &mut [u64]) {
        let last = self.count - 1;
        for entry in table {
            let mut executed = self.free[0] + self.executions[0];
            for i in 0..last {
                let sent = executed.max(self.free[i + 1]) + self.transfers[i];
                self.free[i] = sent;
                executed = sent + self.executions[i + 1];
            }
            self.free[last] = executed;
            *entry = executed;
        }
    }
}

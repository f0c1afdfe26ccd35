//! The dynamic program of source document 000, 3.1 to 3.3, of O(P⁴k²) steps for each count of copies: the least bottleneck,
//! without its plan.
//!
//! 3.2 lets the copies follow from the cores; here all counts of copies are weighed, since costs need not be monotone, and
//! handing out to copies may cost more than they save (document 02, M-106). With the cores of a copy as p_last and p_next, the
//! length of the next module (3.3) decides nothing before that module's turn. Every loop ends where the board has no core left.

use crate::costs::Chain;
use crate::plan::{Load, Module};

/// Above every load, as 1 ÷ 0: no mapping.
const NONE: Load = Load {
    response: 1,
    copies: 0,
};

/// The function M_j(p_total, p_last, p_next) of all j: the least bottleneck of tasks 1 to j on exactly p_total cores, where
/// the copies of the last module have p_last cores and those of the next one p_next, 0 at the end of the chain.
struct Table {
    side: usize,
    loads: Vec<Load>,
}

impl Table {
    fn new(chain: &Chain) -> Table {
        let side = chain.cores + 1;
        let loads = vec![NONE; (chain.tasks + 1) * side * side * side];
        Table { side, loads }
    }

    fn at(&self, j: usize, total: usize, last: usize, next: usize) -> usize {
        ((j * self.side + total) * self.side + last) * self.side + next
    }
}

/// The least bottleneck over all plans that keep the rules; none if there is no such plan.
pub fn least_bottleneck(chain: &Chain) -> Option<Load> {
    let mut table = Table::new(chain);
    for last in 1..=chain.tasks {
        for first in 1..=last {
            for cores in 1..=chain.cores {
                append(chain, &mut table, first, last, cores);
            }
        }
    }
    let mut least = NONE;
    for total in 1..=chain.cores {
        for cores in 1..=total {
            let load = table.loads[table.at(chain.tasks, total, cores, 0)];
            least = lesser(least, load);
        }
    }
    (least.copies > 0).then_some(least)
}

/// Weighs the module of these tasks as the last one, in all counts of copies, before all next ones that fit the board.
fn append(chain: &Chain, table: &mut Table, first: usize, last: usize, cores: usize) {
    let mut module = Module {
        first,
        last,
        copies: 1,
        cores,
    };
    if !module.memory_fits(chain) || !module.within_limit(chain) {
        return;
    }
    let most = if module.replicable(chain) {
        chain.cores / cores
    } else {
        1
    };
    for copies in 1..=most {
        module.copies = copies;
        let body = module.body(chain) + module.dispatch(chain);
        for total in copies * cores..=chain.cores {
            if last == chain.tasks {
                weigh(chain, table, module, body, total, 0);
                continue;
            }
            for next in 1..=chain.cores - total {
                let sent = chain.external(last, cores, next);
                weigh(chain, table, module, body + sent, total, next);
            }
        }
    }
}

/// One entry of the table, with this module as the last one, over all cores of the module before it. What it takes but for what it
/// receives is given.
fn weigh(
    chain: &Chain,
    table: &mut Table,
    module: Module,
    but_received: u32,
    total: usize,
    next: usize,
) {
    let rest = total - module.copies * module.cores;
    let copies = module.copies as u32;
    let entry = table.at(module.last, total, module.cores, next);
    let mut least = table.loads[entry];
    if module.first == 1 {
        if rest == 0 {
            let response = but_received;
            least = lesser(least, Load { response, copies });
        }
    } else {
        for before in 1..=rest {
            let received = chain.external(module.first - 1, before, module.cores);
            let response = received + but_received;
            let former = table.loads[table.at(module.first - 1, rest, before, module.cores)];
            least = lesser(least, greater(former, Load { response, copies }));
        }
    }
    table.loads[entry] = least;
}

fn lesser(a: Load, b: Load) -> Load {
    if b.is_less(a) { b } else { a }
}

fn greater(a: Load, b: Load) -> Load {
    if a.is_less(b) { b } else { a }
}

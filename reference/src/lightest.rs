//! The fewest cores, and with so many the least single-block time (document 02, M-104), of all plans within a bottleneck, without
//! the plan: a dynamic program like that of source document 000, 3.1, from the first module on. The cores of a plan and its time
//! are sums over its modules, so the lightest mapping of the first tasks is kept for each p_last and p_next, whatever its cores.

use crate::costs::Chain;
use crate::plan::{Load, Module};

/// Cores, then ticks: they compare in this order.
pub type Weight = (usize, u32);

/// The lightest mappings of tasks 1 to j, by j, p_last and p_next; p_last is 0 before the first module, p_next 0 at the end.
struct Table {
    side: usize,
    lightest: Vec<Option<Weight>>,
}

impl Table {
    /// That of no tasks weighs nothing, whatever comes next.
    fn new(chain: &Chain) -> Table {
        let side = chain.cores + 1;
        let mut lightest = vec![None; (chain.tasks + 1) * side * side];
        lightest[..side].fill(Some((0, 0)));
        Table { side, lightest }
    }

    fn at(&self, j: usize, last: usize, next: usize) -> usize {
        (j * self.side + last) * self.side + next
    }

    fn add(&mut self, module: Module, next: usize, weight: Weight) {
        let entry = self.at(module.last, module.cores, next);
        let other = self.lightest[entry].unwrap_or(weight);
        self.lightest[entry] = Some(weight.min(other));
    }
}

/// None if no plan that keeps the rules has so small a bottleneck.
pub fn lightest(chain: &Chain, bottleneck: Load) -> Option<Weight> {
    let mut table = Table::new(chain);
    for last in 1..=chain.tasks {
        for first in 1..=last {
            for cores in 1..=chain.cores {
                let module = Module {
                    first,
                    last,
                    copies: 1,
                    cores,
                };
                if module.memory_fits(chain) && module.within_limit(chain) {
                    append(chain, &mut table, bottleneck, module);
                }
            }
        }
    }
    let ends = (1..=chain.cores).map(|cores| table.at(chain.tasks, cores, 0));
    let least = ends.filter_map(|entry| table.lightest[entry]).min();
    least.filter(|(cores, _)| *cores <= chain.cores)
}

/// Weighs the module as the last one, after all others and before all next ones, in the fewest copies.
fn append(chain: &Chain, table: &mut Table, bottleneck: Load, module: Module) {
    let Module {
        first, last, cores, ..
    } = module;
    let body = module.body(chain);
    let befores = if first == 1 { 0..=0 } else { 1..=chain.cores };
    let nexts = if last == chain.tasks {
        0..=0
    } else {
        1..=chain.cores
    };
    for before in befores {
        let Some((used, ticks)) = table.lightest[table.at(first - 1, before, cores)] else {
            continue;
        };
        let received = transfer(chain, first - 1, before, cores);
        for next in nexts.clone() {
            let sent = transfer(chain, last, cores, next);
            let response = received + body + sent;
            if let Some(module) = in_fewest_copies(chain, module, response, bottleneck) {
                let ticks = ticks + body + sent + module.dispatch(chain);
                table.add(module, next, (used + module.copies * cores, ticks));
            }
        }
    }
}

/// The external transfer after a task; 0 where no module is before it or behind it.
fn transfer(chain: &Chain, task: usize, s: usize, q: usize) -> u32 {
    if s == 0 || q == 0 {
        return 0;
    }
    chain.external(task, s, q)
}

/// The module in as many copies as bring its response, which is that of one copy, down to the bottleneck; none where more than the
/// board's cores would be needed.
fn in_fewest_copies(
    chain: &Chain,
    module: Module,
    response: u32,
    bottleneck: Load,
) -> Option<Module> {
    let most = if module.replicable(chain) {
        chain.cores
    } else {
        1
    };
    let mut in_copies = (1..=most).map(|copies| Module { copies, ..module });
    in_copies.find(|module| {
        let load = Load {
            response: response + module.dispatch(chain),
            copies: module.copies as u32,
        };
        !bottleneck.is_less(load)
    })
}

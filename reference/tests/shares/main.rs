//! Document 02, M-103, "Memory is split task by task": modules at all counts of cores, and how the files that are made tell this
//! test from the one before, "needs added up".

mod former;
mod modules;

use reference::cases::{self, Case, Kind};
use reference::costs::{MOST_CORES, MOST_TASKS};
use reference::plan::Module;
use reference::reach;

/// Files of the most tasks and cores: so many of each kind that is made for memory, and of the last of them four times as many.
fn large_files(of_each_kind: u64) -> impl Iterator<Item = Case> {
    let sized = |kind, seed| cases::sized(kind, MOST_TASKS, MOST_CORES, seed);
    let kinds = [Kind::TightMemory, Kind::NoPlan, Kind::Reaches];
    let of_each = (0..of_each_kind).flat_map(move |seed| kinds.map(|kind| sized(kind, seed)));
    let more = (0..4 * of_each_kind).map(move |seed| sized(Kind::Shares, seed));
    of_each.chain(more)
}

/// One copy of these tasks on so many cores.
fn module(first: usize, last: usize, cores: usize) -> Module {
    Module {
        cores,
        ..reach::of_one_core(first, last)
    }
}

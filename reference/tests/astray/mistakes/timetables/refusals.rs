//! Programs that go by the right machine, and go wrong with the number of a refusal or with its place.

use super::{Mistake, in_place, in_refusal};
use crate::mistakes::dispatch::readers::former;
use crate::mistakes::judges::judged_modules;
use reference::answer::{Filled, Refusal};
use reference::block_time::block_time;
use reference::plan::{self, Module, PLAN_BYTES};
use reference::timetable::{MOST_BLOCKS, ends, timetable};

pub const MISTAKES: [Mistake; 20] = [
    // "it refuses, after Judge's refusals, a plan with copies with 20 (place the module)"
    in_refusal("20 before Judge's of the plan", (13, 20), copies_first),
    in_refusal("copies are not refused", (20, 0), of_any_copies),
    in_refusal("20 by the slowest module only", (20, 0), of_fast_copies),
    in_refusal("13 to 16 are not refused", (15, 0), unjudged),
    in_place("20 at the last module with copies", last_copies),
    in_place(
        "20 without its place",
        |costs, plan, blocks, table| match timetable(costs, plan, blocks, table) {
            Filled { refusal: 20, .. } => Refusal::new(20).into(),
            right => right,
        },
    ),
    in_place(
        "20's place counted from 0",
        |costs, plan, blocks, table| match timetable(costs, plan, blocks, table) {
            Filled {
                refusal: 20, place, ..
            } => Refusal::at(20, place as usize - 1).into(),
            right => right,
        },
    ),
    // "and n outside 1 to 1,000 with 21", in that order
    in_refusal("21 before Judge's", (12, 21), blocks_before_plan),
    in_refusal("21 before those of the costs", (1, 21), blocks_first),
    in_refusal("21 before 20", (20, 21), blocks_before_copies),
    in_place("21 at the entry that is missing", place_of_21),
    in_refusal(
        "1,000 are refused",
        (0, 21),
        |costs, plan, blocks, table| up_to(MOST_BLOCKS - 1, costs, plan, blocks, table),
    ),
    in_refusal("1,001 pass", (21, 0), |costs, plan, blocks, table| {
        up_to(MOST_BLOCKS + 1, costs, plan, blocks, table)
    }),
    in_refusal(
        "0 passes",
        (21, 0),
        |costs, plan, blocks, table| match timetable(costs, plan, blocks, table) {
            Filled { refusal: 21, .. } if blocks == 0 => Filled::default(),
            right => right,
        },
    ),
    in_refusal("n of 16 bits", (21, 0), |costs, plan, blocks, table| {
        timetable(costs, plan, blocks & 0xffff, table)
    }),
    // "a table shorter than n entries counts as 21 too"
    in_refusal("a table one short is filled", (21, 0), one_short),
    in_refusal(
        "an entry more is due",
        (0, 21),
        |costs, plan, blocks, table| {
            let is_enough = table.len() > blocks as usize;
            with_entries(is_enough, costs, plan, blocks, table)
        },
    ),
    in_refusal("just n are due", (0, 21), |costs, plan, blocks, table| {
        let is_enough = table.len() == blocks as usize;
        with_entries(is_enough, costs, plan, blocks, table)
    }),
    // "bytes after the 48th are never read" (document 01)
    in_refusal("bytes behind the 48th are to be zero", (0, 12), all_bytes),
    // "refusal 2 tests the kind only" (M-106)
    in_refusal(
        "2 for a D other than 0",
        (0, 2),
        |costs, plan, blocks, table| {
            former(costs).map_or_else(|| timetable(costs, plan, blocks, table), Into::into)
        },
    ),
];

fn has_room(blocks: u32, table: &[u64]) -> bool {
    (1..=MOST_BLOCKS).contains(&blocks) && table.len() >= blocks as usize
}

fn first_with_copies(modules: &[Module]) -> Option<usize> {
    modules.iter().position(|module| module.copies > 1)
}

/// Where refusal 12 finds no fault.
fn copies_first(costs: &[u8], plan: &[u8], blocks: u32, table: &mut [u64]) -> Filled {
    let right = timetable(costs, plan, blocks, table);
    if !matches!(right.refusal, 13..=16) {
        return right;
    }
    match first_with_copies(&judged_modules(costs, plan).1) {
        Some(i) => Refusal::at(20, i + 1).into(),
        None => right,
    }
}

/// The ends of a plan that refusal 12 finds no fault in, in one copy, on the board's cores where a module has more.
fn in_one_copy(costs: &[u8], plan: &[u8], blocks: u32, table: &mut [u64]) -> Filled {
    if !has_room(blocks, table) {
        return Refusal::new(21).into();
    }
    let (chain, mut modules) = judged_modules(costs, plan);
    for module in &mut modules {
        module.copies = 1;
        module.cores = module.cores.min(chain.cores);
    }
    fill(&ends(&chain, &modules, blocks), table)
}

/// As many of the ends as there is room for.
pub fn fill(ends: &[u64], table: &mut [u64]) -> Filled {
    for (entry, &end) in table.iter_mut().zip(ends) {
        *entry = end;
    }
    Filled::counted(ends.len() as u32)
}

fn of_any_copies(costs: &[u8], plan: &[u8], blocks: u32, table: &mut [u64]) -> Filled {
    match timetable(costs, plan, blocks, table) {
        Filled { refusal: 20, .. } => in_one_copy(costs, plan, blocks, table),
        right => right,
    }
}

/// Where the slowest module has no copies, nobody asks for those of the others.
fn of_fast_copies(costs: &[u8], plan: &[u8], blocks: u32, table: &mut [u64]) -> Filled {
    let right = timetable(costs, plan, blocks, table);
    if right.refusal == 20 {
        let (chain, modules) = judged_modules(costs, plan);
        if plan::bottleneck(&chain, &modules).copies == 1 {
            return in_one_copy(costs, plan, blocks, table);
        }
    }
    right
}

/// No rule is tested but refusal 12's; 20 is.
fn unjudged(costs: &[u8], plan: &[u8], blocks: u32, table: &mut [u64]) -> Filled {
    let right = timetable(costs, plan, blocks, table);
    if !matches!(right.refusal, 13..=16) {
        return right;
    }
    match first_with_copies(&judged_modules(costs, plan).1) {
        Some(i) => Refusal::at(20, i + 1).into(),
        None => in_one_copy(costs, plan, blocks, table),
    }
}

fn last_copies(costs: &[u8], plan: &[u8], blocks: u32, table: &mut [u64]) -> Filled {
    let right = timetable(costs, plan, blocks, table);
    if right.refusal != 20 {
        return right;
    }
    let (_, modules) = judged_modules(costs, plan);
    let last = modules.iter().rposition(|module| module.copies > 1);
    Refusal::at(20, last.expect("some have copies") + 1).into()
}

/// Only the costs are tested before.
fn blocks_before_plan(costs: &[u8], plan: &[u8], blocks: u32, table: &mut [u64]) -> Filled {
    let right = timetable(costs, plan, blocks, table);
    let is_later = matches!(right.refusal, 7 | 12..=16);
    if is_later && !has_room(blocks, table) {
        return Refusal::new(21).into();
    }
    right
}

fn blocks_first(costs: &[u8], plan: &[u8], blocks: u32, table: &mut [u64]) -> Filled {
    if !has_room(blocks, table) {
        return Refusal::new(21).into();
    }
    timetable(costs, plan, blocks, table)
}

fn blocks_before_copies(costs: &[u8], plan: &[u8], blocks: u32, table: &mut [u64]) -> Filled {
    match timetable(costs, plan, blocks, table) {
        Filled { refusal: 20, .. } if !has_room(blocks, table) => Refusal::new(21).into(),
        right => right,
    }
}

fn place_of_21(costs: &[u8], plan: &[u8], blocks: u32, table: &mut [u64]) -> Filled {
    match timetable(costs, plan, blocks, table) {
        Filled { refusal: 21, .. } => Refusal::at(21, table.len() + 1).into(),
        right => right,
    }
}

/// Whether neither Judge nor 20 refuses.
fn passes(costs: &[u8], plan: &[u8]) -> bool {
    timetable(costs, plan, 1, &mut [0]).refusal == 0
}

/// With another count of the most blocks.
fn up_to(most: u32, costs: &[u8], plan: &[u8], blocks: u32, table: &mut [u64]) -> Filled {
    let has_room = (1..=most).contains(&blocks) && table.len() >= blocks as usize;
    if !passes(costs, plan) {
        return timetable(costs, plan, blocks, table);
    }
    if !has_room {
        return Refusal::new(21).into();
    }
    in_full(costs, plan, blocks, table)
}

/// All ends of a plan that passes, as many as there is room for.
fn in_full(costs: &[u8], plan: &[u8], blocks: u32, table: &mut [u64]) -> Filled {
    let (chain, modules) = judged_modules(costs, plan);
    fill(&ends(&chain, &modules, blocks), table)
}

pub fn one_short(costs: &[u8], plan: &[u8], blocks: u32, table: &mut [u64]) -> Filled {
    let is_one_short = blocks <= MOST_BLOCKS && table.len() + 1 == blocks as usize;
    match timetable(costs, plan, blocks, table) {
        Filled { refusal: 21, .. } if is_one_short => in_full(costs, plan, blocks, table),
        right => right,
    }
}

/// Where nothing else is refused, 21 goes by another test of what is lent.
fn with_entries(
    is_enough: bool,
    costs: &[u8],
    plan: &[u8],
    blocks: u32,
    table: &mut [u64],
) -> Filled {
    if passes(costs, plan) && !is_enough {
        return Refusal::new(21).into();
    }
    timetable(costs, plan, blocks, table)
}

/// As if they were a thirteenth record.
fn all_bytes(costs: &[u8], plan: &[u8], blocks: u32, table: &mut [u64]) -> Filled {
    let mut behind = plan.iter().skip(PLAN_BYTES);
    if block_time(costs, plan).refusal == 0 && behind.any(|&byte| byte != 0) {
        return Refusal::at(12, 13).into();
    }
    timetable(costs, plan, blocks, table)
}

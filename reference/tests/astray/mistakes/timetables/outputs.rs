//! Programs that give the right refusals and ends, and go wrong with the count or with what is lent.

use super::refusals::{fill, one_short};
use super::{Mistake, in_count, in_table};
use crate::mistakes::judges::judged_modules;
use reference::answer::Filled;
use reference::timetable::{ends, timetable};

pub const MISTAKES: [Mistake; 8] = [
    // "answers how many bytes or entries it filled" (document 01)
    in_count("the count is what is lent", |costs, plan, blocks, table| {
        let lent = table.len() as u32;
        counted(lent, timetable(costs, plan, blocks, table))
    }),
    in_count("the count is in bytes", |costs, plan, blocks, table| {
        let filled = timetable(costs, plan, blocks, table);
        counted(8 * filled.count, filled)
    }),
    in_count("a refusal keeps a count", |costs, plan, blocks, table| {
        let filled = timetable(costs, plan, blocks, table);
        let count = blocks;
        Filled { count, ..filled }
    }),
    // "what is lent beyond them is unchanged" (document 01)
    in_table("zeros behind the entries", |costs, plan, blocks, table| {
        let filled = timetable(costs, plan, blocks, table);
        if filled.refusal == 0 {
            table[blocks as usize..].fill(0);
        }
        filled
    }),
    in_table("all that is lent is filled", all_filled),
    // "any other bytes lent for output, are unchanged" (document 01)
    in_table("zeros with a refusal", |costs, plan, blocks, table| {
        let filled = timetable(costs, plan, blocks, table);
        if filled.refusal != 0 {
            table.fill(0);
        }
        filled
    }),
    in_table("zeros with 20", |costs, plan, blocks, table| {
        let filled = timetable(costs, plan, blocks, table);
        if filled.refusal == 20 {
            table.fill(0);
        }
        filled
    }),
    in_table("filled and refused", |costs, plan, blocks, table| {
        let filled = timetable(costs, plan, blocks, table);
        one_short(costs, plan, blocks, table);
        filled
    }),
];

/// With another count, unless it is a refusal.
fn counted(count: u32, filled: Filled) -> Filled {
    match filled.refusal {
        0 => Filled::counted(count),
        _ => filled,
    }
}

/// The ends of later blocks behind those that are asked for.
fn all_filled(costs: &[u8], plan: &[u8], blocks: u32, table: &mut [u64]) -> Filled {
    let filled = timetable(costs, plan, blocks, table);
    if filled.refusal == 0 {
        let (chain, modules) = judged_modules(costs, plan);
        fill(&ends(&chain, &modules, table.len() as u32), table);
    }
    filled
}

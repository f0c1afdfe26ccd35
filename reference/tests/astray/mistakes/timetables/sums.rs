//! Ends of blocks that are other sums, or other ticks of the right machine.

use crate::mistakes::Mistake;
use reference::costs::Chain;
use reference::plan::{self, Module};
use reference::timetable::ends;

pub const MISTAKES: [Mistake; 12] = [
    // "the end of the last module for blocks 1 to n"
    by_ends!("from block 0 on", from_block_0),
    by_ends!("the last block first", last_block_first),
    by_ends!("each end later by the last transfer", with_last_transfer),
    by_ends!("the end of the last transfer", without_last_execution),
    by_ends!("the first module's response for each block", by_first_alone),
    // "no sooner than n·B", and what else might be taken for the ends
    by_ends!("n·B", bottlenecks),
    by_ends!("n·L", one_after_another),
    by_ends!("as far apart as the first module takes", by_first_module),
    by_ends!("as far apart as the last module takes", by_last_module),
    by_ends!("as far apart as the longest execution", by_execution),
    // "of 64-bit numbers"
    by_ends!("ends of 32 bits", of_32_bits),
    by_ends!("ends of 16 bits", of_16_bits),
];

fn bottleneck(chain: &Chain, plan: &[Module]) -> u64 {
    plan::bottleneck(chain, plan).response.into()
}

/// So many entries from the first on, each so much more than the one before.
fn apart(first: u64, more: u64, blocks: u32) -> Vec<u64> {
    (0..blocks).map(|n| first + u64::from(n) * more).collect()
}

/// Block 1 at its right end, each other so much later than the one before it.
fn behind_first(more: u64, chain: &Chain, plan: &[Module], blocks: u32) -> Vec<u64> {
    apart(plan::block_time(chain, plan).into(), more, blocks)
}

/// (n − 1)·B + L.
pub fn by_bottleneck(chain: &Chain, plan: &[Module], blocks: u32) -> Vec<u64> {
    behind_first(bottleneck(chain, plan), chain, plan, blocks)
}

fn by_first_module(chain: &Chain, plan: &[Module], blocks: u32) -> Vec<u64> {
    let first = plan::response(chain, plan, 0);
    behind_first(first.into(), chain, plan, blocks)
}

fn by_last_module(chain: &Chain, plan: &[Module], blocks: u32) -> Vec<u64> {
    let last = plan::response(chain, plan, plan.len() - 1);
    behind_first(last.into(), chain, plan, blocks)
}

fn by_execution(chain: &Chain, plan: &[Module], blocks: u32) -> Vec<u64> {
    let executions = plan.iter().map(|module| module.body(chain));
    let longest = executions.max().unwrap_or(0);
    behind_first(longest.into(), chain, plan, blocks)
}

fn bottlenecks(chain: &Chain, plan: &[Module], blocks: u32) -> Vec<u64> {
    let bottleneck = bottleneck(chain, plan);
    apart(bottleneck, bottleneck, blocks)
}

/// As if the first module waited until the block before is through.
fn one_after_another(chain: &Chain, plan: &[Module], blocks: u32) -> Vec<u64> {
    let time = plan::block_time(chain, plan).into();
    apart(time, time, blocks)
}

fn from_block_0(chain: &Chain, plan: &[Module], blocks: u32) -> Vec<u64> {
    let mut table = vec![0];
    table.extend(ends(chain, plan, blocks - 1));
    table
}

fn last_block_first(chain: &Chain, plan: &[Module], blocks: u32) -> Vec<u64> {
    ends(chain, plan, blocks).into_iter().rev().collect()
}

/// As if the last module sent for as long as it receives, and waited for nobody.
fn with_last_transfer(chain: &Chain, plan: &[Module], blocks: u32) -> Vec<u64> {
    let received = u64::from(plan::received(chain, plan, plan.len() - 1));
    let ends = ends(chain, plan, blocks).into_iter();
    ends.map(|end| end + received).collect()
}

fn without_last_execution(chain: &Chain, plan: &[Module], blocks: u32) -> Vec<u64> {
    let execution = u64::from(plan[plan.len() - 1].body(chain));
    let ends = ends(chain, plan, blocks).into_iter();
    ends.map(|end| end - execution).collect()
}

/// As if there were no others, though it sends.
fn by_first_alone(chain: &Chain, plan: &[Module], blocks: u32) -> Vec<u64> {
    let response = plan::response(chain, plan, 0).into();
    apart(response, response, blocks)
}

/// The right ends, of which only the low bits are kept.
fn low_bits(bits: u64, chain: &Chain, plan: &[Module], blocks: u32) -> Vec<u64> {
    let ends = ends(chain, plan, blocks).into_iter();
    ends.map(|end| end & bits).collect()
}

fn of_32_bits(chain: &Chain, plan: &[Module], blocks: u32) -> Vec<u64> {
    low_bits(u32::MAX.into(), chain, plan, blocks)
}

fn of_16_bits(chain: &Chain, plan: &[Module], blocks: u32) -> Vec<u64> {
    low_bits(u16::MAX.into(), chain, plan, blocks)
}

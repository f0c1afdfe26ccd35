//! Files and plans that are damaged in one way or several.

pub mod laws;

use crate::cases;
use crate::costs::{Chain, DISPATCH, RECORD_BYTES};
use crate::greedy;
use crate::plan::{self, Module, PLAN_BYTES, RULES};
use crate::random::Random;

#[derive(Clone, Copy, Debug, PartialEq, Eq)]
pub enum Damage {
    FlippedBit,
    SetByte,
    Cut,
    Extended,
    SwappedRecords,
    RepeatedRecord,
    OutOfRange,
    OtherLimit,
    OtherDispatch,
    WrongHead,
    Several,
}

pub const DAMAGES: [Damage; 11] = [
    Damage::FlippedBit,
    Damage::SetByte,
    Damage::Cut,
    Damage::Extended,
    Damage::SwappedRecords,
    Damage::RepeatedRecord,
    Damage::OutOfRange,
    Damage::OtherLimit,
    Damage::OtherDispatch,
    Damage::WrongHead,
    Damage::Several,
];

/// The file with that damage. Now and then it is still an accepted one; with another D (document 02, M-106) it always is.
pub fn damaged(costs: &[u8], damage: Damage, random: &mut Random) -> Vec<u8> {
    let mut bytes = costs.to_vec();
    apply(&mut bytes, damage, random);
    bytes
}

/// The small file of the seed with that damage, and the random numbers to go on with.
pub fn small(seed: u64, damage: Damage) -> (Vec<u8>, Random) {
    let mut random = Random::new(!seed);
    let costs = damaged(&cases::small(seed).costs, damage, &mut random);
    (costs, random)
}

fn apply(bytes: &mut Vec<u8>, damage: Damage, random: &mut Random) {
    let records = bytes.len() / RECORD_BYTES;
    if records == 0 {
        return;
    }
    match damage {
        Damage::FlippedBit => {
            let i = some_byte(bytes, random);
            bytes[i] ^= 1 << random.below(8);
        }
        Damage::SetByte => {
            let i = some_byte(bytes, random);
            bytes[i] = random.pick(&[0, 1, 2, 127, 128, 254, 255]);
        }
        Damage::Cut => cut(bytes, records, random),
        Damage::Extended => extend(bytes, random),
        Damage::SwappedRecords => {
            let (i, j) = (random.below(records), random.below(records));
            swap_records(bytes, RECORD_BYTES, i, j);
        }
        Damage::RepeatedRecord => {
            let (from, to) = (random.below(records), random.below(records));
            copy_record(bytes, RECORD_BYTES, from, to);
        }
        Damage::OutOfRange => set_out_of_range(bytes, records, random),
        Damage::OtherLimit => set_limit(bytes, records, random),
        Damage::OtherDispatch => bytes[DISPATCH] = random.pick(&[1, 2, 10, 127, 128, 255]),
        Damage::WrongHead => set_head(bytes, random),
        Damage::Several => {
            for _ in 0..random.within(2, 4) {
                // all but this one, which stands last
                apply(bytes, random.pick(&DAMAGES[..DAMAGES.len() - 1]), random);
            }
        }
    }
}

/// Half of the time in the records that say most: the first ones.
fn some_byte(bytes: &[u8], random: &mut Random) -> usize {
    if random.once_in(2) {
        return random.below(bytes.len().min(3 * RECORD_BYTES));
    }
    random.below(bytes.len())
}

fn cut(bytes: &mut Vec<u8>, records: usize, random: &mut Random) {
    let length = match random.below(3) {
        0 => random.below(bytes.len()),
        1 => random.below(records) * RECORD_BYTES,
        _ => bytes.len() - 1,
    };
    bytes.truncate(length);
}

fn extend(bytes: &mut Vec<u8>, random: &mut Random) {
    let more = random.pick(&[1, 7, 8, 9, 16, 64]);
    if random.once_in(2) {
        bytes.resize(bytes.len() + more, 0);
    } else {
        let tail = bytes[bytes.len() - RECORD_BYTES..].to_vec();
        bytes.extend(tail.iter().cycle().take(more));
    }
}

/// Two records of so many bytes, counted from 0.
fn swap_records(bytes: &mut [u8], size: usize, i: usize, j: usize) {
    for byte in 0..size {
        bytes.swap(i * size + byte, j * size + byte);
    }
}

/// One record over another one.
fn copy_record(bytes: &mut [u8], size: usize, from: usize, to: usize) {
    bytes.copy_within(from * size..(from + 1) * size, to * size);
}

fn set_out_of_range(bytes: &mut [u8], records: usize, random: &mut Random) {
    let at = random.below(records) * RECORD_BYTES;
    if bytes[at] == 2 && random.once_in(2) {
        bytes[at + 2] = random.pick(&[2, 3, 128, 255]);
        return;
    }
    let value: u32 = random.pick(&[1_000_000, 1_000_001, 1 << 24, 1 << 31, u32::MAX]);
    bytes[at + 4..at + 8].copy_from_slice(&value.to_le_bytes());
}

/// Another limit in some task's record, near and beyond what it may be.
fn set_limit(bytes: &mut [u8], records: usize, random: &mut Random) {
    let of_tasks: Vec<usize> = (0..records)
        .filter(|record| bytes[record * RECORD_BYTES] == 2)
        .collect();
    if !of_tasks.is_empty() {
        let b = random.pick(&of_tasks) * RECORD_BYTES + 3;
        bytes[b] = random.pick(&[0, 1, 2, 3, 8, 16, 31, 32, 33, 34, 128, 255]);
    }
}

/// Another kind of the first record; or another P, k or capacity, near and beyond the bounds.
fn set_head(bytes: &mut [u8], random: &mut Random) {
    match random.below(5) {
        0 => bytes[0] = random.pick(&[0, 2, 3, 129, 255]),
        1 => bytes[2] = random.pick(&[0, 1, 31, 32, 33, 64, 255]),
        2 => bytes[3] = random.pick(&[0, 1, 11, 12, 13, 255]),
        3 => bytes.swap(2, 3),
        _ => {
            let capacity: u32 = random.pick(&[0, 1, 1_000_000, 1_000_001, u32::MAX]);
            bytes[4..8].copy_from_slice(&capacity.to_le_bytes());
        }
    }
}

/// A plan that may well be one: modules in order with few copies and cores, now and then with one byte changed.
pub fn random_plan(tasks: usize, cores: usize, random: &mut Random) -> [u8; PLAN_BYTES] {
    let mut modules = Vec::new();
    let mut covered = 0;
    while covered < tasks {
        let first = covered + 1;
        covered = random.within(first, tasks);
        modules.push(Module {
            first,
            last: covered,
            copies: random.pick(&[1, 1, 1, 2, 3]),
            cores: random.within(1, (cores / tasks).max(2)),
        });
    }
    let mut plan = plan::encode(&modules);
    if random.once_in(3) {
        plan[random.below(PLAN_BYTES)] = random.pick(&[0, 1, 2, 3, 12, 32, 255]);
    }
    plan
}

/// A plan of modules that have the fewest cores that their memory allows, or one more or less; or the most that a byte can say.
pub fn tight_plan(chain: &Chain, random: &mut Random) -> [u8; PLAN_BYTES] {
    let grouping = random.word() as u16 & ((1 << (chain.tasks - 1)) - 1);
    let groups = greedy::groups(chain.tasks, grouping);
    let mut modules = greedy::with_fewest_cores(RULES.fits, chain, groups);
    for module in &mut modules {
        let fewest = module.cores;
        module.copies = random.pick(&[1, 1, 1, 2]);
        module.cores = random.pick(&[fewest, fewest, fewest + 1, fewest.max(2) - 1, 255]);
    }
    plan::encode(&modules)
}

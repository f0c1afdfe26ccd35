//! Law records that are damaged in one way or several, and first parts that are.

use super::DAMAGES;
use crate::cases::laws::{self, LawCase};
use crate::costs::{self, MOST_VALUE};
use crate::laws::{LAW_BYTES, coefficients};
use crate::random::Random;

#[derive(Clone, Copy, Debug, PartialEq, Eq)]
pub enum LawDamage {
    Kind,
    Task,
    Form,
    Zero,
    Unused,
    AnyByte,
    Length,
    SwappedRecords,
    RepeatedRecord,
    Above,
    Head,
    WholeFile,
    Several,
}

pub const LAW_DAMAGES: [LawDamage; 13] = [
    LawDamage::Kind,
    LawDamage::Task,
    LawDamage::Form,
    LawDamage::Zero,
    LawDamage::Unused,
    LawDamage::AnyByte,
    LawDamage::Length,
    LawDamage::SwappedRecords,
    LawDamage::RepeatedRecord,
    LawDamage::Above,
    LawDamage::Head,
    LawDamage::WholeFile,
    LawDamage::Several,
];

/// The small laws of the seed with that damage. Now and then nothing is wrong with them.
pub fn small(seed: u64, damage: LawDamage) -> LawCase {
    let mut case = laws::small(seed);
    apply(&mut case, damage, &mut Random::new(!seed));
    case
}

fn apply(case: &mut LawCase, damage: LawDamage, random: &mut Random) {
    let laws = &mut case.laws;
    let records = laws.len() / LAW_BYTES;
    let record = random.below(records.max(1));
    match damage {
        LawDamage::Head => {
            let damage = random.pick(&DAMAGES);
            case.head = super::damaged(&case.head, damage, random);
        }
        LawDamage::WholeFile => make_whole(&mut case.head),
        LawDamage::Length => change_length(laws, random),
        LawDamage::Several => {
            for _ in 0..random.within(2, 3) {
                // all but this one, which stands last
                let others = &LAW_DAMAGES[..LAW_DAMAGES.len() - 1];
                apply(case, random.pick(others), random);
            }
        }
        // all others are in some record
        _ if records == 0 => {}
        LawDamage::AnyByte => {
            let i = random.below(laws.len());
            laws[i] = random.pick(&[0, 1, 2, 3, 128, 255]);
        }
        LawDamage::SwappedRecords => {
            super::swap_records(laws, LAW_BYTES, record, random.below(records));
        }
        LawDamage::RepeatedRecord => {
            super::copy_record(laws, LAW_BYTES, record, random.below(records));
        }
        _ => spoil(&mut laws[record * LAW_BYTES..][..LAW_BYTES], damage, random),
    }
}

/// One field of a record.
fn spoil(record: &mut [u8], damage: LawDamage, random: &mut Random) {
    match damage {
        LawDamage::Kind => record[0] = random.pick(&[0, 1, 2, 3, 4, 5, 6, 255]),
        LawDamage::Task => {
            let task = record[1];
            record[1] = random.pick(&[0, task.wrapping_sub(1), task.wrapping_add(1), 13, 255]);
        }
        LawDamage::Form => record[2] = random.pick(&[0, 1, 2, 3, 128, 255]),
        LawDamage::Zero => record[3] = random.pick(&[1, 2, 128, 255]),
        LawDamage::Unused => spoil_unused(record, random),
        // a value above the bound, with any form that uses the coefficient
        _ => {
            let great = MOST_VALUE + random.pick(&[1, 1 << 20, 1 << 31]);
            let used = if record[2] == 0 { 1 } else { 3 };
            set_coefficient(record, random.below(used), great);
        }
    }
}

/// A coefficient that is 0, most of the time because the form has no use for it; any of its bytes.
fn spoil_unused(record: &mut [u8], random: &mut Random) {
    let found = coefficients(record);
    let zeros: Vec<usize> = (1..found.len()).filter(|&i| found[i] == 0).collect();
    if !zeros.is_empty() {
        let value = 1 << random.below(32);
        set_coefficient(record, random.pick(&zeros), value);
    }
}

fn set_coefficient(record: &mut [u8], i: usize, value: u32) {
    record[4 + 4 * i..][..4].copy_from_slice(&value.to_le_bytes());
}

fn change_length(laws: &mut Vec<u8>, random: &mut Random) {
    let length = laws.len();
    let other = random.pick(&[
        0,
        length - length.min(1),
        length - length.min(LAW_BYTES),
        length / 2,
        length + 1,
        length + LAW_BYTES,
        length + 2 * LAW_BYTES,
        // the same to whoever counts in 8 or 16 bits
        length + (1 << 8),
        length + (1 << 16),
    ]);
    laws.resize(other, 0);
}

/// The first part with all other records behind it, as `judge` takes it, if it is an accepted one.
fn make_whole(head: &mut Vec<u8>) {
    if let Ok(chain) = costs::read_head(head) {
        let keys = costs::time_keys(chain.tasks as u8, chain.cores as u8);
        head.extend(keys.into_iter().flat_map(|key| key.record(1)));
    }
}

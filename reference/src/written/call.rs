//! The call of a case, and what is lent to it.

use std::str::FromStr;

use super::due::{Due, counted};
use super::words::{self, matched, number, split_if};
use crate::every::WORK_WORDS;
use crate::plan::PLAN_BYTES;
use crate::timetable::MOST_BLOCKS;

/// How many bytes, words or entries are lent, and what each holds.
#[derive(Clone, Copy, Debug)]
pub struct Lent<T> {
    pub length: usize,
    pub held: T,
}

/// What is lent where a line does not say so.
pub const PLAN: Lent<u8> = Lent {
    length: PLAN_BYTES,
    held: 255,
};
pub const WORK: Lent<u32> = Lent {
    length: WORK_WORDS,
    held: 7,
};
pub const TABLE: Lent<u64> = Lent {
    length: 1,
    held: 255,
};

#[derive(Debug)]
pub enum Call {
    /// All services that take costs.
    Read,
    Judge {
        plan: Vec<u8>,
    },
    Greedy {
        grouping: u16,
        plan: Lent<u8>,
    },
    Best {
        plan: Lent<u8>,
        work: Lent<u32>,
    },
    Reach {
        first: u8,
    },
    BlockTime {
        plan: Vec<u8>,
    },
    Timetable {
        blocks: u32,
        plan: Vec<u8>,
        table: Lent<u64>,
    },
}

impl Call {
    /// Whether such a call can be due that: Judge no plan, a planner a plan with its figures, only a reach a reach, only a block
    /// time a time, only a timetable a table of as many entries as blocks, and `read` none of these.
    pub fn suits(&self, due: &Due) -> bool {
        match due {
            Due::Accepted => matches!(self, Call::Read),
            Due::Refusal(_) => true,
            Due::Figures(_) => matches!(self, Call::Judge { .. }),
            Due::Plan(..) => matches!(self, Call::Greedy { .. } | Call::Best { .. }),
            Due::Reach(_) => matches!(self, Call::Reach { .. }),
            Due::Time(_) => matches!(self, Call::BlockTime { .. }),
            Due::Table(ends) => match self {
                Call::Timetable { blocks, table, .. } => {
                    ends.len() == *blocks as usize && ends.len() <= table.length
                }
                _ => false,
            },
        }
    }
}

pub fn parse(text: &str) -> Result<Call, String> {
    if text == "read" {
        return Ok(Call::Read);
    }
    if let Some(plan) = text.strip_prefix("judge ") {
        let plan = judged_bytes(plan)?;
        return Ok(Call::Judge { plan });
    }
    if let Some(plan) = text.strip_prefix("block time of ") {
        let plan = judged_bytes(plan)?;
        return Ok(Call::BlockTime { plan });
    }
    if let Some(rest) = text.strip_prefix("timetable of ") {
        return timetable(rest);
    }
    if let Some(rest) = text.strip_prefix("bench way ") {
        let (grouping, plan) = split_if(rest, " into ");
        return Ok(Call::Greedy {
            grouping: number(grouping)?,
            plan: lent(plan, "# bytes", PLAN)?,
        });
    }
    if let Some(first) = text.strip_prefix("reach of task ") {
        let first = number(first)?;
        return Ok(Call::Reach { first });
    }
    let (rest, work) = split_if(text, " with ");
    let (name, plan) = split_if(rest, " into ");
    if name != "best plan" {
        return Err(format!("`{name}` is no call"));
    }
    Ok(Call::Best {
        plan: lent(plan, "# bytes", PLAN)?,
        work: lent(work, "# words", WORK)?,
    })
}

/// `5 blocks by 1 1 1 2, 2 2 1 2`, then maybe `into 7 entries of 9`; else there are as many entries as blocks, or as the most
/// blocks and one.
fn timetable(text: &str) -> Result<Call, String> {
    let (blocks, rest) = words::split(text, " by ")?;
    let (plan, table) = split_if(rest, " into ");
    let blocks = counted(blocks, "block", "blocks")?;
    let pattern = match table {
        Some(table) if table.starts_with("1 ") => "# entry",
        _ => "# entries",
    };
    let length = blocks.min(MOST_BLOCKS + 1) as usize;
    Ok(Call::Timetable {
        blocks,
        plan: judged_bytes(plan)?,
        table: lent(table, pattern, Lent { length, ..TABLE })?,
    })
}

/// Modules or one byte everywhere, then a byte changed, then cut or with bytes 255 behind the 48th.
fn judged_bytes(text: &str) -> Result<Vec<u8>, String> {
    let (text, length) = split_if(text, " in ");
    let (modules, byte) = split_if(text, " with byte ");
    let mut plan = match modules.strip_suffix(" everywhere") {
        Some(value) => vec![number(value)?; PLAN_BYTES],
        None => words::plan(modules)?.to_vec(),
    };
    if let Some(byte) = byte {
        let (at, value) = words::split(byte, " = ")?;
        let at: usize = number(at)?;
        let place = plan.get_mut(at).ok_or_else(|| format!("no byte {at}"))?;
        *place = number(value)?;
    }
    if let Some(length) = length {
        let Some([length]) = matched("# bytes", length) else {
            return Err(format!("`{length}` is no length of plan bytes"));
        };
        plan.resize(length as usize, 255);
    }
    Ok(plan)
}

/// `60 bytes of 9`, `16390 words`, `7 entries of 9`: what is not said is as in the other.
pub fn lent<T: FromStr>(
    text: Option<&str>,
    pattern: &str,
    other: Lent<T>,
) -> Result<Lent<T>, String> {
    let Some(text) = text else {
        return Ok(other);
    };
    let (length, held) = split_if(text, " of ");
    let Some([length]) = matched(pattern, length) else {
        return Err(format!("`{text}` is not `{pattern}`"));
    };
    Ok(Lent {
        length: length as usize,
        held: held.map_or(Ok(other.held), number)?,
    })
}

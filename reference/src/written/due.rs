//! What a case is due.

use super::words::{self, matched, number, split_if};
use crate::answer::{Answer, Refusal};
use crate::plan::PLAN_BYTES;
use crate::timetable::MOST_BLOCKS;

#[derive(Debug)]
pub enum Due {
    /// No service gives a refusal of 1 to 6.
    Accepted,
    Refusal(Refusal),
    Figures(Answer),
    /// A plan that is filled in, and its figures.
    Plan([u8; PLAN_BYTES], Answer),
    /// The last task within reach, or 0.
    Reach(u32),
    /// The single-block time.
    Time(u32),
    /// The ends of all blocks that are asked for.
    Table(Vec<u64>),
}

pub fn parse(text: &str) -> Result<Due, String> {
    if text == "accepted" {
        return Ok(Due::Accepted);
    }
    if let Some(refused) = text.strip_prefix("refusal ") {
        return Ok(Due::Refusal(refusal(refused)?));
    }
    if let Some([reach]) = matched("reach #", text) {
        return Ok(Due::Reach(reach));
    }
    if let Some([time]) = matched("time #", text) {
        return Ok(Due::Time(time));
    }
    if let Some(ends) = text.strip_prefix("table ") {
        return Ok(Due::Table(table(ends)?));
    }
    let Some(rest) = text.strip_prefix("plan ") else {
        return Ok(Due::Figures(figures(text)?));
    };
    let (plan, rest) = words::split(rest, "; ")?;
    Ok(Due::Plan(words::plan(plan)?, figures(rest)?))
}

/// `9`, or `12, place 2`.
pub fn refusal(text: &str) -> Result<Refusal, String> {
    let (refusal, place) = split_if(text, ", place ");
    Ok(Refusal {
        number: number(refusal)?,
        place: place.map_or(Ok(0), number)?,
    })
}

/// `19 31 43`, or with more behind these `19 31, then 12 apart, 1000 entries`.
fn table(text: &str) -> Result<Vec<u64>, String> {
    let (first, more) = split_if(text, ", then ");
    let mut ends = first
        .split(' ')
        .map(number)
        .collect::<Result<Vec<u64>, _>>()?;
    if let Some(more) = more {
        let (last, given) = (ends[ends.len() - 1], ends.len() as u32);
        let further = match matched("# apart, # entries", more) {
            Some([apart, entries]) if (given + 1..=MOST_BLOCKS).contains(&entries) => {
                (1..=entries - given).map(move |n| last + u64::from(n) * u64::from(apart))
            }
            _ => return Err(format!("`{more}` are no further entries")),
        };
        ends.extend(further);
    }
    Ok(ends)
}

fn figures(text: &str) -> Result<Answer, String> {
    let parts: Vec<&str> = text.split(", ").collect();
    let [modules, cores, slowest, response, copies] = parts[..] else {
        return Err(format!("`{text}` are no figures"));
    };
    Ok(Answer {
        refusal: 0,
        place: 0,
        modules: counted(modules, "module", "modules")?,
        cores: counted(cores, "core", "cores")?,
        slowest: named(slowest, "slowest #")?,
        response: named(response, "response #")?,
        copies: named(copies, "r #")?,
    })
}

/// `1 module`, `2 modules`.
pub fn counted(text: &str, one: &str, several: &str) -> Result<u32, String> {
    let (count, word) = words::split(text, " ")?;
    let count = number(count)?;
    if word != if count == 1 { one } else { several } {
        return Err(format!("`{text}` is no count of {several}"));
    }
    Ok(count)
}

fn named(text: &str, pattern: &str) -> Result<u32, String> {
    match matched(pattern, text) {
        Some([number]) => Ok(number),
        None => Err(format!("`{text}` is not `{pattern}`")),
    }
}

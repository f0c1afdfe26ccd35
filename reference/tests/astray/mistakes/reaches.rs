//! Wrong programs that get document 02's M-102, the reach of a first task, wrong. Each says what it must show in: the refusal,
//! its place or the count.

mod answers;
mod ends;
mod modules;
pub mod searches;

use super::Mistake;
use reference::answer::Filled;
use reference::services::{REFERENCE, Services};

type Reach = fn(&[u8], u8) -> Filled;

/// All of them that find reaches; those that plan by them are in `searches`.
pub fn mistakes() -> impl Iterator<Item = Mistake> {
    let counts = modules::MISTAKES.into_iter().chain(ends::MISTAKES);
    counts.chain(answers::MISTAKES)
}

/// A wrong refusal: the number that is due, and the one found; 0 is none.
const fn in_refusal(what: &'static str, (due, found): (u32, u32), reach: Reach) -> Mistake {
    in_part(what, "reach: refusal", reach).with_refusals(due, found)
}

const fn in_place(what: &'static str, reach: Reach) -> Mistake {
    in_part(what, "reach: place", reach)
}

pub const fn in_count(what: &'static str, reach: Reach) -> Mistake {
    in_part(what, "reach: count", reach)
}

const fn in_part(what: &'static str, shows_in: &'static str, reach: Reach) -> Mistake {
    Mistake::new(what, shows_in, Services { reach, ..REFERENCE })
}

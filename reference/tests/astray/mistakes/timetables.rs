//! Wrong programs that get document 02's M-105, the timetable of a stream, wrong. Each says what it must show in: the refusal, its
//! place, the count or the table.

/// A program with the right refusals, and another way to find the ends of the blocks.
macro_rules! by_ends {
    ($what:literal, $ends:expr) => {
        super::in_table($what, |costs, plan, blocks, table| {
            reference::timetable::timetable_by($ends, costs, plan, blocks, table)
        })
    };
}

mod machines;
mod outputs;
mod refusals;
pub mod sums;

use super::Mistake;
use reference::answer::Filled;
use reference::services::{REFERENCE, Services};

/// All of them.
pub fn mistakes() -> impl Iterator<Item = Mistake> {
    let tables = machines::MISTAKES.into_iter().chain(sums::MISTAKES);
    let answers = refusals::MISTAKES.into_iter().chain(outputs::MISTAKES);
    tables.chain(answers)
}

type Timetable = fn(&[u8], &[u8], u32, &mut [u64]) -> Filled;

/// A wrong refusal: the number that is due, and the one found; 0 is none.
const fn in_refusal(what: &'static str, (due, found): (u32, u32), timetable: Timetable) -> Mistake {
    in_part(what, "timetable: refusal", timetable).with_refusals(due, found)
}

const fn in_place(what: &'static str, timetable: Timetable) -> Mistake {
    in_part(what, "timetable: place", timetable)
}

const fn in_count(what: &'static str, timetable: Timetable) -> Mistake {
    in_part(what, "timetable: count", timetable)
}

const fn in_table(what: &'static str, timetable: Timetable) -> Mistake {
    in_part(what, "timetable: table", timetable)
}

const fn in_part(what: &'static str, shows_in: &'static str, timetable: Timetable) -> Mistake {
    let services = Services {
        timetable,
        ..REFERENCE
    };
    Mistake::new(what, shows_in, services)
}

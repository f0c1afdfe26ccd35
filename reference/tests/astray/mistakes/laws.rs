//! Wrong programs that get document 02's M-101, costs from laws, wrong. Each says what it must show in: the refusal, its place,
//! the count or the output.

mod arranged;
pub mod bounds;
mod lawful;
mod outputs;
mod refusals;
pub mod values;

use super::Mistake;
use reference::answer::Filled;
use reference::services::{REFERENCE, Services};

type FillCosts = fn(&[u8], &[u8], &mut [u8]) -> Filled;

/// All of them.
pub fn mistakes() -> impl Iterator<Item = Mistake> {
    let values = values::MISLEADING.into_iter().chain(values::OTHERS);
    let records = lawful::MISTAKES.into_iter().chain(arranged::MISTAKES);
    let refusals = refusals::MISTAKES.into_iter().chain(bounds::MISTAKES);
    values
        .chain(records)
        .chain(refusals)
        .chain(outputs::MISTAKES)
}

/// A wrong refusal: the number that is due, and the one found; 0 is none.
const fn in_refusal(
    what: &'static str,
    (due, found): (u32, u32),
    fill_costs: FillCosts,
) -> Mistake {
    in_part(what, "fill costs: refusal", fill_costs).with_refusals(due, found)
}

const fn in_place(what: &'static str, fill_costs: FillCosts) -> Mistake {
    in_part(what, "fill costs: place", fill_costs)
}

const fn in_count(what: &'static str, fill_costs: FillCosts) -> Mistake {
    in_part(what, "fill costs: count", fill_costs)
}

const fn in_output(what: &'static str, fill_costs: FillCosts) -> Mistake {
    in_part(what, "fill costs: output", fill_costs)
}

const fn in_part(what: &'static str, shows_in: &'static str, fill_costs: FillCosts) -> Mistake {
    let services = Services {
        fill_costs,
        ..REFERENCE
    };
    Mistake::new(what, shows_in, services)
}

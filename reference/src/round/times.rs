//! The single-block times of plans (document 02, M-104), compared, with a count of what was met.

use crate::answer::{Answer, Filled};
use crate::compare::{self, Both, Difference};
use crate::tally::Tally;

/// That of plan bytes to which Judge gave this answer: with the same refusal and place. It is 0 with a refusal.
pub fn of_judged(
    both: &Both,
    plan: &[u8],
    judged: Answer,
    tally: &mut Tally,
) -> Result<u32, Difference> {
    let timed = compare::block_time(both, plan)?;
    if (timed.refusal, timed.place) != (judged.refusal, judged.place) {
        let what = format!("judged as {judged:?}, timed as {timed:?}");
        let service = "block time";
        return Err(Difference { service, what });
    }
    count(judged, timed, tally);
    Ok(timed.count)
}

/// Counts the refusal, or how the time stands to the slowest module's response.
fn count(judged: Answer, timed: Filled, tally: &mut Tally) {
    if timed.refusal != 0 {
        tally.add(format!("block time: refusal {}", timed.refusal));
        if timed.place != 0 {
            tally.add("block time: a refusal with a place");
        }
        return;
    }
    let modules = match judged.modules {
        1 => "one module",
        _ => "several modules",
    };
    let time = match timed.count {
        0 => "0",
        time if time == judged.response => "the slowest response",
        _ => "more than the slowest response",
    };
    tally.add(format!("block time: {time}, {modules}"));
}

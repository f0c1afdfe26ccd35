//! Costs filled in from laws, compared, and all services on what was filled in, against the second planner, which works
//! from the laws.

use super::all;
use crate::answer::Filled;
use crate::cases::Case;
use crate::cases::laws::LawCase;
use crate::compare::{self, Both, Difference};
use crate::costs::{self, MOST_CORES, MOST_TASKS, RECORD_BYTES};
use crate::laws;
use crate::random::Random;
use crate::services::Services;
use crate::tally::Tally;

/// The bytes of the full set of cost records, by the size that the first part says; those of one record if it says none.
pub fn full_bytes(head: &[u8]) -> usize {
    match *head {
        [_, _, cores, tasks, ..]
            if usize::from(tasks) <= MOST_TASKS && usize::from(cores) <= MOST_CORES =>
        {
            let times = costs::time_keys(tasks, cores).len();
            (1 + usize::from(tasks) + times) * RECORD_BYTES
        }
        _ => RECORD_BYTES,
    }
}

/// Sets the random numbers of the room apart from those of the laws and of a damage, which have the same seed.
const OF_ROOM: u64 = 1 << 32;

/// Fills in as many bytes as are due, or some more, or too few; the answer, and the bytes that it counts.
pub fn answered(
    expected: &Services,
    found: &Services,
    case: &LawCase,
) -> Result<(Filled, Vec<u8>), Difference> {
    let mut random = Random::new(case.seed ^ OF_ROOM);
    let due = full_bytes(&case.head);
    let room = random.pick(&[due, due, due, due + 1, due + 100, due - 1, due - 8, 0]);
    let lent = (&case.head[..], &case.laws[..]);
    let (answer, mut out) = compare::fill_costs(expected, found, lent, room, case.seed)?;
    out.truncate(answer.count as usize);
    Ok((answer, out))
}

/// How an answer is counted.
pub fn named(answer: Filled) -> String {
    match answer.refusal {
        0 => "fill costs: filled in".to_string(),
        number => format!("fill costs: refusal {number}"),
    }
}

/// All services on the bytes that were filled in, against the planner that evaluates the laws and tries all plans.
pub fn planned(
    found: &Services,
    case: &LawCase,
    costs: Vec<u8>,
    tally: &mut Tally,
) -> Result<(), Difference> {
    let chain = laws::chain(&case.head, &case.laws).expect("they were filled in");
    let file = Case {
        seed: case.seed,
        kind: case.head_kind,
        costs,
    };
    let both = Both::with(chain, found, &file.costs);
    all(&both, &file, tally)
}

//! The figures of the best plan, held to the two dynamic programs, which find them without the plan.

use crate::answer::Answer;
use crate::compare::Difference;
use crate::costs::Chain;
use crate::lightest::lightest;
use crate::paper::least_bottleneck;
use crate::plan::Load;

/// The answer of Best plan has, as a fraction, the least bottleneck, and the fewest cores within it; and this, the time of its
/// plan, is the least with so many. Refusal 9 is given where there is no plan.
pub fn expect_least(chain: &Chain, answer: Answer, time: u32) -> Result<(), Difference> {
    let found = Load {
        response: answer.response,
        copies: answer.copies,
    };
    let least = least_bottleneck(chain);
    let weight = least.and_then(|least| lightest(chain, least));
    let is_right = match least {
        None => answer.refusal == 9,
        Some(least) => {
            answer.refusal == 0
                && found.compare(least).is_eq()
                && weight == Some((answer.cores as usize, time))
        }
    };
    if is_right {
        return Ok(());
    }
    let service = "best plan";
    let what = format!(
        "dynamic programs: {least:?}, cores and time {weight:?}; found {answer:?} and time {time}"
    );
    Err(Difference { service, what })
}

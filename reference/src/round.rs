//! All services on one file, accepted or damaged, compared, with a count of what was met.

pub mod dynamic;
pub mod laws;
pub mod memory;
pub mod reaches;
pub mod tables;
pub mod times;

use crate::answer::Answer;
use crate::cases::Case;
use crate::compare::{self, Both, Difference, Lent};
use crate::costs::DISPATCH;
use crate::damage;
use crate::every::WORK_WORDS;
use crate::plan::PLAN_BYTES;
use crate::random::Random;
use crate::tally::Tally;

/// Best plan; Judge on its plan; the greedy plan with every grouping, and Judge on each; Judge on some random plans, and on some
/// whose memory just suffices or does not; the single-block time and a timetable of all that is judged; the reaches. The costs
/// stay as they are.
pub fn all(both: &Both, case: &Case, tally: &mut Tally) -> Result<(), Difference> {
    let mut random = Random::new(!case.seed);
    let lent = Lent {
        plan: PLAN_BYTES + random.pick(&[0, 0, 1, 5]),
        work: WORK_WORDS + random.pick(&[0, 0, 1, 100]),
        seed: random.word(),
    };
    let (answer, plan) = compare::best_plan(both, lent)?;
    count("best plan", both, answer, tally);
    judge_filled(both, answer, &plan, tally)?;
    all_groupings(both, case, lent, tally)?;
    for _ in 0..6 {
        let (tasks, cores) = (case.costs[3].into(), case.costs[2].into());
        let plan = damage::random_plan(tasks, cores, &mut random);
        judged(both, &plan, tally)?;
    }
    memory::judged(both, case, &mut random, tally)?;
    reaches::all(both, case, &mut random, tally)?;
    compare::costs_as_lent(both)
}

/// Every grouping that the chain has, then one with each bit that it has not.
fn all_groupings(
    both: &Both,
    case: &Case,
    lent: Lent,
    tally: &mut Tally,
) -> Result<(), Difference> {
    let chain = case.chain();
    let tasks = case.costs[3];
    let allowed = 0..1 << (tasks - 1);
    let beyond = (tasks - 1..16).map(|bit| 1 << bit | 1);
    for grouping in allowed.clone().chain(beyond) {
        let (answer, plan) = compare::greedy_plan(both, grouping, lent)?;
        count("greedy plan", both, answer, tally);
        judge_filled(both, answer, &plan, tally)?;
    }
    allowed.for_each(|grouping| memory::count_start(&chain, grouping, tally));
    Ok(())
}

/// Judge answers the figures of whoever filled the plan in.
fn judge_filled(
    both: &Both,
    answer: Answer,
    plan: &[u8],
    tally: &mut Tally,
) -> Result<(), Difference> {
    if answer.refusal != 0 {
        return Ok(());
    }
    let judged = compare::judge(both, plan)?;
    if judged != answer {
        let what = format!("filled in as {answer:?}, judged as {judged:?}");
        let service = "judge";
        return Err(Difference { service, what });
    }
    let time = times::of_judged(both, plan, judged, tally)?;
    tables::of_judged(both, plan, (judged, time), tally)
}

/// Judge on any plan bytes, their single-block time, and a timetable; the answer of Judge, and the time, 0 with a refusal.
pub fn judged(both: &Both, plan: &[u8], tally: &mut Tally) -> Result<(Answer, u32), Difference> {
    let answer = compare::judge(both, plan)?;
    count("judge", both, answer, tally);
    let time = times::of_judged(both, plan, answer, tally)?;
    tables::of_judged(both, plan, (answer, time), tally)?;
    Ok((answer, time))
}

/// Each service once on a file that may be damaged; one time in four the buffers are too short as well, which counts only if
/// the file is accepted. The costs stay as they are.
pub fn damaged(both: &Both, random: &mut Random, tally: &mut Tally) -> Result<(), Difference> {
    let lent = Lent {
        plan: random.pick(&[PLAN_BYTES, PLAN_BYTES, PLAN_BYTES + 3, PLAN_BYTES - 1]),
        work: random.pick(&[WORK_WORDS, WORK_WORDS, WORK_WORDS + 3, WORK_WORDS - 1]),
        seed: random.word(),
    };
    let (answer, _) = compare::best_plan(both, lent)?;
    count("best plan", both, answer, tally);
    let grouping = random.word() as u16 >> random.below(16);
    let (answer, _) = compare::greedy_plan(both, grouping, lent)?;
    count("greedy plan", both, answer, tally);
    let mut plan = damage::random_plan(3, 8, random).to_vec();
    plan.resize(lent.plan, 255);
    judged(both, &plan, tally)?;
    reaches::damaged(both, random, tally)?;
    compare::costs_as_lent(both)
}

/// Counts the refusal, or what is particular about the figures.
pub fn count(service: &str, both: &Both, answer: Answer, tally: &mut Tally) {
    if answer.refusal != 0 {
        tally.add(format!("{service}: refusal {}", answer.refusal));
        return;
    }
    tally.add(format!("{service}: figures"));
    let has_dispatch = both.costs[DISPATCH] > 0;
    let particulars = [
        (answer.modules > 1, "several modules"),
        (answer.modules > 2, "more than two modules"),
        (answer.slowest > 1, "slowest is not the first module"),
        (answer.copies > 1, "several copies of the slowest"),
        (answer.response == 0, "bottleneck 0"),
        (
            has_dispatch && answer.copies > 1,
            "D in the slowest's response",
        ),
        (
            has_dispatch && answer.copies == 1,
            "a D, but not in the slowest's response",
        ),
        (
            !answer.response.is_multiple_of(answer.copies),
            "bottleneck not a whole number",
        ),
    ];
    for (_, what) in particulars.iter().filter(|(is_so, _)| *is_so) {
        tally.add(format!("{service}: {what}"));
    }
}

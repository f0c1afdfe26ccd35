//! The timetables of plans (document 02, M-105), compared, with a count of what was met.

use crate::answer::{Answer, Filled};
use crate::compare::{self, Asked, Both, Difference};
use crate::costs;
use crate::plan;
use crate::random::Random;
use crate::tally::Tally;
use crate::timetable::{Doing, MOST_BLOCKS, Machine};

/// That of plan bytes to which Judge gave this answer, and which take this time, for as many blocks and in as many entries as the
/// costs and the bytes come to.
pub fn of_judged(
    both: &Both,
    plan: &[u8],
    judged: (Answer, u32),
    tally: &mut Tally,
) -> Result<(), Difference> {
    let asked = some_table(&mut Random::new(both.seed_of_plan(plan)));
    of_blocks(both, plan, judged, asked, tally)
}

/// One block too many.
const ABOVE: u32 = MOST_BLOCKS + 1;

/// Mostly a few blocks, now and then as many as can be, none or too many; in as many entries, some more or one less.
fn some_table(random: &mut Random) -> Asked {
    let blocks = if random.once_in(50) {
        MOST_BLOCKS
    } else {
        random.pick(&[0, 1, 1, 2, 2, 3, 5, 8, 13, 20, ABOVE, 0x1_0001, u32::MAX])
    };
    // no table is as long as the greatest counts ask for
    let due = if blocks > ABOVE { 20 } else { blocks as usize };
    Asked {
        blocks,
        entries: random.pick(&[due, due, due, due + 1, due + 7, due.saturating_sub(1)]),
        seed: random.word(),
    }
}

/// The same for so many blocks, in so many entries: with Judge's refusal and place, or with those that come after them, or
/// with a table that keeps both bounds.
pub fn of_blocks(
    both: &Both,
    plan: &[u8],
    (judged, time): (Answer, u32),
    asked: Asked,
    tally: &mut Tally,
) -> Result<(), Difference> {
    let (filled, table) = compare::timetable(both, plan, asked)?;
    let is_judges = (filled.refusal, filled.place) == (judged.refusal, judged.place);
    let is_later = judged.refusal == 0 && matches!(filled.refusal, 20 | 21);
    if !is_judges && !is_later {
        let what = format!("judged as {judged:?}, with a table as {filled:?}");
        let service = "timetable";
        return Err(Difference { service, what });
    }
    if filled.refusal == 0 {
        expect_within(&table[..asked.blocks as usize], judged.response, time)?;
        count_table(both, plan, judged, asked.blocks, tally);
    } else {
        count_refusal(filled, asked, tally);
    }
    Ok(())
}

/// "With bottleneck B and single-block time L, block n ends no sooner than n·B and no later than (n − 1)·B + L."
fn expect_within(table: &[u64], bottleneck: u32, time: u32) -> Result<(), Difference> {
    let (bottleneck, time) = (u64::from(bottleneck), u64::from(time));
    for (n, &end) in (1..).zip(table) {
        let (least, most) = (n * bottleneck, (n - 1) * bottleneck + time);
        if !(least..=most).contains(&end) {
            let what = format!("block {n} ends at {end}, not from {least} to {most}");
            let service = "timetable";
            return Err(Difference { service, what });
        }
    }
    Ok(())
}

fn count_refusal(filled: Filled, asked: Asked, tally: &mut Tally) {
    let number = filled.refusal;
    tally.add(format!("timetable: refusal {number}"));
    let is_short = asked.entries < asked.blocks as usize;
    let particulars = [
        (number == 20 && filled.place > 1, "refusal 20 behind others"),
        (number == 21 && asked.blocks == 0, "refusal 21 of no block"),
        (
            number == 21 && asked.blocks > MOST_BLOCKS && !is_short,
            "refusal 21 of too many blocks, entries enough",
        ),
        (
            number == 21 && asked.blocks <= MOST_BLOCKS && is_short,
            "refusal 21 of a table one short",
        ),
    ];
    for (_, what) in particulars.iter().filter(|(is_so, _)| *is_so) {
        tally.add(format!("timetable: {what}"));
    }
}

/// Counts the modules and, where there are several, who waits for whom.
fn count_table(both: &Both, plan: &[u8], judged: Answer, blocks: u32, tally: &mut Tally) {
    if blocks == MOST_BLOCKS {
        tally.add("timetable: of the most blocks");
    }
    if judged.modules == 1 {
        return tally.add("timetable: one module");
    }
    tally.add("timetable: several modules");
    let waits = if blocks < SHOWING {
        Waits::default()
    } else {
        waits(both, plan)
    };
    let particulars = [
        (judged.modules > 2, "more than two modules"),
        (waits.sender, "a transfer waits for the receiver"),
        (waits.receiver, "a receiver waits for the sender"),
        (waits.sender && waits.receiver, "both wait"),
    ];
    for (_, what) in particulars.iter().filter(|(is_so, _)| *is_so) {
        tally.add(format!("timetable: {what}"));
    }
}

/// The blocks that show who waits; in shorter tables this is not asked.
const SHOWING: u32 = 5;

/// Whether some module waits at some tick: one that has executed for the one after it, and one between two blocks for the one
/// before it.
#[derive(Default)]
struct Waits {
    sender: bool,
    receiver: bool,
}

fn waits(both: &Both, plan: &[u8]) -> Waits {
    let chain = costs::read(both.costs).expect("it was accepted");
    let bytes = plan.first_chunk().expect("it was judged");
    let modules = plan::used(bytes);
    let mut waits = Waits::default();
    let mut before = vec![Seen::Nothing; modules.len()];
    Machine::new(&chain, &modules, SHOWING).run(Machine::next_end, |doing| {
        waits.sender |= doing.contains(&Doing::Holding);
        for (seen, doing) in before.iter_mut().zip(doing).skip(1) {
            let is_free = *doing == Doing::Free;
            waits.receiver |= *seen == Seen::FreeAgain && !is_free;
            *seen = match seen {
                Seen::Nothing if is_free => Seen::Nothing,
                _ if is_free => Seen::FreeAgain,
                _ => Seen::ABlock,
            };
        }
    });
    waits
}

/// What has been seen of a module.
#[derive(Clone, Copy, PartialEq, Eq)]
enum Seen {
    Nothing,
    ABlock,
    FreeAgain,
}

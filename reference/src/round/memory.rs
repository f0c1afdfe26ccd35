//! Plans whose memory just suffices or does not (document 02, M-103), judged and compared, with a count of what the test before
//! would have passed.

use crate::answer::Answer;
use crate::cases::Case;
use crate::compare::{Both, Difference};
use crate::costs::Chain;
use crate::damage;
use crate::greedy;
use crate::plan::{self, Module, RULES, Rules};
use crate::random::Random;
use crate::reach;
use crate::tally::Tally;

/// Document 01's test of memory, which M-103 replaced: "the needs of the module's tasks, added up, are at most p × the capacity
/// of one core".
pub fn added_up(module: &Module, chain: &Chain) -> bool {
    let needs = (module.first..=module.last).map(|task| u64::from(chain.need(task)));
    needs.sum::<u64>() <= module.cores as u64 * u64::from(chain.capacity)
}

/// The rules with that test.
pub const FORMER: Rules = Rules {
    fits: added_up,
    ..RULES
};

/// Whether the module fits at no count of cores, however great: a share of each need is a KiB at least.
pub fn fits_nowhere(module: &Module, chain: &Chain) -> bool {
    let needs = (module.first..=module.last).filter(|&task| chain.need(task) > 0);
    needs.count() as u64 > chain.capacity.into()
}

/// Judge on some plans of about the fewest cores that the modules' memory allows.
pub fn judged(
    both: &Both,
    case: &Case,
    random: &mut Random,
    tally: &mut Tally,
) -> Result<(), Difference> {
    let chain = case.chain();
    for _ in 0..6 {
        let plan = damage::tight_plan(&chain, random);
        let (answer, _) = super::judged(both, &plan, tally)?;
        if answer.refusal == 14 {
            let at_fault = plan::records(&plan)[answer.place as usize - 1];
            count_at_fault(&chain, at_fault, answer, tally);
        }
    }
    Ok(())
}

/// Counts what is particular about a module that is refused with 14.
fn count_at_fault(chain: &Chain, module: Module, answer: Answer, tally: &mut Tally) {
    let is_new = added_up(&module, chain);
    let with_one_more = Module {
        cores: module.cores + 1,
        ..module
    };
    let particulars = [
        (is_new, "not by needs added up"),
        (
            is_new && answer.place > 1,
            "not by needs added up, behind others",
        ),
        (module.cores == 255, "at 255 cores"),
        (with_one_more.memory_fits(chain), "a core short"),
    ];
    for (_, what) in particulars.iter().filter(|(is_so, _)| *is_so) {
        tally.add(format!("judge: refusal 14, {what}"));
    }
}

/// Counts where the greedy way, with a grouping that the chain has, is refused with 11 or starts with more cores, and was or did not
/// by the test before; and where limits have a part in it.
pub fn count_start(chain: &Chain, grouping: u16, tally: &mut Tally) {
    let groups = greedy::groups(chain.tasks, grouping);
    let Ok(former) = greedy::start_by(FORMER, chain, groups.clone()) else {
        return;
    };
    let fewest = greedy::with_fewest_cores(RULES.fits, chain, groups.clone());
    match greedy::start(chain, groups) {
        Err(_) => {
            tally.add("greedy plan: refusal 11, not by needs added up");
            if plan::cores(&fewest) <= chain.cores {
                tally.add("greedy plan: refusal 11 by a limit, not by needs added up");
            }
        }
        Ok(start) => {
            if start != former {
                tally.add("greedy plan: more cores at the start");
            }
            let mut pairs = start.iter().zip(&former);
            if pairs.any(|(now, former)| now != former && now.limit(chain) == Some(now.cores)) {
                tally.add("greedy plan: more cores at the start, up to a limit");
            }
        }
    }
}

/// Judge on a plan that has the module among modules of a task each. These have the most cores that a byte can say, whose memory
/// holds any task of the files that are made.
pub fn judged_among_single_tasks(
    judge: fn(&[u8], &[u8]) -> Answer,
    costs: &[u8],
    module: Module,
) -> Answer {
    let single = |task| Module {
        cores: 255,
        ..reach::of_one_core(task, task)
    };
    let tasks = costs[3].into();
    let before = (1..module.first).map(single);
    let after = (module.last + 1..=tasks).map(single);
    let plan: Vec<Module> = before.chain([module]).chain(after).collect();
    judge(costs, &plan::encode(&plan))
}

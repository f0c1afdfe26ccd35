//! The wrong planners: document 01's "Where a plan goes astray", then "Before anyone tests", then mistakes in what is lent, then
//! those about core limits, about memory, about single-block times and about handing out to copies; and wrong programs that fill in
//! costs from laws, that find reaches, or that fill in timetables.

pub mod dispatch;
mod judges;
pub mod laws;
pub mod limits;
mod memory;
pub mod reaches;
mod ruled;
pub mod searches;
pub mod times;
pub mod timetables;

use reference::answer::{Answer, Refusal};
use reference::compare::Difference;
use reference::costs::Chain;
use reference::every;
use reference::greedy::{self, give};
use reference::plan::{self, Module, PLAN_BYTES};
use reference::services::{REFERENCE, Services};

pub struct Mistake {
    pub what: &'static str,
    pub shows_in: &'static str,
    /// Where a wrong refusal shows: the number that is due, and the one found; 0 is none.
    pub refusals: Option<(u32, u32)>,
    pub services: Services,
}

impl Mistake {
    const fn new(what: &'static str, shows_in: &'static str, services: Services) -> Mistake {
        Mistake {
            what,
            shows_in,
            refusals: None,
            services,
        }
    }

    /// The same, told by the number that is due and the one found.
    const fn with_refusals(self, due: u32, found: u32) -> Mistake {
        Mistake {
            refusals: Some((due, found)),
            ..self
        }
    }

    /// Whether the difference is the one that the mistake must show.
    pub fn is_told_by(&self, difference: &Difference) -> bool {
        let numbers = match self.refusals {
            Some((due, found)) => format!("expected {due}, found {found}"),
            None => String::new(),
        };
        difference.service == self.shows_in && difference.what.ends_with(&numbers)
    }
}

const fn in_best_plan(
    what: &'static str,
    best_plan: fn(&[u8], &mut [u8], &mut [u32]) -> Answer,
) -> Mistake {
    let services = Services {
        best_plan,
        ..REFERENCE
    };
    Mistake::new(what, "best plan", services)
}

const fn in_greedy_plan(
    what: &'static str,
    greedy_plan: fn(&[u8], u16, &mut [u8]) -> Answer,
) -> Mistake {
    let services = Services {
        greedy_plan,
        ..REFERENCE
    };
    Mistake::new(what, "greedy plan", services)
}

const fn in_judge(what: &'static str, judge: fn(&[u8], &[u8]) -> Answer) -> Mistake {
    Mistake::new(what, "judge", Services { judge, ..REFERENCE })
}

/// All wrong planners, the programs that find reaches by a wrong test of memory, and those that give wrong single-block times.
pub fn planners() -> impl Iterator<Item = Mistake> {
    let base = MISTAKES.into_iter().chain(limits::MISTAKES);
    base.chain(reaches::searches::MISTAKES)
        .chain(memory::mistakes())
        .chain(times::mistakes())
        .chain(dispatch::mistakes())
}

const MISTAKES: [Mistake; 27] = [
    // where a plan goes astray
    in_best_plan("drops the rest when dividing by r", |costs, plan, work| {
        every::best_plan_by(searches::drops_the_rest, costs, plan, work)
    }),
    in_judge("drops the rest when dividing by r", |costs, plan| {
        judges::judge_by(judges::whole_loads, costs, plan)
    }),
    in_best_plan("fixes p before the next p is known", |costs, plan, work| {
        every::best_plan_by(searches::fixes_cores_early, costs, plan, work)
    }),
    in_best_plan("one plan per count of cores", |costs, plan, work| {
        every::best_plan_by(searches::forgets_last_cores, costs, plan, work)
    }),
    in_greedy_plan("stops when it fails to fall", |costs, grouping, plan| {
        greedy::greedy_plan_by(greedy::start, stops_early, costs, grouping, plan)
    }),
    in_best_plan("charges the sender only", |costs, plan, work| {
        every::best_plan_by(searches::charges_sender, costs, plan, work)
    }),
    in_best_plan("charges the receiver only", |costs, plan, work| {
        every::best_plan_by(searches::charges_receiver, costs, plan, work)
    }),
    in_judge("charges the sender only", |costs, plan| {
        judges::judge_by(judges::sender_loads, costs, plan)
    }),
    in_judge("charges the receiver only", |costs, plan| {
        judges::judge_by(judges::receiver_loads, costs, plan)
    }),
    // before anyone tests
    in_best_plan("one-module plans only", |costs, plan, work| {
        every::best_plan_by(searches::one_module, costs, plan, work)
    }),
    in_greedy_plan("gives out its first core only", |costs, grouping, plan| {
        greedy::greedy_plan_by(greedy::start, first_core_only, costs, grouping, plan)
    }),
    in_best_plan("9 before searching", |costs, plan, work| {
        every::best_plan_by(|_| None, costs, plan, work)
    }),
    in_best_plan("refuses all costs", |_, _, _| Refusal::new(1).into()),
    in_greedy_plan("refuses all costs", |_, _, _| Refusal::new(1).into()),
    in_judge("refuses all costs", |_, _| Refusal::new(1).into()),
    in_best_plan("one fixed plan", |costs, plan, work| {
        every::best_plan_by(|chain| Some(whole_board(chain)), costs, plan, work)
    }),
    in_greedy_plan("one fixed plan", |costs, grouping, plan| {
        let walk = |chain: &Chain, _| whole_board(chain);
        greedy::greedy_plan_by(greedy::start, walk, costs, grouping, plan)
    }),
    in_best_plan("plan bytes left blank", |costs, plan, work| {
        let answer = every::best_plan(costs, plan, work);
        blank(plan, answer)
    }),
    in_greedy_plan("plan bytes left blank", |costs, grouping, plan| {
        let answer = greedy::greedy_plan(costs, grouping, plan);
        blank(plan, answer)
    }),
    in_best_plan("a made-up number of cores", |costs, plan, work| {
        all_cores(costs, every::best_plan(costs, plan, work))
    }),
    in_greedy_plan("a made-up number of cores", |costs, grouping, plan| {
        all_cores(costs, greedy::greedy_plan(costs, grouping, plan))
    }),
    in_judge("a made-up number of cores", |costs, plan| {
        all_cores(costs, (REFERENCE.judge)(costs, plan))
    }),
    // ties and what is lent
    in_best_plan(
        "any number of cores on equal bottlenecks",
        |costs, plan, work| every::best_plan_by(searches::ignores_cores, costs, plan, work),
    ),
    in_best_plan("the last plan in module order", |costs, plan, work| {
        every::best_plan_by(searches::last_in_order, costs, plan, work)
    }),
    in_best_plan("a word of the work area left", |costs, plan, work| {
        let last = *work.last().unwrap_or(&0);
        let answer = every::best_plan(costs, plan, work);
        work.last_mut().into_iter().for_each(|word| *word = last);
        answer
    }),
    in_best_plan("a plan byte written with refusal 9", |costs, plan, work| {
        let answer = every::best_plan(costs, plan, work);
        if answer.refusal == 9 {
            plan[0] ^= 1;
        }
        answer
    }),
    in_best_plan("the 49th plan byte written", |costs, plan, work| {
        let answer = every::best_plan(costs, plan, work);
        if let Some(byte) = plan.get_mut(PLAN_BYTES) {
            *byte ^= 1;
        }
        answer
    }),
];

fn stops_early(chain: &Chain, start: Vec<Module>) -> Vec<Module> {
    let mut best = start;
    while let Some(next) = better_by_a_core(chain, &best) {
        best = next;
    }
    best
}

fn first_core_only(chain: &Chain, start: Vec<Module>) -> Vec<Module> {
    better_by_a_core(chain, &start).unwrap_or(start)
}

/// The next assignment if there is one and the bottleneck falls.
fn better_by_a_core(chain: &Chain, current: &[Module]) -> Option<Vec<Module>> {
    if plan::cores(current) == chain.cores {
        return None;
    }
    let bottleneck = plan::bottleneck(chain, current);
    give(chain, current).filter(|next| plan::bottleneck(chain, next).is_less(bottleneck))
}

/// All tasks and all cores in one module.
fn whole_board(chain: &Chain) -> Vec<Module> {
    vec![Module {
        first: 1,
        last: chain.tasks,
        copies: 1,
        cores: chain.cores,
    }]
}

fn blank(plan: &mut [u8], answer: Answer) -> Answer {
    if answer.refusal == 0 {
        plan[..PLAN_BYTES].fill(0);
    }
    answer
}

fn all_cores(costs: &[u8], answer: Answer) -> Answer {
    if answer.refusal != 0 {
        return answer;
    }
    Answer {
        cores: costs[2].into(),
        ..answer
    }
}

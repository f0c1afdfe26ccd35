//! Loads of modules computed in a wrong way, and a Judge that takes the slowest module by them; and the modules that one tests.

use reference::answer::Answer;
use reference::costs::{self, Chain};
use reference::judge;
use reference::plan::{self, Load, Module, PLAN_BYTES};

/// Judge with the right figures of the module that is the slowest by these loads.
pub fn judge_by(loads: fn(&Chain, &[Module]) -> Vec<Load>, costs: &[u8], plan: &[u8]) -> Answer {
    let right = judge::judge(costs, plan);
    if right.refusal != 0 {
        return right;
    }
    let (chain, modules) = judged_modules(costs, plan);
    let slowest = plan::slowest(&loads(&chain, &modules));
    Answer {
        slowest: slowest as u32 + 1,
        response: plan::response(&chain, &modules, slowest),
        copies: modules[slowest].copies as u32,
        ..right
    }
}

fn with_responses(plan: &[Module], response: impl Fn(usize) -> u32) -> Vec<Load> {
    let load = |i: usize| Load {
        response: response(i),
        copies: plan[i].copies as u32,
    };
    (0..plan.len()).map(load).collect()
}

/// Response divided by copies, without the rest.
pub fn whole_loads(chain: &Chain, plan: &[Module]) -> Vec<Load> {
    let whole = |load: &Load| Load {
        response: load.response / load.copies * load.copies,
        ..*load
    };
    plan::loads(chain, plan).iter().map(whole).collect()
}

/// Nobody pays for what is received.
pub fn sender_loads(chain: &Chain, plan: &[Module]) -> Vec<Load> {
    with_responses(plan, |i| {
        plan::response(chain, plan, i) - plan::received(chain, plan, i)
    })
}

/// Nobody pays for what is sent.
pub fn receiver_loads(chain: &Chain, plan: &[Module]) -> Vec<Load> {
    with_responses(plan, |i| {
        plan::response(chain, plan, i) - plan::sent(chain, plan, i)
    })
}

/// The chain of accepted costs, and the modules of a plan that refusal 12 finds no fault in.
pub fn judged_modules(costs: &[u8], plan: &[u8]) -> (Chain, Vec<Module>) {
    let chain = costs::read(costs).expect("it was accepted");
    let bytes = plan.first_chunk::<PLAN_BYTES>().expect("it was judged");
    (chain, plan::used(bytes))
}

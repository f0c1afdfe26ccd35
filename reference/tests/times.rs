//! Document 02, M-104, "Equally good, more finely": how often the files that are made have plans of equal bottleneck and equal
//! cores, and what decides between these, the cost of handing out to copies (M-106) included; and times as great as can be.

use reference::answer::{Answer, Refusal};
use reference::cases::{self, small_of_each};
use reference::compare::{self, Both, Difference, Lent};
use reference::costs::{self, Chain, MOST_TASKS, MOST_VALUE};
use reference::every::{self, each_plan};
use reference::plan::{self, Module, same_split};
use reference::random::Random;
use reference::round::dynamic::expect_least;
use reference::services::{LIBRARY, QUICK_REFERENCE, REFERENCE};
use reference::tally::Tally;

/// All plans that keep the rules and have the bottleneck and the cores of this one, in module order.
fn equals(chain: &Chain, best: &[Module]) -> Vec<Vec<Module>> {
    let (least, fewest) = (plan::bottleneck(chain, best), plan::cores(best));
    let mut equals = Vec::new();
    each_plan(chain, &mut |rival| {
        let is_equal = plan::cores(rival) == fewest
            && plan::keeps_rules(chain, rival)
            && plan::bottleneck(chain, rival).compare(least).is_eq();
        if is_equal {
            equals.push(rival.to_vec());
        }
    });
    equals
}

/// Whether some module of the other has its r and p, which differ, exchanged.
fn exchanges(plan: &[Module], other: &[Module]) -> bool {
    let mut pairs = plan.iter().zip(other);
    let is_exchanged = |(one, other): (&Module, &Module)| {
        one.copies != one.cores && (one.copies, one.cores) == (other.cores, other.copies)
    };
    same_split(plan, other) && pairs.any(is_exchanged)
}

/// Whether some external transfer of the plan costs less than the internal one at the sender's cores.
fn sends_cheaply(chain: &Chain, plan: &[Module]) -> bool {
    plan.iter().enumerate().any(|(i, module)| {
        let is_sent = i + 1 < plan.len();
        is_sent && plan::sent(chain, plan, i) < chain.internal(module.last, module.cores)
    })
}

/// What it takes to hand out to the copies of all modules that have some (M-106).
fn handed_out(chain: &Chain, plan: &[Module]) -> u32 {
    plan.iter().map(|module| module.dispatch(chain)).sum()
}

/// The time but for that.
fn other_ticks(chain: &Chain, plan: &[Module]) -> u32 {
    plan::block_time(chain, plan) - handed_out(chain, plan)
}

/// Whether it is so, and what.
type Particular = (bool, &'static str);

/// What is said of the best plan among its equals. Module order alone, as it was before, is the first of them.
fn of_best(chain: &Chain, best: &[Module], equals: &[Vec<Module>]) -> [Particular; 8] {
    let time = plan::block_time(chain, best);
    let is_another = equals[0] != best;
    let as_quick = |rival: &Vec<Module>| plan::block_time(chain, rival) == time;
    let quickest: Vec<_> = equals.iter().filter(|&rival| as_quick(rival)).collect();
    let several = quickest.len() > 1;
    let is_charged = |rival: &&&Vec<Module>| handed_out(chain, rival) > 0;
    let charged = quickest.iter().filter(is_charged).count();
    let by_other_ticks = equals.iter().min_by_key(|rival| other_ticks(chain, rival));
    [
        (equals.len() == 1, "the only one"),
        (is_another, "not the first in module order, by time"),
        (
            is_another && !same_split(&equals[0], best),
            "not the first in module order, by time: another split",
        ),
        (
            is_another && sends_cheaply(chain, best),
            "not the first in module order, by time: cheap external transfers",
        ),
        (
            several,
            "the first in module order of several that take as long",
        ),
        (is_another && several, "by time and then by module order"),
        (
            by_other_ticks.is_some_and(|rival| rival != best),
            "another one without D in the time",
        ),
        (
            (1..quickest.len()).contains(&charged),
            "as quick as others, some with D and some without",
        ),
    ]
}

/// What is said of those of the equals that take longer than the best plan.
fn of_longer(chain: &Chain, best: &[Module], equals: &[Vec<Module>]) -> [Particular; 6] {
    let time = plan::block_time(chain, best);
    let is_longer = |rival: &&Vec<Module>| plan::block_time(chain, rival) > time;
    let longer: Vec<&Vec<Module>> = equals.iter().filter(is_longer).collect();
    let some = |is_so: &dyn Fn(&Vec<Module>) -> bool| longer.iter().any(|&rival| is_so(rival));
    [
        (!longer.is_empty(), "some equal one takes longer"),
        (
            some(&|rival| plan::block_time(chain, rival) == time + 1),
            "some equal one takes a tick longer",
        ),
        (
            some(&|rival| !same_split(rival, best)),
            "some equal one of another split takes longer",
        ),
        (
            some(&|rival| exchanges(&rival[..1], &best[..1])),
            "some equal one with r and p exchanged in the first module takes longer",
        ),
        (
            some(&|rival| rival[0] == best[0] && exchanges(rival, best)),
            "some equal one with r and p exchanged behind the first module takes longer",
        ),
        (
            some(&|rival| other_ticks(chain, rival) == other_ticks(chain, best)),
            "some equal one takes longer by D alone",
        ),
    ]
}

/// What is met in a file: each thing once.
fn met(chain: &Chain) -> Vec<&'static str> {
    let Some(best) = every::search(chain) else {
        return vec!["no plan"];
    };
    let equals = equals(chain, &best);
    let time = |plan: &Vec<Module>| plan::block_time(chain, plan);
    assert!(equals.iter().all(|rival| time(rival) >= time(&best)));
    let of_best = of_best(chain, &best, &equals).into_iter();
    let particulars = of_best.chain(of_longer(chain, &best, &equals));
    let met = particulars.filter(|(is_so, _)| *is_so);
    met.map(|(_, what)| what).collect()
}

/// In how many of the small files of a kind each thing is to be met, of a thousand.
const FLOORS: [(&str, usize); 19] = [
    ("BlockTimes, not the first in module order, by time", 370),
    (
        "BlockTimes, not the first in module order, by time: another split",
        300,
    ),
    (
        "BlockTimes, not the first in module order, by time: cheap external transfers",
        305,
    ),
    ("BlockTimes, by time and then by module order", 70),
    ("BlockTimes, some equal one takes longer", 580),
    ("BlockTimes, some equal one takes a tick longer", 95),
    (
        "BlockTimes, some equal one of another split takes longer",
        500,
    ),
    (
        "BlockTimes, some equal one with r and p exchanged in the first module takes longer",
        80,
    ),
    (
        "BlockTimes, some equal one with r and p exchanged behind the first module takes longer",
        105,
    ),
    (
        "BlockTimes, the first in module order of several that take as long",
        180,
    ),
    ("Dispatch, another one without D in the time", 140),
    ("Dispatch, some equal one takes longer by D alone", 60),
    (
        "Dispatch, as quick as others, some with D and some without",
        40,
    ),
    ("Ties, not the first in module order, by time", 35),
    ("Limits, not the first in module order, by time", 18),
    ("NotMonotone, not the first in module order, by time", 24),
    ("Realistic, not the first in module order, by time", 8),
    ("TightLimits, not the first in module order, by time", 20),
    (
        "Zeros, the first in module order of several that take as long",
        170,
    ),
];

#[test]
fn small_files_tell_the_orders_apart() {
    let mut tally = Tally::default();
    for case in small_of_each(1_000) {
        for what in met(&case.chain()) {
            tally.add(format!("{:?}, {what}", case.kind));
        }
    }
    tally.print("best plans of small files, among those of equal bottleneck and cores");
    for (what, least) in FLOORS {
        tally.assert_at_least(what, least);
    }
}

/// Twelve tasks. Tasks 5 to 8 are not replicable, and they and all transfers to, from and between them take the greatest time:
/// 5 and 6 by themselves are the bottleneck. All other times, 14 of a plan, are up to two ticks less.
fn nearly_greatest(seed: u64) -> Chain {
    let mut random = Random::new(seed);
    let mut chain = cases::constant(MOST_TASKS, 6, MOST_VALUE);
    let cores = chain.cores;
    for time in chain.times_mut().into_iter().flatten() {
        *time -= random.pick(&[0, 0, 1, 2]);
    }
    chain.flags[4..8].fill(false);
    chain.executions[4 * cores..8 * cores].fill(MOST_VALUE);
    chain.internals[4 * cores..7 * cores].fill(MOST_VALUE);
    chain.externals[3 * cores * cores..8 * cores * cores].fill(MOST_VALUE);
    chain
}

/// Best plan by both searches, and the time that the library gives of it.
fn time_of_best(seed: u64, costs: &[u8]) -> Result<u32, Difference> {
    let lent = Lent::enough(seed);
    compare::best_plan(&Both::on(&REFERENCE, &QUICK_REFERENCE, costs), lent)?;
    let both = Both::on(&REFERENCE, &LIBRARY, costs);
    let (_, plan) = compare::best_plan(&both, lent)?;
    Ok(compare::block_time(&both, &plan)?.count)
}

#[test]
fn greatest_times() {
    let mut tally = Tally::default();
    for seed in 0..60 {
        let chain = nearly_greatest(seed);
        met(&chain).into_iter().for_each(|what| tally.add(what));
        let costs = costs::write(&chain);
        match time_of_best(seed, &costs) {
            Ok(time) => assert!(time >= 23 * MOST_VALUE - 2 * 14, "seed {seed}: {time}"),
            Err(difference) => compare::fail(seed, &costs, &difference),
        }
    }
    tally.print("best plans of nearly the greatest times");
    tally.assert_at_least("not the first in module order, by time", 20);
}

/// The dynamic programs, which hold the large files, tell the best plan's figures and time from all others.
#[test]
fn dynamic_programs_tell_wrong_figures() {
    for case in small_of_each(30) {
        let chain = case.chain();
        let is_told = |answer: Answer, time| expect_least(&chain, answer, time).is_err();
        let (answer, bytes) = REFERENCE.best_filled(&case.costs);
        if answer.refusal == 9 {
            let no_refusal = Answer {
                refusal: 0,
                ..answer
            };
            assert!(!is_told(answer, 0) && is_told(no_refusal, 0));
            continue;
        }
        let time = plan::block_time(&chain, &plan::used(&bytes));
        let (cores, response) = (answer.cores + 1, answer.response + 1);
        assert!(!is_told(answer, time) && is_told(answer, time + 1));
        assert!(is_told(Answer { cores, ..answer }, time));
        assert!(is_told(Answer { response, ..answer }, time));
        assert!(is_told(Refusal::new(9).into(), time));
    }
}

//! The tests can fail: wrong planners, each with one mistake that document 01 or 02 names or leaves room for, are told from the
//! right one by the same files and the same comparison that the library passes.

mod dispatch;
mod mistakes;
mod reaches;
mod times;
mod timetables;

use mistakes::laws::{bounds, values};
use mistakes::limits::walks;
use mistakes::{Mistake, laws, searches};
use reference::cases::laws::{self as law_cases, LawCase};
use reference::cases::{self, Kind};
use reference::compare::{self, Both, Difference, Lent};
use reference::costs::{self, Chain};
use reference::damage::laws::{self as law_damage, LAW_DAMAGES};
use reference::damage::{self, DAMAGES};
use reference::every;
use reference::plan::{self, Module};
use reference::round;
use reference::services::{LIBRARY, REFERENCE, Services};
use reference::tally::Tally;
use reference::written::{self, Line};

/// As many files and as many laws, from seeds, as any mistake needs.
const FILES: u64 = 1_500;
const LAWS: u64 = 6_000;

/// The service in which the first difference shows, and the file's seed: on accepted files, or else on damaged ones.
fn first_difference(found: &Services) -> Option<(&'static str, u64)> {
    let mut tally = Tally::default();
    let on_accepted = (0..FILES).find_map(|seed| {
        let case = cases::small(seed);
        let both = Both::on(&REFERENCE, found, &case.costs);
        let result = round::all(&both, &case, &mut tally);
        result.err().map(|difference| (difference.service, seed))
    });
    on_accepted.or_else(|| {
        (0..FILES).find_map(|seed| {
            let damage = DAMAGES[seed as usize % DAMAGES.len()];
            let (costs, mut random) = damage::small(seed, damage);
            let both = Both::on(&REFERENCE, found, &costs);
            let result = round::damaged(&both, &mut random, &mut tally);
            result.err().map(|difference| (difference.service, seed))
        })
    })
}

/// Small laws as they are made, three kinds in eight to be refused with 18; then damaged ones.
fn small_laws() -> Vec<LawCase> {
    let made = (0..LAWS).map(law_cases::small);
    let damaged = (0..LAWS).map(|seed| {
        let damage = LAW_DAMAGES[seed as usize % LAW_DAMAGES.len()];
        law_damage::small(seed, damage)
    });
    made.chain(damaged).collect()
}

/// What a program fills in from laws, or answers, in another way than the right one.
fn difference_of_laws(found: &Services, case: &LawCase) -> Option<Difference> {
    round::laws::answered(&REFERENCE, found, case).err()
}

#[test]
fn every_wrong_planner_shows() {
    for mistake in mistakes::planners() {
        let what = mistake.what;
        let Some((service, seed)) = first_difference(&mistake.services) else {
            panic!("not told from the right one: {what}");
        };
        println!("seed {seed:>4}, {service}: {what}");
        assert_eq!(service, mistake.shows_in, "{what}");
    }
}

/// Some laws show each in the part of the answer that it is about, or in the output; a wrong refusal with both numbers.
#[test]
fn every_wrong_filling_shows() {
    let files = small_laws();
    for mistake in laws::mistakes() {
        let (what, shows_in) = (mistake.what, mistake.shows_in);
        let is_told_on = |case: &&LawCase| {
            let difference = difference_of_laws(&mistake.services, case);
            difference.is_some_and(|difference| mistake.is_told_by(&difference))
        };
        let Some(case) = files.iter().find(is_told_on) else {
            panic!("not told from the right one, {shows_in}: {what}");
        };
        println!("seed {:>4}, {shows_in}: {what}", case.seed);
    }
}

fn keeps_to(line: &Line, services: &Services) -> bool {
    written::hold(services, &line.text).is_ok()
}

/// The cases that are written as text tell each from the right one too: some line that the right one keeps to.
#[test]
fn some_line_tells_every_mistake() {
    let small = |line: &Line| !line.text.contains("k = 12");
    let mut lines = written::lines();
    lines.retain(|line| small(line) && keeps_to(line, &REFERENCE));
    let programs = laws::mistakes().chain(mistakes::reaches::mistakes());
    let mut untold = untold_by(&lines, mistakes::planners().chain(programs));
    // those of timetables by their own lines only
    lines.retain(|line| line.text.contains("timetable of "));
    untold.extend(untold_by(&lines, mistakes::timetables::mistakes()));
    assert!(untold.is_empty(), "no line tells:\n{}", untold.join("\n"));
}

/// The mistakes that none of the lines tells.
fn untold_by(lines: &[Line], mistakes: impl Iterator<Item = Mistake>) -> Vec<String> {
    let mut untold = Vec::new();
    for mistake in mistakes {
        let name = format!("{}: {}", mistake.shows_in, mistake.what);
        let tells = |line: &&Line| !keeps_to(line, &mistake.services);
        match lines.iter().find(tells) {
            Some(line) => println!("{}: {name}", line.place),
            None => untold.push(name),
        }
    }
    untold
}

fn expect_no_difference_of_laws(found: &Services) {
    for case in small_laws() {
        let difference = difference_of_laws(found, &case);
        assert!(difference.is_none(), "seed {}: {difference:?}", case.seed);
    }
}

/// The second planner against itself: the comparison makes up no difference. This says nothing about the planner.
#[test]
fn no_difference_is_made_up() {
    assert_eq!(first_difference(&REFERENCE), None);
    expect_no_difference_of_laws(&REFERENCE);
}

/// The very files that tell the mistakes do not tell the library from the second planner.
#[test]
fn library_shows_no_difference() {
    assert_eq!(first_difference(&LIBRARY), None);
    expect_no_difference_of_laws(&LIBRARY);
}

/// C2 ÷ p falls ever more slowly and C3 · p rises evenly, so no value between one core and all of them is above both of those.
/// To test these alone, on each side of an external transfer, comes to the same answer; with any one of the four corners left
/// out it does not, which is four of `bounds::MISTAKES`.
#[test]
fn greatest_values_are_at_the_ends() {
    expect_no_difference_of_laws(&Services {
        fill_costs: bounds::at_ends,
        ..REFERENCE
    });
}

/// Whether the plan has a greater bottleneck than the best one.
fn is_worse(chain: &Chain, best: &[Module], other: &[Module]) -> bool {
    plan::bottleneck(chain, best).is_less(plan::bottleneck(chain, other))
}

/// Small laws that have a plan, their chain and the best plan.
fn planned_laws(seed: u64) -> Option<(LawCase, Chain, Vec<Module>)> {
    let case = law_cases::small(seed);
    let chain = reference::laws::chain(&case.head, &case.laws).ok()?;
    let best = every::search(&chain)?;
    Some((case, chain, best))
}

/// Some laws show each of these wrong values in a plan: the one that is best by the values has, by the laws, a greater bottleneck
/// than the best one, and is not only another that is as good.
#[test]
fn wrong_values_lead_to_wrong_plans() {
    let files: Vec<_> = (0..LAWS).filter_map(planned_laws).collect();
    for mistake in values::MISLEADING {
        let misleads = |(case, chain, best): &&(LawCase, Chain, Vec<Module>)| {
            let mut costs = vec![0; round::laws::full_bytes(&case.head)];
            let filled = (mistake.services.fill_costs)(&case.head, &case.laws, &mut costs);
            if filled.refusal != 0 {
                return false;
            }
            let wrong = costs::read(&costs).expect("an accepted file");
            every::search(&wrong).is_some_and(|found| is_worse(chain, best, &found))
        };
        let count = files.iter().filter(misleads).count();
        let (what, all) = (mistake.what, files.len());
        println!("a worse plan on {count} of {all} files: {what}");
        assert!(count > 0, "no worse plan: {what}");
    }
}

/// Where the slowest module and its neighbours are at their limits, its response stays what it is whoever else gets a core. So
/// to end there and to go on with another module come to the same answer, also in the many files here that come to this.
#[test]
fn going_on_past_full_modules_changes_no_answer() {
    let going_on = Services {
        greedy_plan: walks::goes_on,
        ..REFERENCE
    };
    let mut count = 0;
    for seed in 0..600 {
        let kind = [Kind::Limits, Kind::TightLimits][seed as usize % 2];
        let costs = cases::sized(kind, 6, 16, seed).costs;
        let chain = costs::read(&costs).expect("an accepted file");
        let both = Both::on(&REFERENCE, &going_on, &costs);
        let mut some_walk_goes_on = false;
        for grouping in 0..1 << (chain.tasks - 1) {
            let result = compare::greedy_plan(&both, grouping, Lent::enough(seed));
            if let Err(difference) = result {
                compare::fail(seed, &costs, &difference);
            }
            some_walk_goes_on |= walks::does_go_on(&chain, grouping);
        }
        count += usize::from(some_walk_goes_on);
    }
    println!("some walk goes on past full modules in {count} of 600 files");
    assert!(count >= 150, "{count} files");
}

/// Some file shows each wrong search with a greater bottleneck, not only with another plan that is as good.
#[test]
fn wrong_searches_miss_the_least_bottleneck() {
    let wrong_searches = [
        searches::drops_the_rest,
        searches::fixes_cores_early,
        searches::forgets_last_cores,
        searches::charges_sender,
        searches::charges_receiver,
        searches::one_module,
    ];
    for (i, wrong) in wrong_searches.into_iter().enumerate() {
        let misses = |seed: &u64| {
            let chain = cases::small(*seed).chain();
            let found = every::search(&chain).zip(wrong(&chain));
            found.is_some_and(|(best, found)| is_worse(&chain, &best, &found))
        };
        let count = (0..FILES).filter(misses).count();
        println!("wrong search {i} misses the least bottleneck on {count} of {FILES} files");
        assert!(count > 0, "wrong search {i}");
    }
}

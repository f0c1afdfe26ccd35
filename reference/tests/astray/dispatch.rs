//! Wrong programs that get the cost of handing out to copies wrong (document 02, M-106), on the small files that are made for it.

use super::mistakes::dispatch::{self, copies};
use reference::answer::{Answer, Filled};
use reference::cases::{Case, Kind, small_of_each};
use reference::damage::random_plan;
use reference::every;
use reference::plan::PLAN_BYTES;
use reference::random::Random;
use reference::services::{REFERENCE, Services};

/// The costs, what Best plan is to answer and fill in, and this plan and some others to be judged.
struct File {
    costs: Vec<u8>,
    best: (Answer, [u8; PLAN_BYTES]),
    plans: Vec<[u8; PLAN_BYTES]>,
}

impl File {
    fn of(case: Case) -> File {
        let best = REFERENCE.best_filled(&case.costs);
        let (tasks, cores) = (case.costs[3].into(), case.costs[2].into());
        let mut random = Random::new(case.seed);
        let others = [(); 10].map(|()| random_plan(tasks, cores, &mut random));
        File {
            costs: case.costs,
            best,
            plans: [best.1].into_iter().chain(others).collect(),
        }
    }

    fn judged(&self, by: &Services) -> Vec<Answer> {
        let plans = self.plans.iter();
        plans.map(|plan| (by.judge)(&self.costs, plan)).collect()
    }

    fn timed(&self, by: &Services) -> Vec<Filled> {
        let plans = self.plans.iter();
        plans
            .map(|plan| (by.block_time)(&self.costs, plan))
            .collect()
    }

    fn greedy(&self, by: &Services) -> Answer {
        (by.greedy_plan)(&self.costs, 0, &mut [0; PLAN_BYTES])
    }

    /// Whether the service that differences name so answers or fills in something else.
    fn tells(&self, service: &str, found: &Services) -> bool {
        match service {
            "best plan" => found.best_filled(&self.costs) != self.best,
            "judge" => self.judged(found) != self.judged(&REFERENCE),
            "block time: count" => self.timed(found) != self.timed(&REFERENCE),
            "greedy plan" => self.greedy(found) != self.greedy(&REFERENCE),
            _ => panic!("{service} is none of these"),
        }
    }
}

/// So many files.
const FILES: usize = 400;

fn files() -> Vec<File> {
    let made_for_this = small_of_each(FILES).filter(|case| case.kind == Kind::Dispatch);
    made_for_this.map(File::of).collect()
}

/// On how many files each is to show at least.
const FLOOR: usize = 5;

#[test]
fn wrong_programs_show_on_several_files() {
    let files = files();
    for mistake in dispatch::in_figures() {
        let (what, service) = (mistake.what, mistake.shows_in);
        let is_told = |file: &&File| file.tells(service, &mistake.services);
        let count = files.iter().filter(is_told).count();
        println!("{count:>5} of {FILES} files, {service}: {what}");
        assert!(count >= FLOOR, "{count} files, {service}: {what}");
    }
}

/// One copy, or as many as one division gives, come to the best plan: what the wrong copies are told by is their count alone.
#[test]
fn fewest_copies_come_to_the_best_plan() {
    let by_thresholds = Services {
        best_plan: |costs, plan, work| {
            let search = |chain: &_| copies::search(copies::fewest, chain);
            every::best_plan_by(search, costs, plan, work)
        },
        ..REFERENCE
    };
    let files = files();
    assert!(
        !files
            .iter()
            .any(|file| file.tells("best plan", &by_thresholds))
    );
}

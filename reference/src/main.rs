//! The benchmark: `cargo run --release`. Times Best plan of the static library beside the same search in Rust, the dynamic
//! program of source document 000 and, where the file is small, trying all plans, and on boards of several sizes; and filling in
//! costs from laws, and a timetable, beside the same in Rust.

use std::hint::black_box;
use std::time::Instant;

use reference::answer::Filled;
use reference::cases::{self, Kind};
use reference::costs::{self, Chain, MOST_CORES, MOST_TASKS, RECORD_BYTES};
use reference::every::{self, WORK_WORDS};
use reference::laws::{Law, Laws};
use reference::plan::{self, Module, PLAN_BYTES};
use reference::services::QUICK_REFERENCE;
use reference::timetable::MOST_BLOCKS;
use reference::{filling, library, paper, recurrence, threshold};

const RUNS: usize = 11;

/// One way to find the best plan, or its bottleneck, of a cost file.
type Search = fn(&[u8], &mut [u8], &mut [u32]);

const LIBRARY: Search = |costs, plan, work| {
    black_box(library::best_plan(costs, plan, work));
};
const THRESHOLD: Search = |costs, plan, work| {
    black_box(threshold::best_plan(costs, plan, work));
};
const PAPER: Search = |costs, _, _| {
    let chain = costs::read(costs).expect("an accepted file");
    black_box(paper::least_bottleneck(&chain));
};
const EVERY: Search = |costs, plan, work| {
    black_box(every::best_plan(costs, plan, work));
};

/// The median time of each, in milliseconds; one run of each in turn.
fn medians(runs: &mut [Box<dyn FnMut() + '_>]) -> Vec<f64> {
    let mut times = vec![Vec::new(); runs.len()];
    for _ in 0..RUNS {
        for (run, times) in runs.iter_mut().zip(&mut times) {
            let start = Instant::now();
            run();
            times.push(start.elapsed().as_secs_f64() * 1e3);
        }
    }
    times
        .iter_mut()
        .for_each(|times| times.sort_by(f64::total_cmp));
    times.iter().map(|times| times[RUNS / 2]).collect()
}

/// So many searches of a cost file, in the same buffers.
fn repeated<'a>(costs: &'a [u8], search: &'a Search, searches: usize) -> Box<dyn FnMut() + 'a> {
    let (mut plan, mut work) = (vec![0; PLAN_BYTES], vec![0; WORK_WORDS]);
    Box::new(move || (0..searches).for_each(|_| search(black_box(costs), &mut plan, &mut work)))
}

/// Costs without memory needs and core limits, by which nothing cuts a search short, and without a D (document 02, M-106).
fn unlimited(kind: Kind, tasks: usize, cores: usize) -> Chain {
    let case = cases::sized(kind, tasks, cores, 7);
    let chain = case.chain();
    Chain {
        dispatch: 0,
        needs: vec![0; tasks],
        flags: vec![true; tasks],
        limits: vec![None; tasks],
        ..chain
    }
}

/// Any costs, with the needs, flags, limits and D that they come with: the first file that has a need and a plan.
fn random_with_memory(tasks: usize, cores: usize) -> Chain {
    let mut files = (0..).map(|seed| cases::sized(Kind::Random, tasks, cores, seed));
    let found = files.find(|case| {
        let has_needs = case.chain().needs.iter().any(|&need| need > 0);
        has_needs && QUICK_REFERENCE.has_plan(&case.costs)
    });
    found.expect("some seed has such a file").chain()
}

/// Realistic costs, then adversarial ones, then the first with the greatest D, then any with memory needs.
fn files(tasks: usize, cores: usize) -> Vec<(&'static str, Chain)> {
    let realistic = unlimited(Kind::Realistic, tasks, cores);
    // a module of two tasks needs three cores
    let limited = Chain {
        capacity: 100,
        needs: vec![150; tasks],
        ..realistic.clone()
    };
    let handed_out = Chain {
        dispatch: 255,
        ..realistic.clone()
    };
    vec![
        ("realistic, memory limits", limited),
        ("realistic", realistic),
        ("not monotone", unlimited(Kind::NotMonotone, tasks, cores)),
        ("one plan hidden", unlimited(Kind::Hidden, tasks, cores)),
        ("all equal", cases::constant(tasks, cores, 1_000)),
        ("realistic, D = 255", handed_out),
        ("random, memory", random_with_memory(tasks, cores)),
    ]
}

/// Realistic costs of the largest board, with this memory.
fn with_memory(capacity: u32, needs: Vec<u32>) -> Chain {
    Chain {
        capacity,
        needs,
        ..unlimited(Kind::Realistic, MOST_TASKS, MOST_CORES)
    }
}

/// Modules of at most three tasks (document 02, M-102), and no plan, so that a search is one slack table, or three.
fn short_files() -> [(&'static str, Chain); 2] {
    // every fourth task needs more than the board has, the others nothing
    let walls = [0, 0, 0, MOST_CORES as u32 + 1].repeat(MOST_TASKS / 4);
    // one task needs ten cores, and three tasks 30; four fit on no count of the board's
    let alike = vec![90; MOST_TASKS];
    [
        ("three tasks and a wall", with_memory(1, walls)),
        ("three tasks, all alike", with_memory(9, alike)),
    ]
}

/// A core holds a KiB of each task and has three (document 02, M-103), so that no module has more than three tasks, whatever its
/// cores; and there is a plan.
fn short_file_with_plan() -> (&'static str, Chain) {
    let chain = with_memory(3, vec![1; MOST_TASKS]);
    ("three tasks, with a plan", chain)
}

/// A run makes so many searches of a file without a plan, since one takes a fraction of a millisecond.
const SHORT_SEARCHES: usize = 50;

/// The time of each search, and their ratios.
fn print_row(name: &str, chain: &Chain, searches: &[Search], in_a_run: usize) {
    let costs = costs::write(chain);
    let mut runs: Vec<_> = searches
        .iter()
        .map(|search| repeated(&costs, search, in_a_run))
        .collect();
    let mut times = medians(&mut runs);
    times.iter_mut().for_each(|time| *time /= in_a_run as f64);
    print!("{:>5} {:>5}  {name:<24}", chain.tasks, chain.cores);
    times.iter().for_each(|time| print!(" {time:>10.3}"));
    print!("{}", " ".repeat(11 * (4 - times.len())));
    print!(" {:>11.2}", times[0] / times[1]);
    times[2..]
        .iter()
        .for_each(|time| print!(" {:>11.2}", time / times[0]));
    println!();
}

fn print_rows(tasks: usize, cores: usize, searches: &[Search], in_a_run: usize) {
    for (name, chain) in files(tasks, cores) {
        print_row(name, &chain, searches, in_a_run);
    }
}

const SOME_TASKS: [usize; 4] = [3, 6, 9, 12];
const SOME_CORES: [usize; 4] = [4, 8, 16, 32];

/// A run makes so many searches of a board, since on the least one takes some microseconds.
const BOARD_SEARCHES: usize = 20;

/// How the library's time grows with the tasks and cores, on realistic costs.
fn print_growth() {
    println!("\nBest plan of the library on realistic costs, in microseconds, by tasks and cores:");
    print!("tasks");
    SOME_CORES
        .iter()
        .for_each(|cores| print!(" {:>10}", format!("{cores} cores")));
    println!();
    for tasks in SOME_TASKS {
        let files = SOME_CORES.map(|cores| costs::write(&unlimited(Kind::Realistic, tasks, cores)));
        let mut runs = files
            .each_ref()
            .map(|costs| repeated(costs, &LIBRARY, BOARD_SEARCHES));
        print!("{tasks:>5}");
        medians(&mut runs)
            .iter()
            .for_each(|time| print!(" {:>10.1}", time * 1e3 / BOARD_SEARCHES as f64));
        println!();
    }
}

/// One way to fill in costs from laws (document 02, M-101).
type Fill = fn(&[u8], &[u8], &mut [u8]) -> Filled;

/// A run fills in so often, since once takes a fraction of a millisecond.
const FILLINGS: usize = 100;

/// The first part of the largest board, and laws that all have terms, with no coefficient 0.
fn laws_with_terms() -> (Vec<u8>, Vec<u8>) {
    let mut head = costs::write(&cases::constant(MOST_TASKS, MOST_CORES, 0));
    head.truncate((1 + MOST_TASKS) * RECORD_BYTES);
    let tasks = MOST_TASKS as u32;
    let three = |t| Law::Three([100 * t, 30_000 * t, 50 * t]);
    let five = |t| Law::Five([10 * t, 3_000 * t, 2_000 * t, 5 * t, 7 * t]);
    let laws = Laws {
        executions: (1..=tasks).map(three).collect(),
        internals: (1..tasks).map(three).collect(),
        externals: (1..tasks).map(five).collect(),
    };
    (head, laws.write())
}

/// Filling in the costs of the largest board from laws with terms, by the library and the same way in Rust.
fn print_filling() {
    let (head, laws) = laws_with_terms();
    let run = |fill: Fill| -> Box<dyn FnMut()> {
        let (head, laws) = (head.clone(), laws.clone());
        let mut out = vec![0; costs::LARGEST];
        Box::new(move || {
            for _ in 0..FILLINGS {
                let filled = fill(black_box(&head), black_box(&laws), &mut out);
                assert_eq!(black_box(filled).refusal, 0);
            }
        })
    };
    let runs = [run(library::fill_costs), run(filling::fill_costs)];
    println!("\nFilling in from laws with terms, 12 tasks, 32 cores:");
    print_pair(runs, FILLINGS);
}

/// The time of the library and of the same in Rust, which a run does so often, and their ratio.
fn print_pair(mut runs: [Box<dyn FnMut()>; 2], in_a_run: usize) {
    let times = medians(&mut runs);
    let [library, rust] = [0, 1].map(|i| times[i] / in_a_run as f64);
    let ratio = library / rust;
    println!("library {library:.3}, the same in Rust {rust:.3}, ratio {ratio:.2}");
}

/// One way to fill in a timetable (document 02, M-105).
type Table = fn(&[u8], &[u8], u32, &mut [u64]) -> Filled;

/// A run fills in so many tables, since one takes a fraction of a millisecond.
const TABLES: usize = 100;

/// The timetable of the most blocks through a module of two cores for each task of the largest board, by the library and the same
/// way in Rust; and of one block, which leaves reading the file and judging the plan.
fn print_timetables() {
    let costs = costs::write(&unlimited(Kind::Realistic, MOST_TASKS, MOST_CORES));
    let module = |task| Module {
        first: task,
        last: task,
        copies: 1,
        cores: 2,
    };
    let modules: Vec<Module> = (1..=MOST_TASKS).map(module).collect();
    let plan = plan::encode(&modules);
    for blocks in [MOST_BLOCKS, 1] {
        let run = |fill: Table| -> Box<dyn FnMut()> {
            let costs = costs.clone();
            let mut table = vec![0; blocks as usize];
            Box::new(move || {
                for _ in 0..TABLES {
                    let filled = fill(black_box(&costs), black_box(&plan), blocks, &mut table);
                    assert_eq!(black_box(filled).refusal, 0);
                }
            })
        };
        println!("\nTimetable, 12 modules, 32 cores, blocks: {blocks}:");
        print_pair(
            [run(library::timetable), run(recurrence::timetable)],
            TABLES,
        );
    }
}

const NOTES: &str = "\
Reading the file is included, and so is the clearing of the whole work area of 16,384 words at the end. threshold is the
library's search in Rust; paper finds the bottleneck only, in tables of its own, megabytes at 32 cores; every tries all
plans. The files of three tasks allow no longer module; two of them have no plan: a search is one slack table, or three.";

fn main() {
    println!("Best plan: medians of {RUNS} runs in milliseconds, one run of each search in turn.");
    println!("{NOTES}\n");
    println!(
        "tasks cores  {:<24} {:>10} {:>10} {:>10} {:>10} {:>11} {:>11} {:>11}",
        "costs", "library", "threshold", "paper", "every", "lib/thresh.", "paper/lib", "every/lib"
    );
    print_rows(MOST_TASKS, MOST_CORES, &[LIBRARY, THRESHOLD, PAPER], 1);
    let (name, chain) = short_file_with_plan();
    print_row(name, &chain, &[LIBRARY, THRESHOLD, PAPER], 1);
    for (name, chain) in short_files() {
        print_row(name, &chain, &[LIBRARY, THRESHOLD], SHORT_SEARCHES);
    }
    print_rows(8, 16, &[LIBRARY, THRESHOLD, PAPER], 10);
    print_rows(5, 10, &[LIBRARY, THRESHOLD, PAPER, EVERY], 50);
    print_growth();
    print_filling();
    print_timetables();
}

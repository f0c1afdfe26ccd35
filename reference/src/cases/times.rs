//! The times of a chain: executions and transfers.

use super::Kind;
use crate::costs::{Chain, MOST_VALUE};
use crate::plan::Module;
use crate::random::Random;

/// Each time drawn by itself, up to one scale.
pub fn set_drawn(chain: &mut Chain, kind: Kind, random: &mut Random) {
    let scale = random.pick(match kind {
        Kind::Zeros => &[0, 1, 100, MOST_VALUE],
        _ => &[3, 20, 1_000, MOST_VALUE],
    });
    let cores = chain.cores;
    for times in chain.times_mut() {
        for (i, time) in times.iter_mut().enumerate() {
            *time = drawn(kind, scale, i % cores + 1, random);
        }
    }
}

/// The same times at all counts of cores, so that memory and copies decide; half of the time external transfers are dear, so that
/// long modules are good.
pub fn set_even(chain: &mut Chain, random: &mut Random) {
    let scale = random.pick(&[3, 1_000, MOST_VALUE / 4]);
    let dear = random.pick(&[0, 3 * scale]);
    let cores = chain.cores;
    for times in chain.executions.chunks_exact_mut(cores) {
        times.fill(random.value(scale));
    }
    for times in chain.internals.chunks_exact_mut(cores) {
        times.fill(random.value(scale / 3));
    }
    for times in chain.externals.chunks_exact_mut(cores * cores) {
        times.fill(dear + random.value(scale));
    }
}

/// Plans of equal bottleneck and cores whose single-block times differ: half of the time by two tasks that have copies or cores,
/// where there are tasks and cores for that; else by what goes with one slow task.
pub fn set_equal(chain: &mut Chain, random: &mut Random) {
    let scale = random.pick(&[1, 5_000]);
    if chain.tasks > 2 && chain.cores > chain.tasks + 1 && random.once_in(2) {
        set_pair(chain, scale, random);
    } else {
        set_slow_task(chain, scale, random);
    }
}

/// Few values, so that external transfers are often the cheaper ones. One task takes more than all others and all transfers. It
/// and each external transfer to or from it take the same at all counts of cores.
fn set_slow_task(chain: &mut Chain, scale: u32, random: &mut Random) {
    for time in chain.times_mut().into_iter().flatten() {
        *time = scale * random.value(3);
    }
    let (tasks, cores) = (chain.tasks, chain.cores);
    let slow = random.below(tasks);
    chain.executions[slow * cores..][..cores].fill(scale * 8 * tasks as u32);
    let pairs = chain.externals.chunks_exact_mut(cores * cores);
    for (pair, times) in pairs.enumerate() {
        if pair == slow || pair + 1 == slow {
            times.fill(scale * random.value(1));
        }
    }
}

/// Beside a pair, in the scale's ticks: what the slow task takes, the most that the pair's external transfer does, and what no
/// plan of the least bottleneck takes.
const SLOW: u32 = 20;
const SENT: u32 = 6;
const TOO_MUCH: u32 = 5 * SLOW;

/// The first or the last two tasks take nearly twice as long as a third one on one core, and less than that one on two: so that
/// one of them has two copies and the other two cores, with an external transfer of a few ticks. No other task takes any time.
fn set_pair(chain: &mut Chain, scale: u32, random: &mut Random) {
    let (tasks, cores) = (chain.tasks, chain.cores);
    let first = random.pick(&[0, tasks - 2]);
    for task in [first, first + 1] {
        let times = &mut chain.executions[task * cores..][..cores];
        times.fill(scale * (SLOW - SENT - random.value(2)));
        times[0] = scale * (2 * SLOW - SENT - random.value(2));
    }
    let slow = (first + random.within(2, tasks - 1)) % tasks;
    chain.executions[slow * cores..][..cores].fill(scale * SLOW);
    chain.flags[slow] = false;
    let beside = if first == 0 { 1 } else { first - 1 };
    for pair in [first, beside] {
        chain.internals[pair * cores..][..cores].fill(scale * TOO_MUCH);
    }
    let times = &mut chain.externals[first * cores * cores..][..cores * cores];
    times.fill(scale * TOO_MUCH);
    times[0] = 0;
    times[1] = scale * random.value(SENT);
    times[cores] = scale * random.value(SENT);
}

fn drawn(kind: Kind, scale: u32, cores: usize, random: &mut Random) -> u32 {
    match kind {
        Kind::Ties => scale / 3 * random.value(2),
        Kind::Zeros if random.below(6) > 0 => 0,
        // more cores help, but two counts in three are worse than their neighbours
        Kind::NotMonotone => {
            let fair = scale / cores as u32;
            random.pick(&[fair, scale, fair + (scale - fair) / 2])
        }
        _ => random.value(scale),
    }
}

/// What source document 000, 5, adds up: fixed ticks, work that p cores share, and overhead of each core.
pub struct Terms {
    pub fixed: u32,
    pub parallel: u32,
    pub overhead: u32,
}

impl Terms {
    /// For a task that takes some `work` on one core.
    pub fn realistic(work: u32, random: &mut Random) -> Terms {
        Terms {
            fixed: random.value(work / 50),
            parallel: work / 4 + random.value(work * 3 / 4),
            overhead: random.value(work / 200 + 1),
        }
    }

    /// The ticks at p cores; what does not divide is dropped.
    fn at(&self, p: u32) -> u32 {
        self.fixed + self.parallel / p + self.overhead * p
    }
}

/// Terms for each task and transfer, for an external transfer those of both sides, which cost a tenth of a task together.
pub fn set_realistic(chain: &mut Chain, random: &mut Random) {
    let work = random.pick(&[100, 10_000, 400_000]);
    let cores = chain.cores as u32;
    for times in chain.executions.chunks_exact_mut(chain.cores) {
        let terms = Terms::realistic(work, random);
        (1..=cores).for_each(|p| times[p as usize - 1] = terms.at(p));
    }
    for times in chain.internals.chunks_exact_mut(chain.cores) {
        let terms = Terms::realistic(work / 20, random);
        (1..=cores).for_each(|p| times[p as usize - 1] = terms.at(p));
    }
    for times in chain.externals.chunks_exact_mut(chain.cores * chain.cores) {
        let sender = Terms::realistic(work / 20, random);
        let receiver = Terms::realistic(work / 20, random);
        for s in 1..=cores {
            for q in 1..=cores {
                times[((s - 1) * cores + q - 1) as usize] = sender.at(s) + receiver.at(q);
            }
        }
    }
}

/// All times are the greatest but for those that one plan, within the board's cores, has.
pub fn set_hidden(chain: &mut Chain, random: &mut Random) {
    for times in chain.times_mut() {
        times.fill(MOST_VALUE);
    }
    let plan = some_plan(chain, random);
    let scale = random.pick(&[2, 60, 5_000]);
    let cores = chain.cores;
    for (i, module) in plan.iter().enumerate() {
        // with more copies a module may take longer
        let most = scale * module.copies as u32;
        let column = module.cores - 1;
        for task in module.first - 1..module.last {
            chain.executions[task * cores + column] = random.value(most);
        }
        for task in module.first - 1..module.last - 1 {
            chain.internals[task * cores + column] = random.value(most);
        }
        if let Some(next) = plan.get(i + 1) {
            let row = (module.last - 1) * cores + column;
            chain.externals[row * cores + next.cores - 1] = random.value(most);
        }
    }
}

/// Modules of random lengths, copies and cores that the board has room for.
fn some_plan(chain: &Chain, random: &mut Random) -> Vec<Module> {
    let mut plan: Vec<Module> = Vec::new();
    let mut left = chain.cores;
    let mut covered = 0;
    while covered < chain.tasks {
        // the last core is for all tasks that are left
        let last = if left < 2 {
            chain.tasks
        } else {
            random.within(covered + 1, chain.tasks)
        };
        let most = if last == chain.tasks { left } else { left / 2 };
        let cores = random.within(1, most.min(4));
        let copies = random.within(1, (most / cores).min(3));
        plan.push(Module {
            first: covered + 1,
            last,
            copies,
            cores,
        });
        left -= copies * cores;
        covered = last;
    }
    plan
}

//! The memory of a chain: a core's capacity, and what each task needs. Of every need each of p cores holds a share, rounded up
//! (document 02, M-103).

use std::ops::Range;

use super::Kind;
use crate::costs::{Chain, MOST_VALUE};
use crate::random::Random;

/// Needs whose shares are just what some cores hold, or a KiB beside it, in the kinds that are named for this. In the others they
/// add up to some part of the board's memory, or to none.
pub fn set(chain: &mut Chain, kind: Kind, random: &mut Random) {
    let scale = random.pick(&[1, 1_000]);
    let capacity = random.within(1, 30);
    chain.capacity = capacity as u32 * scale;
    let board = chain.cores * capacity;
    let total = match kind {
        Kind::TightMemory => {
            return set_along_plan(chain, chain.cores, &[0, 0, 0, -1, -2], random);
        }
        Kind::Reaches => return set_around_board(chain, random),
        Kind::Shares => return set_split(chain, random),
        Kind::BlockTimes => return set_a_core_each(chain, random),
        Kind::NoPlan => board,
        Kind::Hidden | Kind::Dispatch => 0,
        Kind::TightLimits => board / 3 + random.below(board / 2 + 1),
        _ if random.once_in(3) => 0,
        _ => random.below(board * 2 / 3 + 1),
    };
    for _ in 0..total {
        chain.needs[random.below(chain.tasks)] += scale;
    }
    if kind == Kind::NoPlan {
        overfill(chain, scale, random);
    }
}

/// From needs that are all of the board's memory: one task needs a little more; or, half of the time where there are several
/// tasks and cores, one needs a KiB less and another a KiB more.
fn overfill(chain: &mut Chain, scale: u32, random: &mut Random) {
    if chain.tasks == 1 || chain.cores == 1 || random.once_in(2) {
        chain.needs[random.below(chain.tasks)] += random.pick(&[1, 1, 2, scale]);
        return;
    }
    let greatest = (0..chain.tasks).max_by_key(|&task| chain.needs[task]);
    let less = greatest.expect("a chain has tasks");
    let more = (less + random.within(1, chain.tasks - 1)) % chain.tasks;
    chain.needs[less] -= 1;
    chain.needs[more] += 1;
}

/// Neighbouring tasks, counted from 0, and cores of their own: all tasks, and just so many cores.
fn some_split(tasks: usize, cores: usize, random: &mut Random) -> Vec<(Range<usize>, u32)> {
    let mut modules = Vec::new();
    let (mut first, mut left) = (0, cores);
    while first < tasks {
        // the last core is for all tasks that are left
        let end = if left == 1 {
            tasks
        } else {
            random.within(first + 1, tasks)
        };
        let cores = if end == tasks {
            left
        } else {
            random.within(1, left - 1)
        };
        modules.push((first..end, cores as u32));
        first = end;
        left -= cores;
    }
    modules
}

/// Along a plan of so many cores, the shares of each module are the capacity and one of these numbers more, or 0 if that is less.
fn set_along_plan(chain: &mut Chain, cores: usize, more: &[i32], random: &mut Random) {
    for (tasks, cores) in some_split(chain.tasks, cores, random) {
        let sum = chain.capacity.saturating_add_signed(random.pick(more));
        set_shares(&mut chain.needs[tasks], cores, sum, random);
    }
}

/// Needs whose shares at so many cores add up to this sum; some are 0. Most of them fill their shares, or most of them fall short
/// of that by as much as can be.
fn set_shares(needs: &mut [u32], cores: u32, sum: u32, random: &mut Random) {
    let short = random.pick(&[0, cores - 1]);
    let (last, others) = needs.split_last_mut().expect("a module has tasks");
    let mut left = sum;
    for need in others {
        let some = random.value(left);
        let share = random.pick(&[0, some, some, some, left / 2, left]);
        *need = of_share(share, cores, short, random);
        left -= share;
    }
    *last = of_share(left, cores, short, random);
}

/// A need of which each of so many cores holds this share. It falls short of filling it by so many KiB, fewer than the cores, or
/// one time in three by any. None is above the greatest, which has the same share where a need is cut to it.
fn of_share(share: u32, cores: u32, short: u32, random: &mut Random) -> u32 {
    let some = random.value(cores - 1);
    let short = random.pick(&[short, short, some]);
    (share * cores).saturating_sub(short).min(MOST_VALUE)
}

/// On all cores of the board, the shares of some neighbouring tasks, one time in three of all of them, are the capacity or a KiB
/// more. Each other task's share is nothing, a KiB, a part of the capacity, all of it or a KiB more.
fn set_around_board(chain: &mut Chain, random: &mut Random) {
    let cores = chain.cores as u32;
    match random.below(8) {
        // the greatest that lets a task need a KiB more than the board has
        0 | 1 => chain.capacity = (MOST_VALUE - 1) / cores,
        // too little for a share of each task, or just enough
        2 | 3 => chain.capacity = random.within(1, chain.tasks) as u32,
        _ => {}
    }
    let capacity = chain.capacity;
    for need in &mut chain.needs {
        let share = random.pick(&[0, 0, 1, capacity / 3, capacity / 2, capacity, capacity + 1]);
        *need = of_share(share, cores, cores - 1, random);
    }
    let (mut first, mut last) = (0, chain.tasks - 1);
    if !random.once_in(3) {
        first = random.below(chain.tasks);
        last = random.within(first, last);
    }
    let sum = capacity + random.value(1);
    set_shares(&mut chain.needs[first..=last], cores, sum, random);
}

/// Half of the time, shares along a plan of some of the cores, one in two a KiB too much; else needs of a few KiB, often more of
/// them than a core has KiB, or about the greatest needs, of which a task takes several cores or one.
fn set_split(chain: &mut Chain, random: &mut Random) {
    let needs = match random.below(4) {
        0 => {
            chain.capacity = random.within(1, chain.tasks.min(4)) as u32;
            [0, 1, 1, 1, 2, chain.cores as u32]
        }
        1 => {
            let most = (chain.cores / chain.tasks).max(1);
            let greatest = MOST_VALUE - random.value(1);
            chain.capacity = greatest / random.within(1, most) as u32;
            [0, 1, greatest, greatest, greatest, greatest - 1]
        }
        _ => {
            if random.once_in(2) {
                chain.capacity = random.within(1, 6) as u32;
            }
            let cores = random.within(1, chain.cores);
            return set_along_plan(chain, cores, &[0, 1], random);
        }
    };
    for need in &mut chain.needs {
        *need = random.pick(&needs);
    }
}

/// Any tasks, as many as the board has cores for, fill a core each: a module takes as many cores as it has of them, or a little
/// more. The others need nothing.
fn set_a_core_each(chain: &mut Chain, random: &mut Random) {
    // shares come out even on 1 to 10 and on 12 cores
    chain.capacity = 2_520;
    let mut tasks: Vec<usize> = (0..chain.tasks).collect();
    for _ in 0..chain.tasks.min(chain.cores) {
        let task = tasks.swap_remove(random.below(tasks.len()));
        chain.needs[task] = chain.capacity;
    }
}

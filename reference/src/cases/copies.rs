//! Times of a chain, and a D (document 02, M-106) that is about what copies save.

use crate::costs::{Chain, MOST_CORES};
use crate::random::Random;

/// Half of the time tasks that are together in copies or apart; else tasks that need several copies each, or few ticks of any kind.
/// Without tasks and cores for more it is these.
pub fn set(chain: &mut Chain, random: &mut Random) {
    let has_room = chain.tasks > 2 && chain.cores >= chain.tasks;
    match random.below(4) {
        0 | 1 if has_room => set_group(chain, random),
        2 if has_room => set_counts(chain, random),
        _ => set_few(chain, random),
    }
}

/// Each time drawn by itself, up to a few ticks; D from a tick to more than copies can save.
fn set_few(chain: &mut Chain, random: &mut Random) {
    let scale = random.pick(&[3, 12, 40]);
    for time in chain.times_mut().into_iter().flatten() {
        *time = random.value(scale);
    }
    let most = scale as u8;
    chain.dispatch = random.pick(&[1, most / 2, most, 2 * most, 4 * most, 255]);
}

/// The execution of a task, counted from 0, at all counts of cores.
fn set_execution(chain: &mut Chain, task: usize, time: u32) {
    let cores = chain.cores;
    chain.executions[task * cores..][..cores].fill(time);
}

/// Both transfers from a task, counted from 0, to the next one, at all counts of cores.
fn set_transfers(chain: &mut Chain, task: usize, internal: u32, external: u32) {
    let cores = chain.cores;
    chain.internals[task * cores..][..cores].fill(internal);
    chain.externals[task * cores * cores..][..cores * cores].fill(external);
}

/// The task takes this, and the transfers to and from it inside a module take more; outside they take no time.
fn set_apart(chain: &mut Chain, task: usize, time: u32, internal: u32) {
    set_execution(chain, task, time);
    for sender in task.saturating_sub(1)..=task {
        if sender + 1 < chain.tasks {
            set_transfers(chain, sender, internal, 0);
        }
    }
}

/// The task, which is not replicable, takes as long as the bottleneck.
fn set_slow(chain: &mut Chain, task: usize, time: u32) {
    set_execution(chain, task, time);
    chain.flags[task] = false;
}

/// What the slow task beside a group takes, in the scale's ticks.
const SLOW: u32 = 100;

/// So many times what the slow task takes is within the bottleneck in no copies that the board has cores for.
const TOO_MUCH: u32 = MOST_CORES as u32;

/// Two or three neighbouring tasks, together in as many copies or each in a module of its own, are within the bottleneck, a slow
/// task, on as many cores, of one each or of two: D or the transfers between them decide what a block takes. Some other tasks, best
/// apart, have two copies anyway, which just suffice; the rest take no time.
fn set_group(chain: &mut Chain, random: &mut Random) {
    let scale = random.pick(&[1, 50]);
    let (tasks, slow_time) = (chain.tasks, scale * SLOW);
    let count = if tasks > 3 { random.within(2, 3) } else { 2 };
    let first = random.below(tasks - count + 1);
    let slow = (first + random.within(count, tasks - 1)) % tasks;
    let dispatch = scale * random.within(1, 5) as u32;
    chain.dispatch = dispatch as u8;
    set_tied(chain, first, count, scale, random);
    let mut left = chain.cores - count - 1;
    if left >= count && random.once_in(2) {
        left -= count;
        for task in first..first + count {
            chain.executions[task * chain.cores] = TOO_MUCH * slow_time;
        }
    }
    for task in (0..tasks).filter(|task| !(first..first + count).contains(task)) {
        if task != slow && left >= 2 && random.once_in(2) {
            left -= 2;
            set_apart(chain, task, 2 * slow_time - dispatch, TOO_MUCH * slow_time);
        }
    }
    set_slow(chain, slow, slow_time);
}

/// So many tasks of which two, or two copies of three, are more than the slow one. What they send to each other takes longer outside
/// than inside, by about D for all of them or for each; or it takes the same.
fn set_tied(chain: &mut Chain, first: usize, count: usize, scale: u32, random: &mut Random) {
    let dispatch = u32::from(chain.dispatch);
    let least = if count == 3 { 70 } else { 55 };
    for task in first..first + count {
        set_execution(chain, task, scale * least + random.value(1));
    }
    let more = random.pick(&[
        0,
        dispatch / 2,
        dispatch / 2 + 1,
        dispatch - 1,
        dispatch,
        dispatch + 1,
        2 * dispatch - 1,
        2 * dispatch + 1,
    ]);
    for task in first..first + count - 1 {
        let internal = random.value(2);
        set_transfers(chain, task, internal, internal + more);
    }
}

/// Tasks that are best apart, beside a slow one: with D, some copies of each, of one core or of two, just suffice, or miss it by a
/// tick; or one does.
fn set_counts(chain: &mut Chain, random: &mut Random) {
    let slow_time = random.pick(&[10, 30, 120]) + random.value(3);
    let dispatch = random.within(1, 2 * slow_time as usize) as u8;
    for task in 0..chain.tasks {
        let copies = random.within(1, 3) as u32;
        let handed_out = if copies > 1 { dispatch.into() } else { 0 };
        let most = (copies * slow_time).saturating_sub(handed_out);
        let time = most + random.value(1);
        set_apart(chain, task, time, TOO_MUCH * slow_time);
        if chain.cores > 2 * chain.tasks && random.once_in(2) {
            chain.executions[task * chain.cores] = TOO_MUCH * slow_time;
        }
    }
    set_slow(chain, random.below(chain.tasks), slow_time);
    chain.dispatch = dispatch;
}

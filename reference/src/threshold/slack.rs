//! The slack table of a threshold: for each rest of a plan the greatest time in which it can still receive what it is sent, plus
//! one; 0 where it is not within the threshold at all. It is filled from the chain's last task on: what modules that end with a
//! task leave is pushed to all rests that can start with them.

use super::GRAIN;
use super::lookup::Lookup;
use super::words::{EXECUTIONS, INTERNALS, REACHES, SIDE, SQUARE, slacks};

/// Above every transfer that a rest can still receive.
const NONE: u32 = u32::MAX;

/// An entry for each number of cores.
type Row = [u32; SIDE];

/// The first number of cores, of `from` and more, at which a rest of these slacks can still receive in the time `sent`; it can in the
/// end.
fn first_served(slacks: &[u32], from: usize, sent: u32) -> usize {
    let mut c = from;
    while slacks[c] <= sent {
        c += 1;
    }
    c
}

/// Each entry becomes the least of those up to it.
fn settle(row: &mut [u32]) {
    let mut least = NONE;
    for entry in row {
        least = least.min(*entry);
        *entry = least;
    }
}

/// The cheapest transfers from a module of q cores that ends with task l, by the cores of the rest after it, none of which has fewer
/// than `lowest`: each next module counts from the fewest cores of a rest that it can lead. Behind the last task nothing is sent.
fn cheapest(costs: &Lookup, work: &[u32], l: usize, q: usize, lowest: usize) -> Row {
    if l == costs.tasks {
        return [0; SIDE];
    }
    let mut row = [NONE; SIDE];
    let end = costs.cores - q;
    for next in 1..=end {
        let slacks = slacks(work, l, next);
        let sent = costs.transfer(l, q, next) as u32;
        if sent < slacks[end] {
            let c = first_served(slacks, next.max(lowest), sent);
            row[c] = row[c].min(sent);
        }
    }
    settle(&mut row[..=end]);
    row
}

/// One more than what is left of a time, 0 where too much is taken.
fn beyond(time: u64, taken: u64) -> u32 {
    if taken <= time {
        return (time - taken + 1) as u32;
    }
    0
}

/// What one copy of q cores leaves in b cores, at the threshold n, beside the cheapest transfer.
fn left_by_one(n: u64, row: &Row, q: usize, b: usize) -> u32 {
    beyond(n / GRAIN, row[b - q].into())
}

/// What the best count of copies leaves to a rest of `low` cores or more; several take D more each (document 02, M-106).
fn left_by_any(n: u64, dispatch: u64, row: &Row, q: usize, low: usize, b: usize) -> u32 {
    let mut most = left_by_one(n, row, q, b);
    let mut r = 2;
    while r * q + low <= b {
        let time = n * r as u64 / GRAIN;
        let taken = u64::from(row[b - r * q]) + dispatch;
        most = most.max(beyond(time, taken));
        r += 1;
    }
    most
}

/// What modules of q cores that end with the same task leave, by their cores and the rest's in all, which are `from` at least.
struct Left {
    from: usize,
    by_one: Row,
    by_any: Row,
}

impl Left {
    /// By the cheapest transfers to rests of `low` cores or more.
    fn new(costs: &Lookup, n: u64, row: &Row, q: usize, low: usize) -> Left {
        let from = q + low;
        let mut left = Left {
            from,
            by_one: [0; SIDE],
            by_any: [0; SIDE],
        };
        for b in from..=costs.cores {
            left.by_one[b] = left_by_one(n, row, q, b);
            left.by_any[b] = left_by_any(n, costs.dispatch, row, q, low, b);
        }
        left
    }
}

/// Raises slacks to what is left beside a body.
fn raise(slacks: &mut [u32], left: &[u32], body: u32) {
    for (slack, left) in slacks.iter_mut().zip(left) {
        *slack = (*slack).max(left.saturating_sub(body));
    }
}

/// Pushes what the modules of q cores that end with task l leave, from the shortest to the first that breaks a rule or takes all
/// that the board leaves; `fixed` is the last task that allows no copies.
fn push(costs: &Lookup, work: &mut [u32], l: usize, q: usize, fixed: usize, left: &Left) {
    let mut body = 0;
    for t in (0..l).rev() {
        let i = t * SIDE + q;
        if work[REACHES + i] < l as u32 {
            return;
        }
        body += work[EXECUTIONS + i];
        if t + 1 < l {
            body += work[INTERNALS + i];
        }
        let row = if fixed <= t {
            &left.by_any
        } else {
            &left.by_one
        };
        if row[costs.cores] <= body {
            return;
        }
        let at = t * SQUARE + q * SIDE;
        let cores = left.from..=costs.cores;
        raise(&mut work[at..][cores.clone()], &row[cores], body);
    }
}

/// Of the tasks up to l the last that is not replicable, 0 where there is none.
fn last_fixed(costs: &Lookup, l: usize) -> usize {
    (1..=l).rfind(|&t| !costs.replicable(t)).unwrap_or(0)
}

/// The fewest cores of a rest after task l, one more than the board's where there is none; 0 behind the last task.
fn lowest_after(costs: &Lookup, work: &[u32], l: usize) -> usize {
    if l == costs.tasks {
        return 0;
    }
    let mut lowest = costs.cores + 1;
    for q in 1..=costs.cores {
        let slacks = slacks(work, l, q);
        let mut b = q;
        while b < lowest && slacks[b] == 0 {
            b += 1;
        }
        lowest = lowest.min(b);
    }
    lowest
}

/// The fewest cores of a rest that can receive from a module of q cores; more than fit beside it where none can.
fn first_sent(costs: &Lookup, row: &Row, q: usize) -> usize {
    let end = costs.cores - q;
    let sent = |&c: &usize| row[c] != NONE;
    (0..=end).find(sent).unwrap_or(end + 1)
}

/// Pushes what all modules that end with task l leave, by the slacks of the rests after it.
fn end_with(costs: &Lookup, work: &mut [u32], n: u64, l: usize) {
    let fixed = last_fixed(costs, l);
    let lowest = lowest_after(costs, work, l);
    for q in 1..=costs.cores {
        if costs.cores < lowest + q {
            return;
        }
        if work[REACHES + (l - 1) * SIDE + q] < l as u32 {
            continue;
        }
        let row = cheapest(costs, work, l, q, lowest);
        let low = first_sent(costs, &row, q);
        if q + low <= costs.cores {
            let left = Left::new(costs, n, &row, q, low);
            push(costs, work, l, q, fixed, &left);
        }
    }
}

/// The slack table of the threshold n, in words in which the tasks are laid.
pub fn fill(costs: &Lookup, work: &mut [u32], n: u64) {
    for t in 0..costs.tasks {
        work[t * SQUARE..][..(costs.cores + 1) * SIDE].fill(0);
    }
    for l in (1..=costs.tasks).rev() {
        end_with(costs, work, n, l);
    }
}

/// Whether some plan has b cores or fewer: some first module leaves a slack.
pub fn has_slack(work: &[u32], b: usize) -> bool {
    (1..=b).any(|q| slacks(work, 0, q)[b] > 0)
}

/// The fewest cores of a plan, where the board's are enough.
pub fn fewest_cores(work: &[u32], cores: usize) -> usize {
    (0..cores).find(|&b| has_slack(work, b)).unwrap_or(cores)
}

/// The cores of the first module of a plan of b cores; b where none of fewer leaves a slack.
pub fn first_cores(work: &[u32], b: usize) -> usize {
    (1..b).find(|&q| slacks(work, 0, q)[b] > 0).unwrap_or(b)
}

//! Where the tables of a search stand in the lent words.

use crate::costs::{MOST_CORES, MOST_TASKS};
use crate::every::WORK_WORDS;

/// The slack of the rest after task t whose first module has q cores, b in all, stands at t · SQUARE + q · SIDE + b.
pub const SIDE: usize = MOST_CORES + 1;
pub const SQUARE: usize = SIDE * SIDE;

/// What a task takes at q cores, its internal transfer to the next one, and the last task of the longest module of one copy that
/// starts with it: each at its start + t · SIDE + q for the task t + 1.
pub const EXECUTIONS: usize = MOST_TASKS * SQUARE;
pub const INTERNALS: usize = EXECUTIONS + MOST_TASKS * SIDE;
pub const REACHES: usize = INTERNALS + MOST_TASKS * SIDE;

/// The words that all of them take.
const WORDS: usize = REACHES + MOST_TASKS * SIDE;
const _: () = assert!(WORDS == 14_256 && WORDS <= WORK_WORDS);

/// The slacks of the rests after task t whose first module has q cores, by their cores in all.
pub fn slacks(work: &[u32], t: usize, q: usize) -> &[u32] {
    &work[t * SQUARE + q * SIDE..][..SIDE]
}

/// Where the weight of the rests between a module of s cores that ends with task t and one of q stands, s + q at most the board's:
/// in the square of t where no slack stands, since a rest has no fewer cores than its first module.
pub fn cell(cores: usize, t: usize, s: usize, q: usize) -> usize {
    t * SQUARE + (cores + 1 - q) * SIDE + s - 1
}

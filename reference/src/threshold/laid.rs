//! What all thresholds share, laid once a search: each task's times, and how far a module of one copy can go.

use super::lookup::Lookup;
use super::words::{EXECUTIONS, INTERNALS, REACHES, SIDE};

/// The last task of the longest module of one copy of q cores from task t + 1 on that keeps the rules; t where there is none.
fn longest(costs: &Lookup, t: usize, q: usize) -> usize {
    let mut shares = 0;
    for last in t + 1..=costs.tasks {
        shares += costs.share(last, q);
        if !costs.within_limit(last, q) || shares > costs.capacity {
            return last - 1;
        }
    }
    costs.tasks
}

/// Lays the words of all tasks at all cores of the board.
pub fn lay(costs: &Lookup, work: &mut [u32]) {
    for t in 0..costs.tasks {
        for q in 1..=costs.cores {
            let i = t * SIDE + q;
            work[EXECUTIONS + i] = costs.execution(t + 1, q) as u32;
            work[INTERNALS + i] = costs.internal(t + 1, q) as u32;
            work[REACHES + i] = longest(costs, t, q) as u32;
        }
    }
}

#[cfg(test)]
mod tests {
    use super::*;
    use crate::cases::{self, Kind, small_of_each};
    use crate::costs::{Chain, MOST_CORES, MOST_TASKS};
    use crate::every::WORK_WORDS;
    use crate::plan::Module;

    /// By the second planner's rules; from task t + 1 on each longer module holds the shorter ones.
    fn longest_by_rules(chain: &Chain, t: usize, q: usize) -> usize {
        let keeps_rules = |&last: &usize| {
            let module = Module {
                first: t + 1,
                last,
                copies: 1,
                cores: q,
            };
            module.memory_fits(chain) && module.within_limit(chain)
        };
        (t + 1..=chain.tasks).rfind(keeps_rules).unwrap_or(t)
    }

    #[test]
    fn lays_what_the_second_planner_has() {
        let large = [Kind::Reaches, Kind::Shares, Kind::Limits]
            .map(|kind| cases::sized(kind, MOST_TASKS, MOST_CORES, 0));
        for case in small_of_each(100).chain(large) {
            let (chain, mut work) = (case.chain(), vec![u32::MAX; WORK_WORDS]);
            lay(&Lookup::new(&case.costs), &mut work);
            for (t, q) in (0..chain.tasks).flat_map(|t| (1..=chain.cores).map(move |q| (t, q))) {
                let i = t * SIDE + q;
                let laid = [EXECUTIONS, INTERNALS, REACHES].map(|start| work[start + i]);
                let internal = if t + 1 < chain.tasks {
                    chain.internal(t + 1, q)
                } else {
                    0
                };
                let reach = longest_by_rules(&chain, t, q) as u32;
                let due = [chain.execution(t + 1, q), internal, reach];
                assert_eq!(laid, due, "seed {}, task {}, cores {q}", case.seed, t + 1);
            }
        }
    }
}

//! The table of weights at the decided threshold: the least weight of a rest between two modules, where plans of the fewest cores
//! pass. These places are marked from the chain's first task on, and weighed from its last.

use super::sparing::{Place, Sparing, Stretch};
use super::words::{cell, slacks};

/// Above every weight.
const HEAVIEST: u32 = u32::MAX;

impl Sparing<'_> {
    /// Marks the places after a module.
    fn mark_after(&self, work: &mut [u32], place: Place, stretch: Stretch) {
        let l = stretch.l;
        let room = place.left - place.q;
        for next in 1..=room {
            if slacks(work, l, next)[room] == 0 {
                continue;
            }
            let sent = self.costs.transfer(l, place.q, next);
            if self.first_fit(work, place, stretch, next, sent) != 0 {
                work[cell(self.costs.cores, l, place.q, next)] = 1;
            }
        }
    }

    /// Marks the places after all modules that begin at one.
    fn mark_from(&self, work: &mut [u32], place: Place) {
        let mut stretch = place.stretch();
        for l in place.t + 1..=place.reach(work) {
            stretch = self.longer(work, place, stretch);
            if l < self.costs.tasks {
                self.mark_after(work, place, stretch);
            }
        }
    }

    /// Marks the places after all modules that begin at marked ones after task t.
    fn mark_behind(&self, work: &mut [u32], t: usize) {
        let cores = self.costs.cores;
        for q in 1..cores {
            for s in 1..=cores - q {
                if work[cell(cores, t, s, q)] != 0 {
                    let place = self.place(work, s, t, q);
                    self.mark_from(work, place);
                }
            }
        }
    }

    /// Marks all places where plans of so many cores, the fewest, pass.
    pub fn mark(&self, work: &mut [u32], fewest: usize) {
        for q in 1..=fewest {
            if let Some(place) = self.start(work, q, fewest) {
                self.mark_from(work, place);
            }
        }
        for t in 1..self.costs.tasks {
            self.mark_behind(work, t);
        }
    }

    /// The least weight of a rest that starts with this module and goes on with one of `next` cores, of which the lightest rest weighs
    /// so much.
    fn weight_before(
        &self,
        work: &[u32],
        place: Place,
        stretch: Stretch,
        next: usize,
        rest: u32,
    ) -> u32 {
        let sent = self.costs.transfer(stretch.l, place.q, next);
        let r = self.first_fit(work, place, stretch, next, sent);
        if r == 0 {
            return HEAVIEST;
        }
        self.price(place, stretch, r, sent) + rest
    }

    /// And over the cores of the module after it, where the place between them is marked.
    fn weight_with(&self, work: &[u32], place: Place, stretch: Stretch) -> u32 {
        if stretch.l == self.costs.tasks {
            return self.weight_before(work, place, stretch, 0, 0);
        }
        let mut least = HEAVIEST;
        for next in 1..=place.left - place.q {
            let rest = work[cell(self.costs.cores, stretch.l, place.q, next)];
            if rest != 0 {
                least = least.min(self.weight_before(work, place, stretch, next, rest));
            }
        }
        least
    }

    /// And over its last task.
    fn weight_from(&self, work: &[u32], place: Place) -> u32 {
        let mut least = HEAVIEST;
        let mut stretch = place.stretch();
        for _ in place.t + 1..=place.reach(work) {
            stretch = self.longer(work, place, stretch);
            least = least.min(self.weight_with(work, place, stretch));
        }
        least
    }

    /// Weighs the marked places after task t.
    fn weigh_behind(&self, work: &mut [u32], t: usize) {
        let cores = self.costs.cores;
        for q in 1..cores {
            for s in 1..=cores - q {
                let at = cell(cores, t, s, q);
                if work[at] != 0 {
                    let place = self.place(work, s, t, q);
                    work[at] = self.weight_from(work, place);
                }
            }
        }
    }

    /// Weighs all marked places; the least weight of a plan of so many cores, the fewest.
    pub fn weigh(&self, work: &mut [u32], fewest: usize) -> u32 {
        for t in (1..self.costs.tasks).rev() {
            self.weigh_behind(work, t);
        }
        let mut least = HEAVIEST;
        for q in 1..=fewest {
            if let Some(place) = self.start(work, q, fewest) {
                least = least.min(self.weight_from(work, place));
            }
        }
        least
    }
}

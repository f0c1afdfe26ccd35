//! The walk over the weights: module by module, the first in module order after which the rest still fits in what is left.

use super::sparing::{Place, Sparing, Stretch};
use super::words::{SIDE, cell};
use crate::plan::Module;

/// The weights in the words, and how far the walk has come: to task t and a module of s cores. By the cores of the next module `rooms`
/// is what it and all after it may weigh, plus one, and 0 where it cannot come.
struct Walk<'a> {
    sparing: Sparing<'a>,
    work: &'a [u32],
    s: usize,
    t: usize,
    rooms: [u32; SIDE],
}

impl Walk<'_> {
    fn tasks(&self) -> usize {
        self.sparing.costs.tasks
    }

    fn cores(&self) -> usize {
        self.sparing.costs.cores
    }

    /// Where the next module begins if it has p cores.
    fn place(&self, p: usize) -> Place {
        self.sparing.place(self.work, self.s, self.t, p)
    }

    /// The module from there to task l.
    fn stretch(&self, place: Place, l: usize) -> Stretch {
        let mut stretch = place.stretch();
        for _ in place.t + 1..=l {
            stretch = self.sparing.longer(self.work, place, stretch);
        }
        stretch
    }

    /// What r copies leave for a module of q cores, 0 for none, and all after it, plus one; 0 where they do not spare cores.
    fn room(&self, place: Place, stretch: Stretch, r: usize, q: usize) -> u32 {
        let sent = self.sparing.costs.transfer(stretch.l, place.q, q);
        if !self.sparing.spares(self.work, place, stretch, (r, q), sent) {
            return 0;
        }
        let price = self.sparing.price(place, stretch, r, sent);
        self.rooms[place.q].saturating_sub(price)
    }

    /// Whether r copies leave enough for the lightest rest: for none behind the last task, else for one in a place that is marked.
    fn goes_on(&self, place: Place, stretch: Stretch, r: usize) -> bool {
        if stretch.l == self.tasks() {
            return self.room(place, stretch, r, 0) != 0;
        }
        for q in 1..=place.left.saturating_sub(r * place.q) {
            let rest = self.work[cell(self.cores(), stretch.l, place.q, q)];
            if rest != 0 && rest < self.room(place, stretch, r, q) {
                return true;
            }
        }
        false
    }

    /// Whether r copies of p cores, up to task l, may come next.
    fn may_come(&self, l: usize, r: usize, p: usize) -> bool {
        if self.rooms[p] == 0 {
            return false;
        }
        let place = self.place(p);
        if place.reach(self.work) < l {
            return false;
        }
        self.goes_on(place, self.stretch(place, l), r)
    }

    /// The first module in module order that may come next; there is one.
    fn next_module(&self) -> Module {
        for l in self.t + 1..=self.tasks() {
            for r in 1..=self.cores() {
                if let Some(p) = (1..=self.cores() / r).find(|&p| self.may_come(l, r, p)) {
                    return Module {
                        first: self.t + 1,
                        last: l,
                        copies: r,
                        cores: p,
                    };
                }
            }
        }
        unreachable!("the weights say that a module may come next");
    }

    /// Goes past the module.
    fn pass(&mut self, module: Module) {
        let place = self.place(module.cores);
        let stretch = self.stretch(place, module.last);
        let mut rooms = [0; SIDE];
        if module.last < self.tasks() {
            for (q, room) in rooms.iter_mut().enumerate().take(self.cores() + 1).skip(1) {
                *room = self.room(place, stretch, module.copies, q);
            }
        }
        (self.s, self.t, self.rooms) = (module.cores, module.last, rooms);
    }
}

/// The first plan in module order of the least weight, which has so many cores, by the weights in the words.
pub fn lay_path(sparing: Sparing, work: &[u32], fewest: usize, weight: u32) -> Vec<Module> {
    let mut rooms = [0; SIDE];
    for (q, room) in rooms.iter_mut().enumerate().take(fewest + 1).skip(1) {
        if sparing.start(work, q, fewest).is_some() {
            *room = weight + 1;
        }
    }
    let mut walk = Walk {
        sparing,
        work,
        s: 0,
        t: 0,
        rooms,
    };
    let mut path = Vec::new();
    while walk.t < walk.tasks() {
        let module = walk.next_module();
        walk.pass(module);
        path.push(module);
    }
    path
}

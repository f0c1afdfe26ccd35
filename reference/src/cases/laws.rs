//! First parts and laws from seeds, in kinds that each press on one part of document 02's M-101.

use super::times::Terms;
use super::{KINDS, Kind, chain, small_size};
use crate::costs::{self, MOST_VALUE, RECORD_BYTES};
use crate::laws::{Law, Laws};
use crate::random::Random;

#[derive(Clone, Copy, Debug, PartialEq, Eq)]
pub enum LawKind {
    /// No terms.
    Constant,
    /// Parallel work and overheads.
    Realistic,
    /// Coefficients of a few ticks: often none, often more cores than C2.
    Few,
    /// C2 and C3 are multiples of some count of cores, or one or two beside one.
    Remainders,
    /// The greatest values are exactly 1,000,000, or a little less.
    Brim,
    /// One law's greatest value is 1,000,001: a constant has it at all cores, terms often at one end of them alone, or at one
    /// corner where there are two sides.
    Above,
    /// One coefficient is far too great.
    Huge,
    /// One law's values are small modulo 2³², on one or two cores.
    Wrapping,
}

pub const LAW_KINDS: [LawKind; 8] = [
    LawKind::Constant,
    LawKind::Realistic,
    LawKind::Few,
    LawKind::Remainders,
    LawKind::Brim,
    LawKind::Above,
    LawKind::Huge,
    LawKind::Wrapping,
];

/// A first part and law records, with what they were made from.
#[derive(Clone)]
pub struct LawCase {
    pub seed: u64,
    pub kind: LawKind,
    /// The kind of file that the first part is taken from.
    pub head_kind: Kind,
    pub head: Vec<u8>,
    pub laws: Vec<u8>,
}

/// Laws for which all plans can be tried; the seed fixes them, and each eight seeds in turn cover all kinds.
pub fn small(seed: u64) -> LawCase {
    let mut random = Random::new(seed);
    let kind = LAW_KINDS[(seed % LAW_KINDS.len() as u64) as usize];
    let (tasks, cores) = small_size(1, 1, &mut random);
    made(kind, tasks, cores, seed, random)
}

/// Laws of the given kind for a chain of that size; the seed fixes them.
pub fn sized(kind: LawKind, tasks: usize, cores: usize, seed: u64) -> LawCase {
    made(kind, tasks, cores, seed, Random::new(seed))
}

fn made(kind: LawKind, tasks: usize, cores: usize, seed: u64, mut random: Random) -> LawCase {
    let cores = match kind {
        LawKind::Wrapping => cores.min(2),
        _ => cores,
    };
    let head_kind = random.pick(&KINDS);
    let mut head = costs::write(&chain(head_kind, tasks, cores, &mut random));
    head.truncate((1 + tasks) * RECORD_BYTES);
    let mut draw = Draw {
        kind,
        cores,
        work: random.pick(&[100, 10_000, 400_000]),
        random,
    };
    let mut laws = Laws {
        executions: (0..tasks).map(|_| draw.law(three)).collect(),
        internals: (1..tasks).map(|_| draw.law(three)).collect(),
        externals: (1..tasks).map(|_| draw.law(five)).collect(),
    };
    draw.spoil_one(&mut laws);
    LawCase {
        seed,
        kind,
        head_kind,
        head,
        laws: laws.write(),
    }
}

/// Laws of one kind for so many cores; a task takes some `work` on one.
struct Draw {
    kind: LawKind,
    cores: usize,
    work: u32,
    random: Random,
}

/// The law of an execution or of a transfer on the same cores: there is one side.
fn three([side, _]: [Terms; 2]) -> Law {
    Law::Three([side.fixed, side.parallel, side.overhead])
}

/// The law of a transfer from one side to the other.
fn five([s, q]: [Terms; 2]) -> Law {
    let fixed = s.fixed + q.fixed;
    Law::Five([fixed, s.parallel, q.parallel, s.overhead, q.overhead])
}

impl Draw {
    fn law(&mut self, with_terms: fn([Terms; 2]) -> Law) -> Law {
        let law = match self.kind {
            LawKind::Constant => Law::Constant(self.random.value(self.work)),
            _ if self.random.once_in(4) => Law::Constant(self.side().fixed),
            _ => with_terms([self.side(), self.side()]),
        };
        if self.kind == LawKind::Brim {
            let below = self.random.pick(&[0, 0, 1, 100]);
            return raised(law, self.cores, MOST_VALUE - below);
        }
        law
    }

    /// The terms of one side, now and then without work to share or without overhead.
    fn side(&mut self) -> Terms {
        let (cores, random) = (self.cores as u32, &mut self.random);
        let mut terms = match self.kind {
            LawKind::Few => Terms {
                fixed: random.value(3),
                parallel: random.value(cores + 1),
                overhead: random.value(2),
            },
            LawKind::Remainders => Terms {
                fixed: random.value(3),
                parallel: near_a_multiple(cores, random),
                overhead: random.value(2),
            },
            _ => Terms::realistic(self.work, random),
        };
        if random.once_in(5) {
            terms.parallel = 0;
        }
        if random.once_in(3) {
            terms.overhead = 0;
        }
        terms
    }

    /// Makes one law say too much, in the kinds that are named for this. Half of the time it is an external one, if there are
    /// any: these have four corners, the others two ends.
    fn spoil_one(&mut self, laws: &mut Laws) {
        let kind = match laws.externals.len() {
            0 => 3,
            _ => self.random.pick(&[3, 4, 5, 5]),
        };
        let laws = match kind {
            3 => &mut laws.executions,
            4 => &mut laws.internals,
            _ => &mut laws.externals,
        };
        let i = self.random.below(laws.len());
        laws[i] = match self.kind {
            LawKind::Above => raised(self.with_some_terms(laws[i]), self.cores, MOST_VALUE + 1),
            LawKind::Huge => self.with_huge_coefficient(laws[i]),
            LawKind::Wrapping => self.wrapped(kind == 5),
            _ => laws[i],
        };
    }

    /// Some of the terms that it may have, at least one. A constant stays one.
    fn with_some_terms(&mut self, law: Law) -> Law {
        match law {
            Law::Constant(_) => law,
            Law::Three(_) => {
                let [c2, c3] = self.some_terms();
                Law::Three([0, c2, c3])
            }
            Law::Five(_) => {
                let [c2, c3, c4, c5] = self.some_terms();
                Law::Five([0, c2, c3, c4, c5])
            }
        }
    }

    /// Coefficients from C2 on, 0 for a term left out. The first half falls with the cores and the other rises; where one side
    /// has both, either may be the steeper.
    fn some_terms<const TERMS: usize>(&mut self) -> [u32; TERMS] {
        let chosen = self.random.within(1, (1 << TERMS) - 1);
        let cores = self.cores as u32;
        std::array::from_fn(|i| {
            let most = if i < TERMS / 2 { 1_000 * cores } else { 1_000 };
            let coefficient = 2 + self.random.value(most);
            if chosen >> i & 1 == 1 { coefficient } else { 0 }
        })
    }

    fn with_huge_coefficient(&mut self, mut law: Law) -> Law {
        let random = &mut self.random;
        let word = random.word() as u32;
        let huge = random.pick(&[u32::MAX, u32::MAX - 1, 1 << 31, word, MOST_VALUE + 1]);
        match &mut law {
            Law::Constant(c1) => *c1 = huge,
            Law::Three(coefficients) => coefficients[random.below(3)] = huge,
            Law::Five(coefficients) => coefficients[random.below(5)] = huge,
        }
        law
    }

    /// Three coefficients that wrap at one core and at two: C1 + 2c + C and C1 + c + 2C are small modulo 2³², c being C and a
    /// little more.
    fn wrapped(&mut self, is_external: bool) -> Law {
        let more = self.random.value(100);
        let at_one_core = more + self.random.value(1_000);
        let overhead = (1 << 30) + self.random.value(1 << 29);
        let parallel = 2 * (overhead + more);
        let fixed = at_one_core.wrapping_sub(parallel).wrapping_sub(overhead);
        if is_external {
            return Law::Five([fixed, parallel, 0, overhead, 0]);
        }
        Law::Three([fixed, parallel, overhead])
    }
}

/// A multiple of some count of cores, or one or two beside one.
fn near_a_multiple(cores: u32, random: &mut Random) -> u32 {
    let multiple = (1 + random.value(cores - 1)) * random.value(300);
    (multiple + random.pick(&[0, 1, 2])).saturating_sub(random.value(1))
}

/// The law with another C1, so that its greatest value is this one, if its terms leave room for that.
fn raised(law: Law, cores: usize, greatest: u32) -> Law {
    let with_fixed = |fixed| match law {
        Law::Constant(_) => Law::Constant(fixed),
        Law::Three([_, c2, c3]) => Law::Three([fixed, c2, c3]),
        Law::Five([_, c2, c3, c4, c5]) => Law::Five([fixed, c2, c3, c4, c5]),
    };
    let without = with_fixed(0);
    let pairs = (1..=cores).flat_map(|s| (1..=cores).map(move |q| (s, q)));
    let most = pairs.map(|(s, q)| without.value(s, q)).max().unwrap_or(0);
    match u32::try_from(most) {
        Ok(most) if most <= greatest => with_fixed(greatest - most),
        _ => law,
    }
}

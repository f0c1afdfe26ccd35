//! Values that are not what a law says.

use super::{Mistake, in_output, in_refusal};
use reference::answer::Filled;
use reference::costs::MOST_VALUE;
use reference::laws::{self, Law};

/// Values by which another plan is taken for the best one.
pub const MISLEADING: [Mistake; 23] = [
    // "internal C1 + C2/p + C3·p"
    in_output("C2/p dropped", |head, laws, out| {
        with_three(|[c1, _, c3]| [c1, 0, c3], head, laws, out)
    }),
    in_output("C3·p dropped", |head, laws, out| {
        with_three(|[c1, c2, _]| [c1, c2, 0], head, laws, out)
    }),
    in_output("C2 and C3 exchanged in three terms", |head, laws, out| {
        with_three(|[c1, c2, c3]| [c1, c3, c2], head, laws, out)
    }),
    // "external C1 + C2/s + C3/q + C4·s + C5·q for s sending and q receiving cores"
    in_output("C2/s dropped", |head, laws, out| {
        with_five(|[c1, _, c3, c4, c5]| [c1, 0, c3, c4, c5], head, laws, out)
    }),
    in_output("C3/q dropped", |head, laws, out| {
        with_five(|[c1, c2, _, c4, c5]| [c1, c2, 0, c4, c5], head, laws, out)
    }),
    in_output("C4·s dropped", |head, laws, out| {
        with_five(|[c1, c2, c3, _, c5]| [c1, c2, c3, 0, c5], head, laws, out)
    }),
    in_output("C5·q dropped", |head, laws, out| {
        with_five(|[c1, c2, c3, c4, _]| [c1, c2, c3, c4, 0], head, laws, out)
    }),
    in_output("C4·s and C5·q dropped", |head, laws, out| {
        with_five(|[c1, c2, c3, _, _]| [c1, c2, c3, 0, 0], head, laws, out)
    }),
    in_output("C2 and C3 exchanged in five terms", |head, laws, out| {
        with_five(|[c1, c2, c3, c4, c5]| [c1, c3, c2, c4, c5], head, laws, out)
    }),
    in_output("C4 and C5 exchanged", |head, laws, out| {
        with_five(|[c1, c2, c3, c4, c5]| [c1, c2, c3, c5, c4], head, laws, out)
    }),
    in_output("s and q exchanged", |head, laws, out| {
        fill(|law, s, q| law.value(q, s), head, laws, out)
    }),
    in_output("s on both sides", |head, laws, out| {
        fill(|law, s, _| law.value(s, s), head, laws, out)
    }),
    in_output("q on both sides", |head, laws, out| {
        fill(|law, _, q| law.value(q, q), head, laws, out)
    }),
    in_output("C1 dropped beside terms", |head, laws, out| {
        fill(without_c1, head, laws, out)
    }),
    in_output("products with one core less", |head, laws, out| {
        fill(one_core_less, head, laws, out)
    }),
    in_output("a constant once for each core", |head, laws, out| {
        fill(constant_for_each, head, laws, out)
    }),
    // "each quotient is rounded up"
    in_output("quotients rounded down", |head, laws, out| {
        fill(rounded_down, head, laws, out)
    }),
    in_output(
        "the first of two quotients rounded down",
        |head, laws, out| fill(|law, s, q| one_rounded_down(0, law, s, q), head, laws, out),
    ),
    in_output(
        "the second of two quotients rounded down",
        |head, laws, out| fill(|law, s, q| one_rounded_down(1, law, s, q), head, laws, out),
    ),
    in_output("quotients rounded to the nearest", |head, laws, out| {
        fill(rounded_to_nearest, head, laws, out)
    }),
    in_output("quotients rounded up once more", |head, laws, out| {
        fill(rounded_beyond, head, laws, out)
    }),
    in_output("the sum rounded up", |head, laws, out| {
        fill(rounded_once, head, laws, out)
    }),
    // "five unsigned 32-bit coefficients, lowest byte first"
    in_output("coefficients of 16 bits", |head, laws, out| {
        fill(of_16_bits, head, laws, out)
    }),
];

/// Values that lead to no wrong plan: the first are nearly always refused, and the others are wrong only where 18 is due.
pub const OTHERS: [Mistake; 4] = [
    in_refusal(
        "coefficients highest byte first",
        (0, 18),
        |head, laws, out| fill(highest_first, head, laws, out),
    ),
    // "a value above 1,000,000"
    in_refusal("sums of 32 bits", (18, 0), |head, laws, out| {
        fill(|law, s, q| law.value(s, q) % (1 << 32), head, laws, out)
    }),
    in_refusal("sums of 33 bits", (18, 0), |head, laws, out| {
        fill(|law, s, q| law.value(s, q) % (1 << 33), head, laws, out)
    }),
    in_refusal("values cut to 1,000,000", (18, 0), |head, laws, out| {
        fill(
            |law, s, q| law.value(s, q).min(MOST_VALUE.into()),
            head,
            laws,
            out,
        )
    }),
];

/// The service with these values.
fn fill(value: fn(&Law, usize, usize) -> u64, head: &[u8], laws: &[u8], out: &mut [u8]) -> Filled {
    laws::fill_costs_by(value, laws::is_above, head, laws, out)
}

/// The service with other coefficients where there are three terms.
fn with_three(
    change: fn([u32; 3]) -> [u32; 3],
    head: &[u8],
    laws: &[u8],
    out: &mut [u8],
) -> Filled {
    let value = |law: &Law, s, q| match *law {
        Law::Three(coefficients) => Law::Three(change(coefficients)).value(s, q),
        _ => law.value(s, q),
    };
    laws::fill_costs_by(value, laws::is_above, head, laws, out)
}

/// The service with other coefficients where there are five terms.
fn with_five(change: fn([u32; 5]) -> [u32; 5], head: &[u8], laws: &[u8], out: &mut [u8]) -> Filled {
    let value = |law: &Law, s, q| match *law {
        Law::Five(coefficients) => Law::Five(change(coefficients)).value(s, q),
        _ => law.value(s, q),
    };
    laws::fill_costs_by(value, laws::is_above, head, laws, out)
}

fn without_c1(law: &Law, s: usize, q: usize) -> u64 {
    match *law {
        Law::Constant(_) => law.value(s, q),
        Law::Three([c1, ..]) | Law::Five([c1, ..]) => law.value(s, q) - u64::from(c1),
    }
}

fn one_core_less(law: &Law, s: usize, q: usize) -> u64 {
    let once: u64 = match *law {
        Law::Constant(_) => 0,
        Law::Three([_, _, c3]) => c3.into(),
        Law::Five([_, _, _, c4, c5]) => u64::from(c4) + u64::from(c5),
    };
    law.value(s, q) - once
}

fn constant_for_each(law: &Law, s: usize, q: usize) -> u64 {
    match *law {
        Law::Constant(c1) => u64::from(c1) * s as u64,
        _ => law.value(s, q),
    }
}

/// What is left over in each quotient of the law, and what it is divided by.
fn remainders(law: &Law, s: usize, q: usize) -> Vec<(u64, u64)> {
    let (s, q) = (s as u64, q as u64);
    match *law {
        Law::Constant(_) => Vec::new(),
        Law::Three([_, c2, _]) => vec![(u64::from(c2) % s, s)],
        Law::Five([_, c2, c3, _, _]) => vec![(u64::from(c2) % s, s), (u64::from(c3) % q, q)],
    }
}

fn rounded_down(law: &Law, s: usize, q: usize) -> u64 {
    let left_over = remainders(law, s, q);
    let rounded_up = left_over.iter().filter(|(rest, _)| *rest > 0);
    law.value(s, q) - rounded_up.count() as u64
}

/// The i-th of two, counted from 0; the other one, and a quotient without another, is rounded up.
fn one_rounded_down(i: usize, law: &Law, s: usize, q: usize) -> u64 {
    let left_over = remainders(law, s, q);
    let rounded_up = left_over.len() == 2 && left_over[i].0 > 0;
    law.value(s, q) - u64::from(rounded_up)
}

fn rounded_to_nearest(law: &Law, s: usize, q: usize) -> u64 {
    let left_over = remainders(law, s, q);
    let nearer_below = left_over
        .iter()
        .filter(|(rest, by)| *rest > 0 && 2 * rest < *by);
    law.value(s, q) - nearer_below.count() as u64
}

/// Divided, and one added, also where nothing is left over.
fn rounded_beyond(law: &Law, s: usize, q: usize) -> u64 {
    let left_over = remainders(law, s, q);
    let exact = left_over.iter().filter(|(rest, _)| *rest == 0);
    law.value(s, q) + exact.count() as u64
}

/// Two quotients with something left over, at most one together, make one more and not two.
fn rounded_once(law: &Law, s: usize, q: usize) -> u64 {
    match remainders(law, s, q)[..] {
        [(a, s_cores), (b, q_cores)] if a > 0 && b > 0 => {
            let both_fit = a * q_cores + b * s_cores <= s_cores * q_cores;
            law.value(s, q) - u64::from(both_fit)
        }
        _ => law.value(s, q),
    }
}

/// A law with another one for each coefficient.
fn with_each(law: &Law, change: fn(u32) -> u32) -> Law {
    match *law {
        Law::Constant(c1) => Law::Constant(change(c1)),
        Law::Three(coefficients) => Law::Three(coefficients.map(change)),
        Law::Five(coefficients) => Law::Five(coefficients.map(change)),
    }
}

fn of_16_bits(law: &Law, s: usize, q: usize) -> u64 {
    with_each(law, |coefficient| coefficient & 0xffff).value(s, q)
}

fn highest_first(law: &Law, s: usize, q: usize) -> u64 {
    with_each(law, u32::swap_bytes).value(s, q)
}

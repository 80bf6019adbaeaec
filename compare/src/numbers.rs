//! The functions of numbers: `sqrt`, `abs`, `clamp`, `at_least` and `ceil_count`, against the methods of Rust's `f64`.

use crate::floats::{canon, nudge, power, scaled, LEADING, SPECIAL};
use crate::rattle;
use crate::rng::Rng;
use crate::trial::{plan, Sort, Subject, SIDES};

type Inputs = Vec<[f64; 1]>;

const SIGN: u64 = 1 << 63;

const KINDS: &[Sort] = &[Sort { what: "operand", classes: &["zero", "subnormal", "ordinary", "infinite", "NaN", "negative"] }];

pub fn sqrt() -> Subject<1, 1> {
    Subject {
        name: "sqrt",
        rattle: |x| [canon(rattle::sqrt(x[0]))],
        original: |x| [canon(x[0].sqrt())],
        plans: vec![
            plan("special values and what lies beside them", 1, specials),
            plan("of every exponent, with random digits", 2048, every_exponent::<5000>),
            plan("of every exponent, with digits that start or end a run", 2048, extreme_digits),
            plan("subnormals of every size", 52 * 10, subnormals),
            plan("squares of doubles and what lies beside them", 300, squares),
            plan("beside the squares of midpoints", 500, squares_of_midpoints),
            plan("the nearest ones to squares of midpoints", 1000, nearest_to_squares_of_midpoints),
        ],
        sorts: KINDS,
        sort: |x, _, counts| counts.note(0, kind(x[0])),
        listed: SPECIAL.map(|x| [x]).to_vec(),
    }
}

pub fn abs() -> Subject<1, 1> {
    Subject {
        name: "abs",
        rattle: |x| [canon(rattle::abs(x[0]))],
        original: |x| [canon(x[0].abs())],
        plans: vec![
            plan("special values and what lies beside them", 1, specials),
            plan("of every exponent, with random digits", 2048, every_exponent::<2400>),
            plan("of every exponent, with digits that start or end a run", 2048, extreme_digits),
        ],
        sorts: KINDS,
        sort: |x, _, counts| counts.note(0, kind(x[0])),
        listed: SPECIAL.map(|x| [x]).to_vec(),
    }
}

pub fn clamp() -> Subject<1, 1> {
    Subject {
        name: "clamp",
        rattle: |x| [canon(rattle::clamp(x[0]))],
        original: |x| [canon(x[0].clamp(0.0, 1.0))],
        plans: vec![
            plan("special values and what lies beside them", 1, specials),
            plan("of every exponent, with random digits", 2048, every_exponent::<1600>),
            plan("beside 0 and 1", 500, |rng, _, out| around(rng, &[0.0, 1.0, -1.0], out)),
            plan("from -4 to 4", 500, |rng, _, out| fill(out, 2000, || scaled(rng, -8, 1))),
        ],
        sorts: &[Sort { what: "operand and 0", classes: SIDES }, Sort { what: "operand and 1", classes: SIDES }],
        sort: |x, _, counts| {
            counts.side(0, x[0], 0.0);
            counts.side(1, x[0], 1.0);
        },
        listed: SPECIAL.map(|x| [x]).to_vec(),
    }
}

/// The floor is document 01's.
pub fn at_least() -> Subject<1, 1> {
    Subject {
        name: "at_least",
        rattle: |x| [canon(rattle::at_least(1e-24, x[0]))],
        original: |x| [canon(x[0].max(1e-24))],
        plans: vec![
            plan("special values and what lies beside them", 1, specials),
            plan("of every exponent, with random digits", 2048, every_exponent::<1600>),
            plan("beside 1e-24 and -1e-24", 500, |rng, _, out| around(rng, &[1e-24, 1e-24, -1e-24], out)),
            plan("of the exponents around that of 1e-24", 500, |rng, _, out| fill(out, 2000, || scaled(rng, -84, -76))),
        ],
        sorts: &[Sort { what: "operand and 1e-24", classes: SIDES }],
        sort: |x, _, counts| counts.side(0, x[0], 1e-24),
        listed: SPECIAL.map(|x| [x]).to_vec(),
    }
}

pub fn ceil_count() -> Subject<1, 1> {
    Subject {
        name: "ceil_count",
        rattle: |x| [rattle::ceil_count(x[0]) as u64],
        original: |x| [x[0].ceil() as usize as u64],
        plans: vec![
            plan("special values and what lies beside them", 1, specials),
            plan("of every exponent, with random digits", 2048, every_exponent::<1600>),
            plan("whole numbers and halves, and what lies beside them", 500, wholes),
            plan("from 2^51 to 2^66", 500, |rng, _, out| fill(out, 2000, || scaled(rng, 51, 65))),
            plan("beside each power of two up to 2^66", 67, powers),
        ],
        sorts: &[Sort { what: "operand", classes: &["NaN", "not above 0", "whole", "with a fraction", "2^64 or more"] }],
        sort: |x, _, counts| counts.note(0, kind_of_count(x[0])),
        listed: SPECIAL.map(|x| [x]).to_vec(),
    }
}

fn kind(x: f64) -> usize {
    if x.is_nan() {
        4
    } else if x == 0.0 {
        0
    } else if x < 0.0 {
        5
    } else if x.is_infinite() {
        3
    } else if x.is_subnormal() {
        1
    } else {
        2
    }
}

fn kind_of_count(x: f64) -> usize {
    if x.is_nan() {
        0
    } else if x <= 0.0 {
        1
    } else if x >= 18446744073709551616.0 {
        4
    } else if x.fract() == 0.0 {
        2
    } else {
        3
    }
}

fn fill(out: &mut Inputs, n: usize, mut make: impl FnMut() -> f64) {
    for _ in 0..n {
        out.push([make()]);
    }
}

fn specials(_: &mut Rng, _: u64, out: &mut Inputs) {
    for x in SPECIAL {
        for k in -3..=3 {
            out.push([nudge(x, k)]);
            out.push([nudge(-x, k)]);
        }
    }
}

/// Random digits under the exponent field of the block's number: COUNT of them, a quarter with a minus sign.
fn every_exponent<const COUNT: u64>(rng: &mut Rng, block: u64, out: &mut Inputs) {
    let field = (block % 2048) << 52;
    for i in 0..COUNT {
        let sign = if i % 4 == 0 { SIGN } else { 0 };
        out.push([f64::from_bits(sign | field | rng.next() >> 12)]);
    }
}

/// The same with digits 2^k and 2^52 − 2^k, and those one above and one below.
fn extreme_digits(_: &mut Rng, block: u64, out: &mut Inputs) {
    let field = (block % 2048) << 52;
    for k in 0..=52 {
        for digits in [1u64 << k, LEADING - (1 << k)] {
            for d in [digits.saturating_sub(1), digits, digits + 1] {
                let bits = field | d.min(LEADING - 1);
                out.push([f64::from_bits(bits)]);
                out.push([f64::from_bits(SIGN | bits)]);
            }
        }
    }
}

/// Subnormals of as many digits as the block's number says: 1 to 52.
fn subnormals(rng: &mut Rng, block: u64, out: &mut Inputs) {
    let first = 1 << (block % 52);
    for i in 0..2000 {
        let bits = match i {
            0 => first,
            1 => 2 * first - 1,
            _ => first | rng.next() % first,
        };
        out.push([f64::from_bits(bits)]);
    }
}

/// The rounded squares of doubles of 1 to 53 digits, with two doubles on each side.
fn squares(rng: &mut Rng, _: u64, out: &mut Inputs) {
    for _ in 0..2000 {
        let dropped = rng.below(53);
        let r = scaled(rng, -536, 510);
        let r = f64::from_bits(r.to_bits() >> dropped << dropped);
        for k in -2..=2 {
            out.push([nudge(r * r, k)]);
        }
    }
}

/// The double with the significand x of 53 digits, and an exponent at random among those that fit `zeros`:
/// x followed by that many zeros is a square where x · 2^e is one.
fn with_exponent(rng: &mut Rng, x: u64, zeros: u32) -> f64 {
    let e = 2 * rng.between(-537, 485) + zeros as i64 % 2;
    f64::from_bits((((e + 1075) as u64) << 52) + (x - LEADING))
}

/// A midpoint of two doubles is an odd number of 54 digits. Its square has 107 or 108, and the 53 leading ones are an operand
/// just below it, with 54 or 55 dropped: the two operands on each side of the square.
fn squares_of_midpoints(rng: &mut Rng, _: u64, out: &mut Inputs) {
    for _ in 0..3000 {
        let m = (1 << 53) | (rng.next() >> 11) | 1;
        let square = m as u128 * m as u128;
        let zeros = 75 - square.leading_zeros();
        let x = (square >> zeros) as u64;
        for near in x - 1..=x + 2 {
            if (LEADING..2 * LEADING).contains(&near) {
                out.push([with_exponent(rng, near, zeros)]);
            }
        }
    }
}

/// The operands that come nearest to the square of a midpoint m: m² − c ends in 54 or 55 zeros, for a small c of either sign.
/// As m is odd, c is 1 more than a multiple of 8; each such c has four roots modulo a power of two.
fn nearest_to_squares_of_midpoints(rng: &mut Rng, block: u64, out: &mut Inputs) {
    for j in 0..1000 {
        let c = 1 + 8 * (block as i64 * 1000 + j - 500_000);
        for zeros in [54, 55] {
            let s = root_modulo(c as u64, zeros);
            let half = 1 << (zeros - 1);
            for m in [s, s + half, s.wrapping_neg(), half.wrapping_sub(s)] {
                let m = m % (1 << zeros);
                let x = ((m as i128 * m as i128 - c as i128) >> zeros) as u64;
                if m >> 53 == 1 && (LEADING..2 * LEADING).contains(&x) {
                    out.push([with_exponent(rng, x, zeros)]);
                }
            }
        }
    }
}

/// A root of c modulo 2^bits, for c ≡ 1 (mod 8): a digit at a time (Hensel).
fn root_modulo(c: u64, bits: u32) -> u64 {
    let mut s = 1u64;
    for k in 3..bits {
        if s.wrapping_mul(s).wrapping_sub(c) >> k & 1 == 1 {
            s += 1 << (k - 1);
        }
    }
    s
}

/// Near one of the given numbers, most of them within eight doubles.
fn around(rng: &mut Rng, of: &[f64], out: &mut Inputs) {
    for _ in 0..2000 {
        let x = rng.pick(of);
        let reach = rng.pick(&[8, 8, 8, 1000]);
        out.push([nudge(x, rng.between(-reach, reach))]);
    }
}

/// Whole numbers of every size, some with a half, with two doubles on each side.
fn wholes(rng: &mut Rng, _: u64, out: &mut Inputs) {
    for _ in 0..500 {
        let n = (rng.next() >> rng.between(0, 63)) as f64;
        let half = if rng.one_in(4) { 0.5 } else { 0.0 };
        let sign = if rng.one_in(8) { -1.0 } else { 1.0 };
        for k in -2..=2 {
            out.push([nudge(sign * (n + half), k)]);
        }
    }
}

/// A power of two with 500 doubles on each side.
fn powers(_: &mut Rng, block: u64, out: &mut Inputs) {
    let p = power((block % 67) as i64);
    for k in -500..=500 {
        out.push([nudge(p, k)]);
    }
}

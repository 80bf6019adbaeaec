//! Bit patterns of doubles, and the kinds of double from which inputs are made.

use crate::rng::Rng;

pub const NAN: u64 = 0x7ff8_0000_0000_0000;

/// What stands in lists before a call that may leave places of them: as a real, a NaN with a payload.
pub const PATTERN: u64 = 0x7ff4_0bad_5eed_0b57;

/// 2^52: the weight of the exponent's field in a pattern, and of the digit before the 52 of a significand.
pub const LEADING: u64 = 1 << 52;

/// The bits of x, with one pattern for every NaN.
pub fn canon(x: f64) -> u64 {
    if x.is_nan() {
        NAN
    } else {
        x.to_bits()
    }
}

/// x moved by k places in the order of the doubles; what would leave the finite ones stops there. A NaN and an infinity stay.
pub fn nudge(x: f64, k: i64) -> f64 {
    if !x.is_finite() {
        return x;
    }
    let greatest = f64::MAX.to_bits() as i64;
    let place = (place(x) + k).clamp(-greatest - 1, greatest);
    if place < 0 {
        f64::from_bits((1 << 63) | (-1 - place) as u64)
    } else {
        f64::from_bits(place as u64)
    }
}

/// Where x stands among the doubles: +0 at 0, −0 at −1.
fn place(x: f64) -> i64 {
    let bits = x.to_bits() as i64;
    if bits < 0 {
        -1 - (bits & i64::MAX)
    } else {
        bits
    }
}

/// Whether x lies at most k places from y.
pub fn within(x: f64, y: f64, k: i64) -> bool {
    (place(x) as i128 - place(y) as i128).abs() <= k as i128
}

/// 2^k, for k from −1022 to 1023.
pub fn power(k: i64) -> f64 {
    f64::from_bits(((k + 1023) as u64) << 52)
}

/// Doubles at which an operation, a comparison or a conversion changes its course.
pub const SPECIAL: [f64; 48] = [
    0.0,
    -0.0,
    f64::INFINITY,
    f64::NEG_INFINITY,
    f64::NAN,
    f64::from_bits(0xfff8_0000_0000_0000),
    f64::from_bits(0x7ff0_0000_0000_0001),
    f64::from_bits(0xffff_ffff_ffff_ffff),
    f64::from_bits(1),
    f64::from_bits(0x8000_0000_0000_0001),
    f64::from_bits(2),
    f64::from_bits(3),
    f64::from_bits(0x0008_0000_0000_0000),
    f64::from_bits(LEADING - 1),
    f64::from_bits((1 << 63) | (LEADING - 1)),
    f64::MIN_POSITIVE,
    -f64::MIN_POSITIVE,
    f64::from_bits(LEADING + 1),
    f64::MAX,
    f64::MIN,
    1.0,
    -1.0,
    1.0 - f64::EPSILON / 2.0,
    1.0 + f64::EPSILON,
    0.5,
    -0.5,
    2.0,
    3.0,
    1e-24,
    -1e-24,
    1e-12,
    -1e-12,
    1.0 + 1e-12,
    1e-30,
    1e24,
    -1e24,
    1e77,
    1e-77,
    1.3407807929942596e154,
    1.3407807929942597e154,
    1.5e-162,
    -1.5e-162,
    1e300,
    -1e300,
    1e-300,
    4503599627370496.0,
    9007199254740992.0,
    18446744073709551616.0,
];

pub fn special(rng: &mut Rng) -> f64 {
    rng.pick(&SPECIAL)
}

/// Any bit pattern.
pub fn any(rng: &mut Rng) -> f64 {
    f64::from_bits(rng.next())
}

/// From −1 to 1, in steps of 2^−52.
pub fn unit(rng: &mut Rng) -> f64 {
    ((rng.next() as i64) >> 11) as f64 / LEADING as f64
}

/// From low to high.
pub fn within_range(rng: &mut Rng, low: f64, high: f64) -> f64 {
    low + (high - low) * (unit(rng) * 0.5 + 0.5)
}

/// Of either sign, with an exponent from low to high.
pub fn scaled(rng: &mut Rng, low: i64, high: i64) -> f64 {
    let k = rng.between(low, high);
    let sign = rng.next() << 63;
    f64::from_bits(power(k).to_bits() | sign | (rng.next() >> 12))
}

/// 1 or −1.
pub fn either_sign(rng: &mut Rng) -> f64 {
    if rng.one_in(2) {
        1.0
    } else {
        -1.0
    }
}

//! Inputs of the plane's functions: kinds that suit every function, then those made for one function or one threshold.
//! A threshold is met by working out the last coordinate from the others and moving coordinates by a few doubles.

use crate::floats::{any, either_sign, nudge, power, scaled, special, unit, within_range};
use crate::rng::Rng;
use crate::stand_ins::Point;
use crate::trial::Make;

/// How many inputs a block has.
const BLOCK: usize = 2000;

fn fill<const N: usize>(out: &mut Vec<[f64; N]>, mut make: impl FnMut() -> [f64; N]) {
    for _ in 0..BLOCK {
        out.push(make());
    }
}

// ---- for every function

/// A whole number from −4 to 4; zeros of both signs.
fn step(rng: &mut Rng) -> f64 {
    let n = rng.between(-4, 4) as f64;
    if n == 0.0 && rng.one_in(4) {
        -0.0
    } else {
        n
    }
}

pub fn mixed<const N: usize>(rng: &mut Rng, _: u64, out: &mut Vec<[f64; N]>) {
    fill(out, || {
        let often = rng.pick(&[2, 4, N as u64]);
        [(); N].map(|_| {
            if rng.one_in(often) {
                special(rng)
            } else if rng.one_in(2) {
                step(rng)
            } else {
                scaled(rng, -60, 60)
            }
        })
    });
}

pub fn patterns<const N: usize>(rng: &mut Rng, _: u64, out: &mut Vec<[f64; N]>) {
    fill(out, || [(); N].map(|_| any(rng)));
}

/// Many are equal, on one line or at right angles. At a scale of 2^−40 a square is near 1e-24, and at 2^−20 a fourth power.
pub fn lattice<const N: usize>(rng: &mut Rng, _: u64, out: &mut Vec<[f64; N]>) {
    fill(out, || {
        let k = match rng.below(4) {
            0 => 0,
            1 => rng.between(-42, -38),
            2 => rng.between(-22, -18),
            _ => rng.between(-60, 60),
        };
        [(); N].map(|_| step(rng) * power(k))
    });
}

pub fn sheet<const N: usize>(rng: &mut Rng, _: u64, out: &mut Vec<[f64; N]>) {
    fill(out, || {
        let size = rng.pick(&[1.0, 100.0, 1048576.0]);
        [(); N].map(|_| size * unit(rng))
    });
}

pub fn close<const N: usize>(rng: &mut Rng, _: u64, out: &mut Vec<[f64; N]>) {
    fill(out, || {
        let low = rng.pick(&[-60, -1020]);
        let base = [scaled(rng, low, 60), scaled(rng, low, 60)];
        let mut i = 0;
        [(); N].map(|_| {
            i += 1;
            nudge(base[i % 2], rng.between(-8, 8))
        })
    });
}

/// One of the given numbers, or, one time in three, one with an exponent from low to high.
fn simple(rng: &mut Rng, list: &[f64], low: i64, high: i64) -> f64 {
    if rng.one_in(3) {
        scaled(rng, low, high)
    } else {
        rng.pick(list)
    }
}

/// One coordinate replaced by a special value.
fn spoiled<const N: usize>(rng: &mut Rng, mut c: [f64; N]) -> [f64; N] {
    c[rng.below(N as u64) as usize] = special(rng);
    c
}

/// A quarter stays, the others have one or two coordinates moved by up to three doubles.
fn nudged<const N: usize>(rng: &mut Rng, mut c: [f64; N]) -> [f64; N] {
    if !rng.one_in(4) {
        for _ in 0..2 {
            let i = rng.below(N as u64) as usize;
            c[i] = nudge(c[i], rng.between(-3, 3));
        }
    }
    c
}

/// x and y exchanged, and each turned round, at random: the same picture in another place.
fn turned<const N: usize>(rng: &mut Rng, points: usize, mut c: [f64; N]) -> [f64; N] {
    let (swap, sx, sy) = (rng.one_in(2), either_sign(rng), either_sign(rng));
    for i in 0..points {
        let (x, y) = (sx * c[2 * i], sy * c[2 * i + 1]);
        (c[2 * i], c[2 * i + 1]) = if swap { (y, x) } else { (x, y) };
    }
    c
}

fn point(rng: &mut Rng, low: i64, high: i64) -> Point {
    Point::new(scaled(rng, low, high), scaled(rng, low, high))
}

/// a + s·v
fn on(a: Point, s: f64, v: Point) -> Point {
    Point::new(a.x + s * v.x, a.y + s * v.y)
}

fn flatten<const N: usize>(points: &[Point]) -> [f64; N] {
    let mut c = [0.0; N];
    for (i, p) in points.iter().enumerate() {
        (c[2 * i], c[2 * i + 1]) = (p.x, p.y);
    }
    c
}

// ---- for `dot`, `length_squared` and `sign`

pub fn right_angles(rng: &mut Rng, _: u64, out: &mut Vec<[f64; 4]>) {
    fill(out, || {
        let p = point(rng, -40, 40);
        let k = scaled(rng, -40, 40);
        nudged(rng, [p.x, p.y, -k * p.y, k * p.x])
    });
}

/// A vector of a length near 1e-12.
fn short_vector(rng: &mut Rng) -> Point {
    let x = if rng.one_in(4) { 0.0 } else { 1e-12 * unit(rng) };
    let y = either_sign(rng) * (1e-24 - x * x).sqrt();
    Point::new(nudge(x, rng.between(-3, 3)), nudge(y, rng.between(-3, 3)))
}

pub fn short(rng: &mut Rng, _: u64, out: &mut Vec<[f64; 2]>) {
    fill(out, || {
        let p = short_vector(rng);
        turned(rng, 1, [p.x, p.y])
    });
}

fn line(rng: &mut Rng) -> [f64; 6] {
    let a = point(rng, -30, 30);
    let v = point(rng, -30, 30);
    let s = scaled(rng, -4, 4);
    let c = flatten(&[on(a, s, v), a, on(a, 1.0, v)]);
    nudged(rng, c)
}

pub fn nearly_on_a_line(rng: &mut Rng, _: u64, out: &mut Vec<[f64; 6]>) {
    fill(out, || line(rng));
}

pub fn nearly_on_a_line_spoiled(rng: &mut Rng, _: u64, out: &mut Vec<[f64; 6]>) {
    fill(out, || {
        let c = line(rng);
        spoiled(rng, c)
    });
}

// ---- a point and a triangle

fn triangle(rng: &mut Rng) -> [Point; 3] {
    let low = rng.pick(&[-2, -20]);
    [(); 3].map(|_| point(rng, low, 20))
}

/// The point with the weights s of b and t of c.
fn weighted([a, b, c]: [Point; 3], s: f64, t: f64) -> [f64; 8] {
    flatten(&[on(on(a, s, b - a), t, c - a), a, b, c])
}

fn around_triangle(rng: &mut Rng) -> [f64; 8] {
    let (s, t) = (within_range(rng, -0.3, 1.0), within_range(rng, -0.3, 1.0));
    weighted(triangle(rng), s, t)
}

pub fn in_triangle(rng: &mut Rng, _: u64, out: &mut Vec<[f64; 8]>) {
    fill(out, || around_triangle(rng));
}

pub fn in_triangle_spoiled(rng: &mut Rng, _: u64, out: &mut Vec<[f64; 8]>) {
    fill(out, || {
        let c = around_triangle(rng);
        spoiled(rng, c)
    });
}

pub fn on_an_edge(rng: &mut Rng, _: u64, out: &mut Vec<[f64; 8]>) {
    fill(out, || {
        let [a, b, c] = triangle(rng);
        let s = simple(rng, &[0.0, 1.0, 0.5, 0.25], -3, 0);
        let corners = rng.pick(&[[a, b, c], [b, c, a], [c, a, b], [a, c, b]]);
        let c = weighted(corners, s, 0.0);
        nudged(rng, c)
    });
}

/// Triangles with corners that coincide or lie on one line, or nearly.
pub fn flat(rng: &mut Rng, _: u64, out: &mut Vec<[f64; 8]>) {
    fill(out, || {
        let [p, a, b] = triangle(rng);
        let s = scaled(rng, -3, 3);
        let c = on(a, s, b - a);
        let corners = rng.pick(&[[a, a, b], [a, b, a], [b, a, a], [a, a, a], [a, b, c], [c, a, b], [a, c, b]]);
        let p = rng.pick(&[p, a, b, c]);
        let flat = flatten(&[p, corners[0], corners[1], corners[2]]);
        nudged(rng, flat)
    });
}

/// Twice the area is near 1e-12, so that its square, the determinant, is near 1e-24.
pub fn small_triangle(rng: &mut Rng, _: u64, out: &mut Vec<[f64; 8]>) {
    fill(out, || {
        let (s, t) = (within_range(rng, -0.5, 1.5), within_range(rng, -0.5, 1.5));
        let v = point(rng, -26, -14);
        let w = if rng.one_in(2) {
            let w = point(rng, -26, -14);
            let cross = v.x * w.y - v.y * w.x;
            Point::new(w.x * (1e-12 / cross), w.y * (1e-12 / cross))
        } else {
            Point::new(0.0, 1e-12 / v.x)
        };
        let v = if w.x == 0.0 { Point::new(v.x, 0.0) } else { v };
        let c = weighted([Point::new(0.0, 0.0), v, w], s, t);
        let c = nudged(rng, c);
        turned(rng, 4, c)
    });
}

/// Corners on one line, of a size at which the two products of the determinant differ by a rounding near 1e-24, to either side.
pub fn rounded_flat(rng: &mut Rng, _: u64, out: &mut Vec<[f64; 8]>) {
    fill(out, || {
        let v = point(rng, -9, -6);
        let k = scaled(rng, -1, 1);
        let w = Point::new(k * v.x, k * v.y);
        let (s, t) = (unit(rng), unit(rng));
        let c = weighted([Point::new(0.0, 0.0), v, w], s, t);
        nudged(rng, c)
    });
}

/// Where the second weight is so large that 1 is lost beside it, and the third is near 1e-24, the weights sum to the third.
pub fn far_out(rng: &mut Rng, _: u64, out: &mut Vec<[f64; 8]>) {
    fill(out, || {
        let (i, j) = (power(rng.between(-10, 10)), power(rng.between(-10, 10)));
        let i = if rng.one_in(4) { i * within_range(rng, 1.0, 2.0) } else { i };
        let far = scaled(rng, 50, 200) * i;
        let near = either_sign(rng) * nudge(1e-24, rng.between(-6, 6)) * j;
        let zero = Point::new(0.0, 0.0);
        let c = flatten(&[Point::new(far, near), zero, Point::new(i, 0.0), Point::new(0.0, j)]);
        turned(rng, 4, c)
    });
}

/// The corners' values, after a point and a triangle: from 0 to 1 as in a field, or any.
fn values(rng: &mut Rng) -> [f64; 3] {
    match rng.below(4) {
        0 => [(); 3].map(|_| step(rng)),
        1 => [(); 3].map(|_| scaled(rng, -60, 60)),
        _ => [(); 3].map(|_| within_range(rng, 0.0, 1.0)),
    }
}

fn join(c: [f64; 8], u: [f64; 3]) -> [f64; 11] {
    let mut all = [0.0; 11];
    all[..8].copy_from_slice(&c);
    all[8..].copy_from_slice(&u);
    all
}

pub fn with_values(make: Make<8>, rng: &mut Rng, block: u64, out: &mut Vec<[f64; 11]>) {
    let mut triangles = Vec::new();
    make(rng, block, &mut triangles);
    for c in triangles {
        let u = values(rng);
        out.push(join(c, u));
    }
}

pub fn with_values_spoiled(rng: &mut Rng, _: u64, out: &mut Vec<[f64; 11]>) {
    fill(out, || {
        let c = join(around_triangle(rng), values(rng));
        spoiled(rng, c)
    });
}

// ---- a ray and a segment

/// The ray along dir that meets the segment from a along e at s, when it has gone t.
fn ray(a: Point, e: Point, s: f64, dir: Point, t: f64) -> [f64; 8] {
    flatten(&[on(on(a, s, e), -t, dir), dir, a, on(a, 1.0, e)])
}

fn towards_segment(rng: &mut Rng) -> [f64; 8] {
    let (s, t) = (within_range(rng, -0.2, 1.2), within_range(rng, -0.5, 3.0));
    let a = if rng.one_in(2) { Point::new(0.0, 0.0) } else { point(rng, -4, 20) };
    ray(a, point(rng, -20, 20), s, point(rng, -10, 3), t)
}

pub fn towards(rng: &mut Rng, _: u64, out: &mut Vec<[f64; 8]>) {
    fill(out, || towards_segment(rng));
}

pub fn towards_spoiled(rng: &mut Rng, _: u64, out: &mut Vec<[f64; 8]>) {
    fill(out, || {
        let c = towards_segment(rng);
        spoiled(rng, c)
    });
}

const ORIGIN: Point = Point::new(0.0, 0.0);

pub fn short_segment(rng: &mut Rng, _: u64, out: &mut Vec<[f64; 8]>) {
    fill(out, || {
        let (s, t) = (within_range(rng, 0.1, 0.9), within_range(rng, 0.1, 2.0));
        let c = ray(ORIGIN, short_vector(rng), s, point(rng, -6, -2), t);
        turned(rng, 4, c)
    });
}

/// The product of the normal and the direction is near 1e-24: of a segment along an axis, or of one and a direction so short that
/// their products are.
pub fn along_segment(rng: &mut Rng, _: u64, out: &mut Vec<[f64; 8]>) {
    fill(out, || {
        let (s, t) = (within_range(rng, 0.1, 0.9), within_range(rng, 0.1, 2.0));
        let near = either_sign(rng) * 1e-24;
        let (e, x) = if rng.one_in(2) {
            (Point::new(scaled(rng, -20, 10), 0.0), scaled(rng, -20, 0))
        } else {
            (point(rng, -39, -36), scaled(rng, -41, -38))
        };
        let y = (e.y * x + near) / e.x;
        let dir = Point::new(x, nudge(y, rng.between(-4, 4)));
        let c = ray(ORIGIN, e, s, dir, t);
        turned(rng, 4, c)
    });
}

/// t is near 1e-12: from a place on a segment along an axis, or from its start.
pub fn before_segment(rng: &mut Rng, _: u64, out: &mut Vec<[f64; 8]>) {
    fill(out, || {
        let t = nudge(1e-12, rng.between(-4, 4));
        let dir = Point::new(scaled(rng, -6, 6), simple(rng, &[1.0, -1.0, 2.0], -6, 6));
        let c = if rng.one_in(2) {
            let e = Point::new(simple(rng, &[1.0, -4.0], -10, 10), 0.0);
            ray(ORIGIN, e, within_range(rng, 0.1, 0.9), dir, t)
        } else {
            ray(ORIGIN, point(rng, -6, 6), 0.0, dir, t)
        };
        turned(rng, 4, c)
    });
}

/// A ray that meets the line of a segment at s, with few roundings: of a segment along an axis, or near its start.
fn past(rng: &mut Rng, s: f64) -> [f64; 8] {
    if rng.one_in(2) {
        let e = Point::new(simple(rng, &[1.0, -2.0, 8.0], -10, 10), 0.0);
        let dir = Point::new(simple(rng, &[0.0], -50, -46), either_sign(rng));
        let s = nudge(s, rng.between(-4, 4));
        ray(ORIGIN, e, s, dir, within_range(rng, 0.1, 2.0))
    } else {
        let c = ray(ORIGIN, point(rng, -4, 4), s, point(rng, -22, -20), power(-20));
        nudged(rng, c)
    }
}

pub fn past_start(rng: &mut Rng, _: u64, out: &mut Vec<[f64; 8]>) {
    fill(out, || {
        let c = past(rng, -1e-12);
        turned(rng, 4, c)
    });
}

/// By a place past the end, or by one before the start of the segment with its ends exchanged.
pub fn past_end(rng: &mut Rng, _: u64, out: &mut Vec<[f64; 8]>) {
    fill(out, || {
        let c = if rng.one_in(2) {
            past(rng, 1.0 + 1e-12)
        } else {
            let [ox, oy, dx, dy, ax, ay, bx, by] = past(rng, -1e-12);
            [ox, oy, dx, dy, bx, by, ax, ay]
        };
        turned(rng, 4, c)
    });
}

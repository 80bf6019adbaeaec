//! Times the functions of both sides in one run, on the same inputs.

use crate::floats::scaled;
use crate::originals::{interp, intersect, pde};
use crate::plane::at;
use crate::rattle;
use crate::rng::Rng;
use crate::shapes;
use std::hint::black_box;
use std::time::Instant;

/// How often each side is timed; the least time counts.
const ROUNDS: usize = 15;

pub fn all(seed: u64) {
    println!("nanoseconds a call, calls that do not wait for each other; a Rattle function is called through C, a Rust one is inlined");
    let mut rng = Rng::new(seed, "timing", 0);
    let numbers: Vec<f64> = (0..2000).map(|_| scaled(&mut rng, -500, 500).abs()).collect();
    time("sqrt", &numbers, |x| rattle::sqrt(*x), |x| x.sqrt());
    time("abs", &numbers, |x| rattle::abs(*x), |x| x.abs());
    time("clamp", &numbers, |x| rattle::clamp(*x), |x| x.clamp(0.0, 1.0));
    time("at_least", &numbers, |x| rattle::at_least(1e-24, *x), |x| x.max(1e-24));
    time("ceil_count", &numbers, |x| rattle::ceil_count(*x), |x| x.ceil() as usize);
    let mut lines = Vec::new();
    shapes::nearly_on_a_line(&mut rng, 0, &mut lines);
    time("sign", &lines, |c| rattle::sign(at(c, 0), at(c, 1), at(c, 2)), |c| pde::private::sign(at(c, 0), at(c, 1), at(c, 2)));
    let mut triangles = Vec::new();
    shapes::in_triangle(&mut rng, 0, &mut triangles);
    time(
        "point_in_triangle",
        &triangles,
        |c| rattle::point_in_triangle(at(c, 0), at(c, 1), at(c, 2), at(c, 3)),
        |c| pde::private::point_in_triangle(at(c, 0), at(c, 1), at(c, 2), at(c, 3)),
    );
    let mut rays = Vec::new();
    shapes::towards(&mut rng, 0, &mut rays);
    time(
        "get_ray_line_intersection",
        &rays,
        |c| rattle::get_ray_line_intersection(at(c, 0), at(c, 1), at(c, 2), at(c, 3)),
        |c| intersect::get_ray_line_intersection(at(c, 0), at(c, 1), at(c, 2), at(c, 3)),
    );
    time(
        "get_barycentric_weights",
        &triangles,
        |c| rattle::get_barycentric_weights(at(c, 0), at(c, 1), at(c, 2), at(c, 3)),
        |c| <[f64; 3]>::from(interp::get_barycentric_weights(at(c, 0), at(c, 1), at(c, 2), at(c, 3))),
    );
    let mut fields = Vec::new();
    shapes::with_values(shapes::in_triangle, &mut rng, 0, &mut fields);
    time(
        "barycentric_interpolate",
        &fields,
        |c| rattle::barycentric_interpolate(at(c, 0), at(c, 1), at(c, 2), at(c, 3), [c[8], c[9], c[10]]),
        |c| interp::barycentric_interpolate(at(c, 0), at(c, 1), at(c, 2), at(c, 3), c[8], c[9], c[10]),
    );
}

fn time<I, R>(name: &str, inputs: &[I], rattle: impl Fn(&I) -> R, original: impl Fn(&I) -> R) {
    let (mut of_rattle, mut of_original) = (f64::INFINITY, f64::INFINITY);
    for _ in 0..ROUNDS {
        of_rattle = of_rattle.min(round(inputs, &rattle));
        of_original = of_original.min(round(inputs, &original));
    }
    println!("{name}: Rattle {of_rattle:.1}, Rust {of_original:.1}, ratio {:.1}", of_rattle / of_original);
}

/// Nanoseconds a call, over all the inputs as often as takes some milliseconds.
fn round<I, R>(inputs: &[I], f: impl Fn(&I) -> R) -> f64 {
    let start = Instant::now();
    let mut calls = 0;
    while start.elapsed().as_millis() < 10 {
        for x in inputs {
            black_box(f(black_box(x)));
        }
        calls += inputs.len();
    }
    start.elapsed().as_nanos() as f64 / calls as f64
}

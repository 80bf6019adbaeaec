//! The functions of the plane, against the original ones.

use crate::floats::canon;
use crate::originals::{interp, intersect, pde};
use crate::rattle;
use crate::shapes;
use crate::stand_ins::Point;
use crate::trial::{plan, Counts, Plan, Sort, Subject, SIDES};

/// The i-th point of a list of coordinates.
pub fn at(c: &[f64], i: usize) -> Point {
    Point::new(c[2 * i], c[2 * i + 1])
}

/// The kinds of input that suit every function, 300,000 of each, and then the function's own.
fn plans<const N: usize>(own: Vec<Plan<N>>) -> Vec<Plan<N>> {
    let mut all = vec![
        plan("with special values among small and large ones", 150, shapes::mixed::<N>),
        plan("of any bit patterns", 150, shapes::patterns::<N>),
        plan("on a lattice of few points, at every scale", 150, shapes::lattice::<N>),
        plan("as large as on a sheet", 150, shapes::sheet::<N>),
        plan("all within a few doubles of one point", 150, shapes::close::<N>),
    ];
    all.extend(own);
    all
}

pub fn dot() -> Subject<4, 1> {
    Subject {
        name: "dot",
        rattle: |c| [canon(rattle::dot(at(c, 0), at(c, 1)))],
        original: |c| [canon(at(c, 0).dot(at(c, 1)))],
        plans: plans(vec![plan("nearly at right angles", 300, shapes::right_angles)]),
        sorts: &[Sort { what: "answer and 0", classes: SIDES }],
        sort: |_, answer, counts| counts.side(0, f64::from_bits(answer[0]), 0.0),
        listed: vec![],
    }
}

pub fn length_squared() -> Subject<2, 1> {
    Subject {
        name: "length_squared",
        rattle: |c| [canon(rattle::length_squared(at(c, 0)))],
        original: |c| [canon(at(c, 0).length_squared())],
        plans: plans(vec![plan("of a length near 1e-12", 300, shapes::short)]),
        sorts: &[Sort { what: "answer and 1e-24", classes: SIDES }],
        sort: |_, answer, counts| counts.side(0, f64::from_bits(answer[0]), 1e-24),
        listed: vec![],
    }
}

pub fn sign() -> Subject<6, 1> {
    Subject {
        name: "sign",
        rattle: |c| [canon(rattle::sign(at(c, 0), at(c, 1), at(c, 2)))],
        original: |c| [canon(pde::private::sign(at(c, 0), at(c, 1), at(c, 2)))],
        plans: plans(vec![
            plan("nearly on one line", 200, shapes::nearly_on_a_line),
            plan("nearly on one line, with a special value", 100, shapes::nearly_on_a_line_spoiled),
        ]),
        sorts: &[Sort { what: "answer and 0", classes: SIDES }],
        sort: |_, answer, counts| counts.side(0, f64::from_bits(answer[0]), 0.0),
        listed: vec![],
    }
}

pub fn point_in_triangle() -> Subject<8, 1> {
    Subject {
        name: "point_in_triangle",
        rattle: |c| [rattle::point_in_triangle(at(c, 0), at(c, 1), at(c, 2), at(c, 3)) as u64],
        original: |c| [pde::private::point_in_triangle(at(c, 0), at(c, 1), at(c, 2), at(c, 3)) as u64],
        plans: plans(vec![
            plan("in and around a triangle", 100, shapes::in_triangle),
            plan("in and around a triangle, with a special value", 100, shapes::in_triangle_spoiled),
            plan("on an edge or a corner, or nearly", 150, shapes::on_an_edge),
            plan("of flat triangles", 100, shapes::flat),
        ]),
        sorts: &[
            Sort { what: "first sign and 0", classes: SIDES },
            Sort { what: "second sign and 0", classes: SIDES },
            Sort { what: "third sign and 0", classes: SIDES },
            Sort { what: "answer", classes: &["outside", "in the triangle"] },
        ],
        sort: |c, answer, counts| {
            let (p, a, b, e) = (at(c, 0), at(c, 1), at(c, 2), at(c, 3));
            counts.side(0, pde::private::sign(p, a, b), 0.0);
            counts.side(1, pde::private::sign(p, b, e), 0.0);
            counts.side(2, pde::private::sign(p, e, a), 0.0);
            counts.note(3, answer[0] as usize);
        },
        listed: vec![],
    }
}

/// The answer: 1 and the point, or 0.
fn hit(point: Option<Point>) -> [u64; 3] {
    match point {
        Some(p) => [1, canon(p.x), canon(p.y)],
        None => [0, 0, 0],
    }
}

pub fn get_ray_line_intersection() -> Subject<8, 3> {
    Subject {
        name: "get_ray_line_intersection",
        rattle: |c| hit(rattle::get_ray_line_intersection(at(c, 0), at(c, 1), at(c, 2), at(c, 3))),
        original: |c| hit(intersect::get_ray_line_intersection(at(c, 0), at(c, 1), at(c, 2), at(c, 3))),
        plans: plans(vec![
            plan("rays towards a segment", 150, shapes::towards),
            plan("rays towards a segment, with a special value", 100, shapes::towards_spoiled),
            plan("segments of a length near 1e-12", 100, shapes::short_segment),
            plan("rays along a segment, with a product near 1e-24", 100, shapes::along_segment),
            plan("rays that start near 1e-12 before a segment", 100, shapes::before_segment),
            plan("rays past the start of a segment by nearly 1e-12", 100, shapes::past_start),
            plan("rays past the end of a segment by nearly 1e-12", 100, shapes::past_end),
        ]),
        sorts: &[
            Sort { what: "len2 and 1e-24", classes: SIDES },
            Sort { what: "|ndotd| and 1e-24", classes: SIDES },
            Sort { what: "t and 1e-12", classes: SIDES },
            Sort { what: "proj and -1e-12", classes: SIDES },
            Sort { what: "proj and 1 + 1e-12", classes: SIDES },
            Sort { what: "answer", classes: &["nothing", "a point"] },
        ],
        sort: sort_ray,
        listed: vec![],
    }
}

fn sort_ray(c: &[f64; 8], answer: &[u64; 3], counts: &mut Counts) {
    let (origin, dir, a, b) = (at(c, 0), at(c, 1), at(c, 2), at(c, 3));
    counts.note(5, answer[0] as usize);
    let e = b - a;
    let len2 = e.length_squared();
    counts.side(0, len2, 1e-24);
    if len2 < 1e-24 {
        return;
    }
    let normal = Point::new(e.y, -e.x);
    let ndotd = normal.dot(dir);
    counts.side(1, ndotd.abs(), 1e-24);
    if ndotd.abs() < 1e-24 {
        return;
    }
    let t = normal.dot(a - origin) / ndotd;
    counts.side(2, t, 1e-12);
    if t <= 1e-12 {
        return;
    }
    let meets = Point::new(origin.x + t * dir.x, origin.y + t * dir.y);
    let proj = (meets - a).dot(e) / len2;
    counts.side(3, proj, -1e-12);
    counts.side(4, proj, 1.0 + 1e-12);
}

pub fn get_barycentric_weights() -> Subject<8, 3> {
    Subject {
        name: "get_barycentric_weights",
        rattle: |c| rattle::get_barycentric_weights(at(c, 0), at(c, 1), at(c, 2), at(c, 3)).map(canon),
        original: |c| weights(c).map(canon),
        plans: plans(vec![
            plan("in and around a triangle", 150, shapes::in_triangle),
            plan("in and around a triangle, with a special value", 100, shapes::in_triangle_spoiled),
            plan("of flat triangles", 100, shapes::flat),
            plan("of triangles with an area near 5e-13", 200, shapes::small_triangle),
            plan("of flat triangles whose determinant rounds to nearly 1e-24", 100, shapes::rounded_flat),
        ]),
        sorts: &[Sort { what: "|denom| and 1e-24", classes: SIDES }, Sort { what: "denom and 0", classes: SIDES }],
        sort: |c, _, counts| {
            let denom = determinant(c);
            counts.side(0, denom.abs(), 1e-24);
            counts.side(1, denom, 0.0);
        },
        listed: vec![],
    }
}

/// The original weights of the first of four points in the triangle of the others.
fn weights(c: &[f64]) -> [f64; 3] {
    let (r, s, t) = interp::get_barycentric_weights(at(c, 0), at(c, 1), at(c, 2), at(c, 3));
    [r, s, t]
}

fn determinant(c: &[f64]) -> f64 {
    let v0 = at(c, 3) - at(c, 1);
    let v1 = at(c, 2) - at(c, 1);
    let d01 = v0.dot(v1);
    v0.length_squared() * v1.length_squared() - d01 * d01
}

pub fn barycentric_interpolate() -> Subject<11, 1> {
    Subject {
        name: "barycentric_interpolate",
        rattle: |c| {
            let u = [c[8], c[9], c[10]];
            [canon(rattle::barycentric_interpolate(at(c, 0), at(c, 1), at(c, 2), at(c, 3), u))]
        },
        original: |c| {
            let (p, va, vb, vc) = (at(c, 0), at(c, 1), at(c, 2), at(c, 3));
            [canon(interp::barycentric_interpolate(p, va, vb, vc, c[8], c[9], c[10]))]
        },
        plans: plans(vec![
            plan("in and around a triangle", 150, |r, b, o| shapes::with_values(shapes::in_triangle, r, b, o)),
            plan("in and around a triangle, with a special value", 100, shapes::with_values_spoiled),
            plan("of flat triangles", 100, |r, b, o| shapes::with_values(shapes::flat, r, b, o)),
            plan("of triangles with an area near 5e-13", 100, |r, b, o| shapes::with_values(shapes::small_triangle, r, b, o)),
            plan("of flat triangles whose determinant rounds to nearly 1e-24", 100, |r, b, o| {
                shapes::with_values(shapes::rounded_flat, r, b, o)
            }),
            plan("far out, where the weights sum to nearly 1e-24", 150, |r, b, o| shapes::with_values(shapes::far_out, r, b, o)),
        ]),
        sorts: &[
            Sort { what: "|denom| and 1e-24", classes: SIDES },
            Sort { what: "|sum| and 1e-24", classes: SIDES },
            Sort { what: "first weight and 0", classes: SIDES },
            Sort { what: "first weight and 1", classes: SIDES },
            Sort { what: "clamped sum and 1e-24", classes: SIDES },
        ],
        sort: |c, _, counts| {
            counts.side(0, determinant(c).abs(), 1e-24);
            let [r, s, t] = weights(c);
            let sum = (r + s + t).abs();
            counts.side(1, sum, 1e-24);
            if sum < 1e-24 {
                return;
            }
            counts.side(2, r, 0.0);
            counts.side(3, r, 1.0);
            let [r, s, t] = [r, s, t].map(|w| w.clamp(0.0, 1.0));
            counts.side(4, r + s + t, 1e-24);
        },
        listed: vec![],
    }
}

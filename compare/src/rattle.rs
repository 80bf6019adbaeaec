//! The Rattle functions, by the C names of crates/exports_numbers. compare/run holds each declaration to crates/exports_numbers/src/lib.rt,
//! where a slice `out` is one parameter for two here, its pointer and its length `out_len`.

use crate::stand_ins::Point;

mod exported {
    extern "C" {
        pub fn cintrok_sqrt(x: f64) -> f64;
        pub fn cintrok_abs(x: f64) -> f64;
        pub fn cintrok_clamp(x: f64) -> f64;
        pub fn cintrok_at_least(floor: f64, x: f64) -> f64;
        pub fn cintrok_ceil_count(x: f64) -> usize;
        pub fn cintrok_dot(px: f64, py: f64, qx: f64, qy: f64) -> f64;
        pub fn cintrok_length_squared(px: f64, py: f64) -> f64;
        pub fn cintrok_sign(px: f64, py: f64, ax: f64, ay: f64, bx: f64, by: f64) -> f64;
        pub fn cintrok_point_in_triangle(px: f64, py: f64, ax: f64, ay: f64, bx: f64, by: f64, cx: f64, cy: f64) -> u32;
        pub fn cintrok_ray(ox: f64, oy: f64, dx: f64, dy: f64, ax: f64, ay: f64, bx: f64, by: f64, out: *mut f64, out_len: usize) -> u32;
        pub fn cintrok_weights(
            px: f64,
            py: f64,
            ax: f64,
            ay: f64,
            bx: f64,
            by: f64,
            cx: f64,
            cy: f64,
            out: *mut f64,
            out_len: usize,
        ) -> u32;
        pub fn cintrok_interpolate(
            px: f64,
            py: f64,
            ax: f64,
            ay: f64,
            bx: f64,
            by: f64,
            cx: f64,
            cy: f64,
            ua: f64,
            ub: f64,
            uc: f64,
        ) -> f64;
    }
}

// None of these functions has a `requires`, and each keeps to the slice that it is lent.

pub fn sqrt(x: f64) -> f64 {
    unsafe { exported::cintrok_sqrt(x) }
}

pub fn abs(x: f64) -> f64 {
    unsafe { exported::cintrok_abs(x) }
}

pub fn clamp(x: f64) -> f64 {
    unsafe { exported::cintrok_clamp(x) }
}

pub fn at_least(floor: f64, x: f64) -> f64 {
    unsafe { exported::cintrok_at_least(floor, x) }
}

pub fn ceil_count(x: f64) -> usize {
    unsafe { exported::cintrok_ceil_count(x) }
}

pub fn dot(p: Point, q: Point) -> f64 {
    unsafe { exported::cintrok_dot(p.x, p.y, q.x, q.y) }
}

pub fn length_squared(p: Point) -> f64 {
    unsafe { exported::cintrok_length_squared(p.x, p.y) }
}

pub fn sign(p: Point, a: Point, b: Point) -> f64 {
    unsafe { exported::cintrok_sign(p.x, p.y, a.x, a.y, b.x, b.y) }
}

pub fn point_in_triangle(p: Point, a: Point, b: Point, c: Point) -> bool {
    match unsafe { exported::cintrok_point_in_triangle(p.x, p.y, a.x, a.y, b.x, b.y, c.x, c.y) } {
        0 => false,
        1 => true,
        n => panic!("cintrok_point_in_triangle gives {n}"),
    }
}

pub fn get_ray_line_intersection(origin: Point, dir: Point, a: Point, b: Point) -> Option<Point> {
    let mut out = [0.0; 2];
    let said = unsafe { exported::cintrok_ray(origin.x, origin.y, dir.x, dir.y, a.x, a.y, b.x, b.y, out.as_mut_ptr(), out.len()) };
    match said {
        0 => None,
        1 => Some(Point::new(out[0], out[1])),
        n => panic!("cintrok_ray gives {n}"),
    }
}

pub fn get_barycentric_weights(p: Point, va: Point, vb: Point, vc: Point) -> [f64; 3] {
    let mut out = [0.0; 3];
    let said = unsafe { exported::cintrok_weights(p.x, p.y, va.x, va.y, vb.x, vb.y, vc.x, vc.y, out.as_mut_ptr(), out.len()) };
    assert!(said == 1, "cintrok_weights gives {said}");
    out
}

pub fn barycentric_interpolate(p: Point, va: Point, vb: Point, vc: Point, [ua, ub, uc]: [f64; 3]) -> f64 {
    unsafe { exported::cintrok_interpolate(p.x, p.y, va.x, va.y, vb.x, vb.y, vc.x, vc.y, ua, ub, uc) }
}

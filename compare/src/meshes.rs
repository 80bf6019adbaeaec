//! Meshes: rings, grids, fans, strips, lone triangles and heaps of them, and what is done to them afterwards. The same seed gives the same mesh everywhere:
//! points of a circle are worked out by the four operations alone.

use crate::content::{Content, MAX_TRIANGLES, MAX_VERTICES, REACH};
use crate::floats::{nudge, power, scaled, unit, within_range};
use crate::rng::Rng;
use crate::stand_ins::Point;
use std::collections::HashMap;

pub type Make = fn(&mut Rng) -> Content;

/// A mesh of these vertices and triangles, with neighbours where two triangles share an edge in opposite order, and no tags.
fn mesh(vertices: &[Point], triangles: &[[usize; 3]]) -> Content {
    let mut c = Content {
        vertices: vertices.iter().flat_map(|p| [p.x, p.y]).collect(),
        triangles: triangles.iter().flatten().map(|i| *i as u32).collect(),
        neighbours: vec![-1; 3 * triangles.len()],
        tags: vec![0; vertices.len()],
        ..Content::default()
    };
    let mut edges: HashMap<[usize; 2], usize> = HashMap::new();
    for k in 0..3 * triangles.len() {
        edges.entry(ends(&c, k)).or_insert(k / 3);
    }
    for k in 0..3 * triangles.len() {
        let [a, b] = ends(&c, k);
        if let Some(&t) = edges.get(&[b, a]).filter(|t| **t != k / 3) {
            c.neighbours[k] = t as i32;
        }
    }
    c
}

/// The vertex numbers at the ends of an edge: edge k % 3 of triangle k / 3.
fn ends(c: &Content, k: usize) -> [usize; 2] {
    let corners = c.corners(k / 3);
    [corners[k % 3], corners[(k % 3 + 1) % 3]]
}

/// A point of the unit circle, u quarters on from (1, 0).
fn circle(u: f64) -> Point {
    let s = u - u.floor();
    let (x, y) = ((1.0 - s * s) / (1.0 + s * s), 2.0 * s / (1.0 + s * s));
    match u as usize % 4 {
        0 => Point::new(x, y),
        1 => Point::new(-y, x),
        2 => Point::new(-x, -y),
        _ => Point::new(y, -x),
    }
}

// ---- shapes

/// A ring of so many vertices around and so many layers of triangles, its inner border tagged 2 and its outer one 1.
pub fn ring_of(rng: &mut Rng, around: usize, layers: usize, jitter: f64) -> Content {
    let inner = within_range(rng, 0.2, 3.0);
    let width = within_range(rng, 0.5, 2.0);
    let mut vertices = Vec::new();
    let mut triangles = Vec::new();
    for l in 0..=layers {
        for i in 0..around {
            let moved = if l == 0 || l == layers { 0.0 } else { jitter };
            let radius = inner + width * (l as f64 + moved * unit(rng)) / layers as f64 * (1.0 + inner);
            let p = circle(4.0 * (i as f64 + (0.5 + 0.5 * unit(rng)) * moved) / around as f64);
            vertices.push(Point::new(radius * p.x, radius * p.y));
        }
    }
    for l in 0..layers {
        for i in 0..around {
            let (a, b) = (l * around + i, l * around + (i + 1) % around);
            quad(rng, [a, b, b + around, a + around], &mut triangles);
        }
    }
    let mut c = mesh(&vertices, &triangles);
    c.tags[..around].fill(2);
    c.tags[layers * around..].fill(1);
    c
}

/// Two triangles in place of four corners.
fn quad(rng: &mut Rng, [a, b, c, d]: [usize; 4], triangles: &mut Vec<[usize; 3]>) {
    if rng.one_in(2) {
        triangles.extend([[a, b, c], [a, c, d]]);
    } else {
        triangles.extend([[a, b, d], [b, c, d]]);
    }
}

pub fn ring(rng: &mut Rng) -> Content {
    let around = rng.between(3, 16) as usize;
    let layers = rng.between(1, 4) as usize;
    let jitter = rng.pick(&[0.0, 0.3, 0.7]);
    ring_of(rng, around, layers, jitter)
}

/// A grid with its corners moved a little, held at two sides or all around.
pub fn grid(rng: &mut Rng) -> Content {
    let (w, h) = (rng.between(1, 8) as usize, rng.between(1, 8) as usize);
    let jitter = rng.pick(&[0.0, 0.2, 0.45, 0.8]);
    grid_of(rng, w, h, jitter)
}

/// A grid of whole numbers from 0 to 4.
pub fn lattice(rng: &mut Rng) -> Content {
    grid_of(rng, 4, 4, 0.0)
}

fn grid_of(rng: &mut Rng, w: usize, h: usize, jitter: f64) -> Content {
    let mut vertices = Vec::new();
    let mut triangles = Vec::new();
    for y in 0..=h {
        for x in 0..=w {
            vertices.push(Point::new(x as f64 + jitter * unit(rng), y as f64 + jitter * unit(rng)));
        }
    }
    for y in 0..h {
        for x in 0..w {
            let a = y * (w + 1) + x;
            quad(rng, [a, a + 1, a + w + 2, a + w + 1], &mut triangles);
        }
    }
    let mut c = mesh(&vertices, &triangles);
    let around = rng.one_in(2);
    for (i, tag) in c.tags.iter_mut().enumerate() {
        let (x, y) = (i % (w + 1), i / (w + 1));
        let border = x == 0 || x == w || y == 0 || y == h;
        *tag = match around {
            true if border => 1,
            true => (x == w / 2 && y == h / 2) as u8 * 2,
            false if x == 0 => 2,
            false => (x == w) as u8,
        };
    }
    c
}

/// Triangles around one vertex, all the way or not.
pub fn fan(rng: &mut Rng) -> Content {
    let k = rng.between(3, 12) as usize;
    let closed = rng.one_in(2);
    let mut vertices = vec![Point::new(0.1 * unit(rng), 0.1 * unit(rng))];
    vertices.extend((0..k).map(|i| circle(4.0 * i as f64 / k as f64)));
    let triangles: Vec<[usize; 3]> = (0..k - !closed as usize).map(|i| [0, 1 + i, 1 + (i + 1) % k]).collect();
    let mut c = mesh(&vertices, &triangles);
    c.tags[0] = 2;
    for tag in &mut c.tags[1..] {
        *tag = !rng.one_in(4) as u8;
    }
    c
}

/// Two rows of vertices, long and flat: nothing where a row's height is too small, and great numbers where it is not quite so.
pub fn strip(rng: &mut Rng) -> Content {
    let k = rng.between(2, 12) as usize;
    let step = power(rng.between(-10, 16));
    let height = power(rng.between(-60, -8));
    let skew = rng.pick(&[0.0, 0.5, 3.0]);
    let mut vertices = Vec::new();
    for i in 0..k {
        let x = step * (i as f64 + 0.3 * unit(rng));
        vertices.push(Point::new(x, height * unit(rng)));
        vertices.push(Point::new(x + skew * step, height * (1.0 + unit(rng))));
    }
    let mut triangles = Vec::new();
    for i in 0..k - 1 {
        quad(rng, [2 * i, 2 * i + 2, 2 * i + 3, 2 * i + 1], &mut triangles);
    }
    let mut c = mesh(&vertices, &triangles);
    tag_any(rng, &mut c);
    c
}

/// Free vertices that nearly coincide, and held ones far away: the products of such thin triangles cancel until only rounding is left, and some fields
/// grow beyond every double.
pub fn needles(rng: &mut Rng) -> Content {
    let near = rng.between(2, 3) as usize;
    let n = near + rng.between(1, 4) as usize;
    let size = |rng: &mut Rng, i: usize| if i < near { power(rng.between(-60, -45)) } else { power(rng.between(15, 19)) };
    let vertices: Vec<Point> = (0..n).map(|i| Point::new(unit(rng) * size(rng, i), unit(rng) * size(rng, i))).collect();
    let mut triangles = Vec::new();
    for _ in 0..rng.between(1, 6) {
        let far = near + rng.below((n - near) as u64) as usize;
        triangles.push([rng.below(near as u64) as usize, rng.below(near as u64) as usize, far]);
    }
    for _ in 0..rng.below(3) {
        triangles.push([(); 3].map(|_| rng.below(n as u64) as usize));
    }
    let mut c = mesh(&vertices, &triangles);
    for tag in &mut c.tags[near..] {
        *tag = rng.pick(&[1, 1, 2]);
    }
    c
}

/// A ring with cut edges and triangles that stand there twice, so that a cut edge has several others to go on by.
pub fn cut_ring(rng: &mut Rng) -> Content {
    let mut c = ring(rng);
    cut(rng, &mut c);
    for _ in 0..c.t() / 2 {
        duplicate(rng, &mut c);
    }
    c
}

/// One triangle with numbers near 1e-30: twice its area, or else p·Ap of the second pass. The first pass settles the held vertices; the free one
/// is left with b (1 − k), for its right side b and its matrix entry k.
pub fn near_tiny(rng: &mut Rng) -> Content {
    let (x, y) = (scaled(rng, -4, 4).abs(), scaled(rng, -4, 4).abs());
    let vertices = if rng.one_in(2) {
        let x = x * power(rng.between(-70, -20));
        [Point::new(0.0, 0.0), Point::new(x, 0.0), Point::new(0.0, nudge(1e-30 / x, rng.between(-2, 2)))]
    } else {
        let k = 0.5 * y / x;
        let b = (1e-30 / k).sqrt() / (1.0 - k);
        [Point::new(0.0, 0.0), Point::new(x, 0.0), Point::new(nudge(2.0 * y * b, rng.between(-4, 4)), y)]
    };
    let mut c = mesh(&vertices, &[[0, 1, 2]]);
    c.tags = vec![2, 0, 1];
    c
}

/// Triangles of any three vertices, with any neighbours.
pub fn heap(rng: &mut Rng) -> Content {
    let n = rng.between(1, 12) as usize;
    let t = rng.below(14) as usize;
    let few = rng.one_in(3);
    let vertices: Vec<Point> = (0..n)
        .map(|_| match few {
            true => Point::new(rng.between(-2, 2) as f64, rng.between(-2, 2) as f64),
            false => Point::new(4.0 * unit(rng), 4.0 * unit(rng)),
        })
        .collect();
    let triangles: Vec<[usize; 3]> = (0..t).map(|_| [(); 3].map(|_| rng.below(n as u64) as usize)).collect();
    let mut c = mesh(&vertices, &triangles);
    if rng.one_in(2) {
        c.neighbours.iter_mut().for_each(|k| *k = rng.between(-1, t as i64 - 1) as i32);
    }
    tag_any(rng, &mut c);
    c
}

/// None, one or two vertices and triangles.
pub fn few(rng: &mut Rng) -> Content {
    let n = rng.below(4) as usize;
    let t = if n == 0 { 0 } else { rng.below(3) as usize };
    let vertices: Vec<Point> = (0..n).map(|_| Point::new(rng.between(-2, 2) as f64, 2.0 * unit(rng))).collect();
    let triangles: Vec<[usize; 3]> = (0..t).map(|_| [(); 3].map(|_| rng.below(n as u64) as usize)).collect();
    let mut c = mesh(&vertices, &triangles);
    tag_any(rng, &mut c);
    c
}

/// The most vertices and the most triangles: 64 layers of 64, and triangles that stand there twice.
pub fn most(rng: &mut Rng) -> Content {
    let jitter = rng.pick(&[0.0, 0.4]);
    let mut c = ring_of(rng, 64, 63, jitter);
    while c.t() < MAX_TRIANGLES {
        duplicate(rng, &mut c);
    }
    assert!(c.n() == MAX_VERTICES);
    c
}

/// Unused vertices and triangles that stand there twice, until there are so many.
pub fn fill_up(rng: &mut Rng, c: &mut Content, vertices: usize, triangles: usize) {
    while c.n() < vertices {
        c.vertices.extend([unit(rng), unit(rng)]);
        c.tags.push(rng.pick(&[0, 1, 2]));
    }
    while c.t() < triangles {
        duplicate(rng, c);
    }
}

// ---- tags

fn tag_any(rng: &mut Rng, c: &mut Content) {
    let often = rng.pick(&[1, 2, 5]);
    for tag in &mut c.tags {
        *tag = if rng.one_in(often) { rng.below(3) as u8 } else { 0 };
    }
}

fn tag_all(rng: &mut Rng, c: &mut Content) {
    let one = rng.below(3) as u8;
    c.tags.fill(one);
}

// ---- what may be done to a mesh

fn duplicate(rng: &mut Rng, c: &mut Content) {
    if c.t() > 0 && c.t() < MAX_TRIANGLES {
        let t = 3 * rng.below(c.t() as u64) as usize;
        c.triangles.extend_from_within(t..t + 3);
        c.neighbours.extend_from_within(t..t + 3);
    }
}

/// A vertex moved onto another one, or to where a triangle becomes flat, or nearly.
fn flatten(rng: &mut Rng, c: &mut Content) {
    if c.t() == 0 {
        return;
    }
    let t = rng.below(c.t() as u64) as usize;
    let [i, ..] = c.corners(t);
    let [_, a, b] = c.triangle(t);
    let any = unit(rng);
    let s = rng.pick(&[0.0, 0.5, 2.0, any]);
    c.vertices[2 * i] = (a.x + s * (b.x - a.x)).clamp(-REACH, REACH);
    c.vertices[2 * i + 1] = (a.y + s * (b.y - a.y)).clamp(-REACH, REACH);
}

/// A triangle that names a vertex twice.
fn repeat_corner(rng: &mut Rng, c: &mut Content) {
    if c.t() > 0 {
        let t = 3 * rng.below(c.t() as u64) as usize;
        let (a, b) = (rng.below(3) as usize, rng.below(3) as usize);
        c.triangles[t + a] = c.triangles[t + b];
    }
}

/// A vertex in no triangle, first, last or between.
fn unused(rng: &mut Rng, c: &mut Content) {
    if c.n() == MAX_VERTICES {
        return;
    }
    let any = rng.below(c.n() as u64 + 1) as usize;
    let at = rng.pick(&[0, c.n(), any]);
    c.vertices.splice(2 * at..2 * at, [unit(rng), unit(rng)]);
    c.tags.insert(at, rng.pick(&[0, 0, 1, 2]));
    c.triangles.iter_mut().filter(|v| **v as usize >= at).for_each(|v| *v += 1);
}

/// Edges that no longer name each other: cut edges.
fn cut(rng: &mut Rng, c: &mut Content) {
    let often = rng.pick(&[2, 6, 20]);
    for k in 0..c.neighbours.len() {
        let next = c.neighbours[k];
        if next >= 0 && rng.one_in(often) {
            c.neighbours[k] = -1;
            for e in 0..3 {
                let back = &mut c.neighbours[3 * next as usize + e];
                if *back == (k / 3) as i32 {
                    *back = -1;
                }
            }
        }
    }
}

/// A neighbour that is none, another triangle or the triangle itself.
fn mislink(rng: &mut Rng, c: &mut Content) {
    if c.t() > 0 {
        let k = rng.below(c.neighbours.len() as u64) as usize;
        let any = rng.below(c.t() as u64) as i32;
        c.neighbours[k] = rng.pick(&[-1, (k / 3) as i32, any]);
    }
}

/// The vertices in another order.
fn renumber(rng: &mut Rng, c: &mut Content) {
    let n = c.n();
    let mut order: Vec<usize> = (0..n).collect();
    for i in (1..n).rev() {
        order.swap(i, rng.below(i as u64 + 1) as usize);
    }
    let old = c.clone();
    for (i, &to) in order.iter().enumerate() {
        c.vertices[2 * to..2 * to + 2].copy_from_slice(&old.vertices[2 * i..2 * i + 2]);
        c.tags[to] = old.tags[i];
    }
    c.triangles.iter_mut().for_each(|v| *v = order[*v as usize] as u32);
}

/// Triangles that start at another corner, or run the other way round.
fn turn(rng: &mut Rng, c: &mut Content) {
    let reverse = rng.one_in(2);
    for t in 0..c.t() {
        let k = rng.below(3) as usize;
        c.triangles[3 * t..3 * t + 3].rotate_left(k);
        c.neighbours[3 * t..3 * t + 3].rotate_left(k);
        if reverse {
            c.triangles.swap(3 * t, 3 * t + 1);
            c.neighbours.swap(3 * t + 1, 3 * t + 2);
        }
    }
}

/// All of it larger or smaller, and moved, as far as coordinates go. At 2^−50 the area of a triangle is near 1e-30.
fn scale(rng: &mut Rng, c: &mut Content) {
    let k = match rng.below(4) {
        0 => power(rng.between(-52, -47)),
        1 => power(rng.between(-60, 16)),
        _ => within_range(rng, 0.1, 20.0),
    };
    let by = if rng.one_in(2) { [k * unit(rng), k * unit(rng)] } else { [0.0, 0.0] };
    for (i, x) in c.vertices.iter_mut().enumerate() {
        *x = (*x * k + by[i % 2]).clamp(-REACH, REACH);
    }
}

const CHANGES: [fn(&mut Rng, &mut Content); 11] =
    [duplicate, flatten, repeat_corner, unused, cut, mislink, renumber, turn, scale, tag_any, tag_all];

/// Some changes, most often none or one.
pub fn changed(rng: &mut Rng, c: &mut Content) {
    while rng.one_in(2) {
        let change = rng.pick(&CHANGES);
        change(rng, c);
    }
}

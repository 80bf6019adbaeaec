//! The uninterrupted run of a sheet, place by place: written from document 01 (Stand-ins, Assembly, Passes and ends, Counter machine) apart from
//! the library and from the text of the original solver and tracer. The functions of the plane are the original's.

use crate::content::{Content, FACTOR};
use crate::originals::interp::barycentric_interpolate;
use crate::originals::intersect::get_ray_line_intersection;
use crate::originals::pde::private::point_in_triangle;
use crate::stand_ins::Point;
use std::sync::Arc;

pub const TINY: f64 = 1e-30;
pub const DULL: f64 = 1e-12;
pub const ABOVE: f64 = 0.99;
pub const SPACING: f64 = 0.2;

/// No entry edge.
const NONE: usize = 3;

/// A sheet's run.
pub struct Run<'a> {
    pub content: &'a Content,
    pub room: usize,
    /// the matrix: each row's entries by rising column
    pub rows: Vec<Vec<(usize, f64)>>,
    right: Vec<f64>,
}

/// What stands at a place.
#[derive(Clone)]
pub struct State {
    pub place: usize,
    pub x: Vec<f64>,
    r: Vec<f64>,
    p: Vec<f64>,
    rs: f64,
    pub norms: Vec<f64>,
    pub field_end: u32,
    pub gradients: Vec<Point>,
    pub points: Vec<Point>,
    pub path_end: u32,
    position: Point,
    triangle: usize,
    entry: usize,
    pub crossings: usize,
}

// ---- assembly

/// The differences b and c of a triangle, and twice its area with a sign; nothing where that is tiny.
fn element(v: [Point; 3]) -> Option<([f64; 3], [f64; 3], f64)> {
    let b = [0, 1, 2].map(|e| v[(e + 1) % 3].y - v[(e + 2) % 3].y);
    let c = [0, 1, 2].map(|e| v[(e + 2) % 3].x - v[(e + 1) % 3].x);
    let area2 = b[0] * c[1] - b[1] * c[0];
    if area2.abs() < TINY {
        return None;
    }
    Some((b, c, area2))
}

/// Adds to the entry at a column, on the right of what is there.
fn insert(row: &mut Vec<(usize, f64)>, j: usize, v: f64) {
    match row.binary_search_by_key(&j, |(k, _)| *k) {
        Ok(at) => row[at].1 += v,
        Err(at) => row.insert(at, (j, v)),
    }
}

fn dot(a: &[f64], b: &[f64]) -> f64 {
    let mut sum = 0.0;
    for (a, b) in a.iter().zip(b) {
        sum += a * b;
    }
    sum
}

impl<'a> Run<'a> {
    pub fn new(content: &'a Content) -> Run<'a> {
        let n = content.n();
        let room = content.settings.room.unwrap() as usize;
        let mut run = Run { content, room, rows: vec![Vec::new(); n], right: vec![0.0; n] };
        for t in 0..content.t() {
            run.push(t);
        }
        for i in 0..n {
            if let Some(value) = run.held(i) {
                run.rows[i] = vec![(i, 1.0)];
                run.right[i] = value;
            }
        }
        run
    }

    /// The value at which a vertex is held.
    fn held(&self, i: usize) -> Option<f64> {
        match self.content.tags[i] {
            1 => Some(1.0),
            2 => Some(0.0),
            _ => None,
        }
    }

    /// A triangle's share of the matrix, and of the right side: there a held and a free corner count once, where the lesser number comes first.
    fn push(&mut self, t: usize) {
        let corners = self.content.corners(t);
        let Some((b, c, area2)) = element(self.content.triangle(t)) else {
            return;
        };
        let inverse = 1.0 / area2.abs();
        for (a, &i) in corners.iter().enumerate() {
            for (e, &j) in corners.iter().enumerate() {
                let k = (b[a] * b[e] + c[a] * c[e]) * inverse * 0.5;
                match (self.held(i), self.held(j)) {
                    (None, None) => insert(&mut self.rows[i], j, k),
                    (Some(value), None) if i <= j => self.right[j] -= k * value,
                    (None, Some(value)) if i <= j => self.right[i] -= k * value,
                    _ => (),
                }
            }
        }
    }

    fn product(&self, v: &[f64]) -> Vec<f64> {
        let row = |row: &Vec<(usize, f64)>| {
            let mut sum = 0.0;
            for (j, k) in row {
                sum += k * v[*j];
            }
            sum
        };
        self.rows.iter().map(row).collect()
    }

    // ---- places

    pub fn start(&self) -> State {
        let x = vec![0.0; self.content.n()];
        let r: Vec<f64> = self.right.iter().zip(self.product(&x)).map(|(b, a)| b - a).collect();
        let rs = dot(&r, &r);
        State {
            place: 0,
            x,
            p: r.clone(),
            r,
            rs,
            norms: vec![rs.sqrt()],
            field_end: if self.content.settings.limit() == 0 { 3 } else { 0 },
            gradients: vec![Point::ZERO; self.content.t()],
            points: Vec::new(),
            path_end: 0,
            position: Point::ZERO,
            triangle: 0,
            entry: NONE,
            crossings: 0,
        }
    }

    /// One pass; at the last place there is none.
    pub fn pass(&self, s: &mut State) -> bool {
        if s.path_end != 0 {
            return false;
        }
        s.place += 1;
        if s.field_end == 0 {
            self.solve(s);
        } else if s.points.is_empty() {
            self.set_out(s);
        } else {
            self.cross(s);
        }
        true
    }

    /// The place where the field has ended.
    pub fn solved(&self) -> State {
        let mut s = self.start();
        while s.field_end == 0 {
            self.pass(&mut s);
        }
        s
    }

    /// The last place, from another one.
    pub fn from(&self, mut s: State) -> State {
        while self.pass(&mut s) {}
        s
    }

    fn solve(&self, s: &mut State) {
        let ap = self.product(&s.p);
        let p_ap = dot(&s.p, &ap);
        if p_ap.abs() < TINY {
            s.field_end = 2;
            return;
        }
        let alpha = s.rs / p_ap;
        for i in 0..ap.len() {
            s.x[i] = s.x[i] + alpha * s.p[i];
            s.r[i] = s.r[i] - alpha * ap[i];
        }
        let rs = dot(&s.r, &s.r);
        let norm = rs.sqrt();
        s.norms.push(norm);
        if norm < self.content.settings.tolerance() {
            s.field_end = 1;
            return;
        }
        let beta = rs / s.rs;
        for i in 0..ap.len() {
            s.p[i] = s.r[i] + beta * s.p[i];
        }
        s.rs = rs;
        if s.place == self.content.settings.limit() {
            s.field_end = 3;
        }
    }

    // ---- the start

    fn gradient(&self, t: usize, u: &[f64]) -> Point {
        let Some((b, c, area2)) = element(self.content.triangle(t)) else {
            return Point::ZERO;
        };
        let [i, j, k] = self.content.corners(t);
        let x = (b[0] * u[i] + b[1] * u[j] + b[2] * u[k]) / area2;
        let y = (c[0] * u[i] + c[1] * u[j] + c[2] * u[k]) / area2;
        Point::new(x, y)
    }

    fn set_out(&self, s: &mut State) {
        s.gradients = (0..self.content.t()).map(|t| self.gradient(t, &s.x)).collect();
        let (found, end) = match self.content.settings.start() {
            Some(p) => (self.given(p), 8),
            None => (self.inner_edge().or_else(|| self.least(&s.x)), 9),
        };
        let Some((p, triangle, entry)) = found else {
            s.path_end = end;
            return;
        };
        s.points.push(p);
        (s.position, s.triangle, s.entry) = (p, triangle, entry);
    }

    fn given(&self, p: Point) -> Option<(Point, usize, usize)> {
        let holds = |t: &usize| {
            let [a, b, c] = self.content.triangle(*t);
            point_in_triangle(p, a, b, c)
        };
        (0..self.content.t()).find(holds).map(|t| (p, t, NONE))
    }

    /// The middle of the first border edge between inner vertices.
    fn inner_edge(&self) -> Option<(Point, usize, usize)> {
        let c = self.content;
        let edge = (0..3 * c.t()).find(|k| {
            let corners = c.corners(k / 3);
            let ends = [corners[k % 3], corners[(k % 3 + 1) % 3]];
            c.neighbours[*k] == -1 && ends.iter().all(|i| c.tags[*i] == 2)
        })?;
        let v = c.triangle(edge / 3);
        let (a, b) = (v[edge % 3], v[(edge % 3 + 1) % 3]);
        Some((Point::new((a.x + b.x) * 0.5, (a.y + b.y) * 0.5), edge / 3, edge % 3))
    }

    /// The middle of the first triangle that has the first least vertex, number 0 if none is below +infinity.
    fn least(&self, u: &[f64]) -> Option<(Point, usize, usize)> {
        let mut least = (0, f64::INFINITY);
        for (i, &value) in u.iter().enumerate() {
            if value < least.1 {
                least = (i, value);
            }
        }
        let t = (0..self.content.t()).find(|t| self.content.corners(*t).contains(&least.0))?;
        let [a, b, c] = self.content.triangle(t);
        Some((Point::new((a.x + b.x + c.x) / 3.0, (a.y + b.y + c.y) / 3.0), t, NONE))
    }

    // ---- crossings

    fn cross(&self, s: &mut State) {
        s.crossings += 1;
        let g = s.gradients[s.triangle];
        let magnitude = (g.x * g.x + g.y * g.y).sqrt();
        if magnitude < DULL {
            s.path_end = 1;
            return;
        }
        let n = Point::new(g.x / magnitude, g.y / magnitude);
        let alpha = self.content.settings.step.unwrap() * magnitude / (2.0 * std::f64::consts::PI);
        let direction = Point::new(-n.y + alpha * n.x, n.x + alpha * n.y);
        let Some((edge, q)) = self.exit(s, direction) else {
            s.path_end = 2;
            return;
        };
        let onward = self.beyond(s, edge, q);
        let pieces = pieces(s.position, q);
        let added = pieces.saturating_sub(1).saturating_add((onward == Err(5)) as usize);
        if added > self.room - s.points.len() {
            s.path_end = 7;
            return;
        }
        let p = s.position;
        for i in 1..pieces {
            let t = i as f64 / pieces as f64;
            s.points.push(Point::new(p.x + t * (q.x - p.x), p.y + t * (q.y - p.y)));
        }
        s.position = q;
        match onward {
            Ok((triangle, entry)) => (s.triangle, s.entry) = (triangle, entry),
            Err(end) => s.path_end = end,
        }
        if onward == Err(5) {
            s.points.push(q);
        }
        if s.path_end == 0 && s.crossings == FACTOR * self.content.t() {
            s.path_end = 6;
        }
    }

    fn exit(&self, s: &State, direction: Point) -> Option<(usize, Point)> {
        let v = self.content.triangle(s.triangle);
        let mut best = None;
        let mut least = f64::INFINITY;
        for e in (0..3).filter(|e| *e != s.entry) {
            if let Some(q) = get_ray_line_intersection(s.position, direction, v[e], v[(e + 1) % 3]) {
                let t = distance(s.position, q);
                if t > 1e-12 && t < least {
                    least = t;
                    best = Some((e, q));
                }
            }
        }
        best
    }

    /// The next triangle and its entry edge, or end 3, 4 or 5.
    fn beyond(&self, s: &State, edge: usize, q: Point) -> Result<(usize, usize), u32> {
        let c = self.content;
        let next = c.neighbours[3 * s.triangle + edge];
        let (t, entry) = if next < 0 {
            self.cut_edge(s.triangle, edge).ok_or(3u32)?
        } else {
            let t = next as usize;
            let back = (0..3).find(|e| c.neighbours[3 * t + e] == s.triangle as i32);
            (t, back.ok_or(4u32)?)
        };
        let [v0, v1, v2] = c.triangle(t);
        let [u0, u1, u2] = c.corners(t).map(|i| s.x[i]);
        if barycentric_interpolate(q, v0, v1, v2, u0, u1, u2) > ABOVE {
            return Err(5);
        }
        Ok((t, entry))
    }

    /// The first other triangle and edge with neighbour −1 and the corners reversed.
    fn cut_edge(&self, t: usize, edge: usize) -> Option<(usize, usize)> {
        let c = self.content;
        let ends = |k: usize| [c.corners(k / 3)[k % 3], c.corners(k / 3)[(k % 3 + 1) % 3]];
        let [a, b] = ends(3 * t + edge);
        let found = (0..3 * c.t()).find(|k| k / 3 != t && c.neighbours[*k] == -1 && ends(*k) == [b, a]);
        found.map(|k| (k / 3, k % 3))
    }
}

fn distance(p: Point, q: Point) -> f64 {
    let (dx, dy) = (q.x - p.x, q.y - p.y);
    (dx * dx + dy * dy).sqrt()
}

/// How many pieces a stretch has.
pub fn pieces(p: Point, q: Point) -> usize {
    (distance(p, q) / SPACING).ceil() as usize
}

/// The length of a path.
pub fn length(points: &[Point]) -> f64 {
    let mut sum = 0.0;
    for two in points.windows(2) {
        sum += distance(two[0], two[1]);
    }
    sum
}

// ---- what document 01 compares

/// What a place shows.
pub struct Shown<'a> {
    pub place: usize,
    pub x: &'a [f64],
    pub norms: &'a [f64],
    pub field_end: u32,
    pub gradients: &'a [Point],
    pub points: &'a [Point],
    pub path_end: u32,
}

impl State {
    pub fn shown(&self) -> Shown<'_> {
        Shown {
            place: self.place,
            x: &self.x,
            norms: &self.norms,
            field_end: self.field_end,
            gradients: &self.gradients,
            points: &self.points,
            path_end: self.path_end,
        }
    }
}

/// Every place of a run. Norms and points are only ever added, so a place has the first of those at the last place.
pub struct Trace {
    places: Vec<Place>,
    last: State,
    /// the gradients before they are filled
    unfilled: Vec<Point>,
}

struct Place {
    x: Arc<Vec<f64>>,
    norms: usize,
    field_end: u32,
    points: usize,
    path_end: u32,
}

impl Trace {
    pub fn new(run: &Run) -> Trace {
        let mut s = run.start();
        let unfilled = s.gradients.clone();
        let mut x = Arc::new(s.x.clone());
        let mut places = Vec::new();
        loop {
            if s.field_end == 0 || s.points.is_empty() {
                x = Arc::new(s.x.clone());
            }
            places.push(Place { x: x.clone(), norms: s.norms.len(), field_end: s.field_end, points: s.points.len(), path_end: s.path_end });
            if !run.pass(&mut s) {
                return Trace { places, last: s, unfilled };
            }
        }
    }

    /// The number of the last place.
    pub fn last(&self) -> usize {
        self.places.len() - 1
    }

    pub fn at(&self, place: usize) -> Shown<'_> {
        let at = &self.places[place];
        let filled = at.points > 0 || at.path_end != 0;
        Shown {
            place,
            x: &at.x,
            norms: &self.last.norms[..at.norms],
            field_end: at.field_end,
            gradients: if filled { &self.last.gradients } else { &self.unfilled },
            points: &self.last.points[..at.points],
            path_end: at.path_end,
        }
    }
}

//! Gradients and paths, against the original ones: of fields from the solver, and of any fields.

use crate::cases::{kind, same, same_floats, Cases, Tally, Verdict};
use crate::content::{Content, Settings, REACH};
use crate::fields::{finite, solving, FINITE};
use crate::floats::{any, nudge, power, scaled, special, unit, within_range};
use crate::meshes::{changed, cut_ring, fan, few, grid, heap, lattice, most, needles, ring, strip, Make};
#[cfg(run)]
use crate::opened::Opened;
use crate::originals;
use crate::originals::gradient::compute_gradient_field;
use crate::originals::pde::trace_spiral;
#[cfg(run)]
use crate::machine::Call;
use crate::rng::Rng;
use crate::stand_ins::Point;
use crate::trial::Sort;
use crate::uninterrupted::{Run, State};

/// The original has no room and may put down millions of points in one crossing. It is asked only where the path has no more than these.
const MOST_POINTS: usize = 100_000;

pub fn paths() -> Cases {
    Cases {
        name: "path",
        kinds: vec![
            kind("rings", 500, |rng, _, tally| each(rng, tally, 20, ring)),
            kind("rings with cut edges, and triangles twice", 100, |rng, _, tally| each(rng, tally, 20, cut_ring)),
            kind("grids", 300, |rng, _, tally| each(rng, tally, 20, grid)),
            kind("fans", 300, |rng, _, tally| each(rng, tally, 20, fan)),
            kind("strips", 100, |rng, _, tally| each(rng, tally, 20, strip)),
            kind("needles", 100, |rng, _, tally| each(rng, tally, 20, needles)),
            kind("heaps of triangles", 300, |rng, _, tally| each(rng, tally, 20, heap)),
            kind("of few vertices and triangles", 100, |rng, _, tally| each(rng, tally, 20, few)),
            kind("rings with any field", 500, |rng, _, tally| each_with_field(rng, tally, 20, ring)),
            kind("grids with any field", 300, |rng, _, tally| each_with_field(rng, tally, 20, grid)),
            kind("fans with any field", 300, |rng, _, tally| each_with_field(rng, tally, 20, fan)),
            kind("heaps with any field", 300, |rng, _, tally| each_with_field(rng, tally, 20, heap)),
            kind("on a lattice, where rays meet corners and thresholds", 500, |rng, _, tally| each_on_lattice(rng, tally, 20)),
            kind("that leave their triangle after about 1e-12", 100, |rng, _, tally| each_leaving(rng, tally, 20)),
            kind("of the most vertices and triangles", 4, |rng, _, tally| each(rng, tally, 1, most)),
        ],
        sorts: SORTS,
    }
}

const SORTS: &[Sort] = &[
    Sort { what: "path end", classes: &["0", "1", "2", "3", "4", "5", "6", "7", "8", "9"] },
    Sort { what: "start", classes: &["none", "any", "in a triangle", "on an edge", "on a vertex"] },
    Sort { what: "crossings", classes: &["0", "1", "2 to 9", "10 to 99", "100 or more"] },
    Sort { what: "field", classes: FINITE },
    Sort { what: "the original", classes: &["asked", "not asked, the path being too long"] },
];

fn each(rng: &mut Rng, tally: &mut Tally, count: usize, make: Make) {
    for _ in 0..count {
        let mut content = make(rng);
        changed(rng, &mut content);
        let with = solving(rng);
        let (settings, class) = tracing(rng, &content, with);
        content.settings = settings;
        tally.counts.note(1, class);
        let run = Run::new(&content);
        let solved = run.solved();
        judge(rng, &run, solved, None, tally);
    }
}

/// A limit of 0 ends the field at place 0, where another one is put in its place.
fn each_with_field(rng: &mut Rng, tally: &mut Tally, count: usize, make: Make) {
    for _ in 0..count {
        let mut content = make(rng);
        changed(rng, &mut content);
        let limit = Settings { limit: Some(0), ..Settings::default() };
        let (settings, class) = tracing(rng, &content, limit);
        content.settings = settings;
        tally.counts.note(1, class);
        let field = any_field(rng, &content);
        judge_with(rng, &content, field, tally);
    }
}

/// A square lattice under a level slope along it or across, so that rays run along edges and through corners, end just before or behind them,
/// and have a length of about so many pieces.
fn each_on_lattice(rng: &mut Rng, tally: &mut Tally, count: usize) {
    for _ in 0..count {
        let mut content = lattice(rng);
        if rng.one_in(4) {
            changed(rng, &mut content);
        }
        let size = rng.pick(&[1.0, 4.0, 8.0]);
        content.vertices.iter_mut().for_each(|x| *x = (*x * size).clamp(-REACH, REACH));
        let (x, y) = (Some(on_lattice(rng, size)), Some(on_lattice(rng, size)));
        let step = Some(rng.pick(&[power(-1000), power(-1000), power(-40), 1.0]));
        content.settings = Settings { limit: Some(0), step, x, y, room: Some(1 + rng.below(100)), ..Settings::default() };
        tally.counts.note(1, 1);
        let [gx, gy] = rng.pick(&[[1.0, 0.0], [0.0, 1.0], [-1.0, 0.0], [0.0, -1.0], [1.0, 1.0], [1.0, -1.0], [2.0, 1.0]]);
        let steep = rng.pick(&[0.125, 0.0625, 1e-12]);
        let field = (0..content.n()).map(|i| steep * gx * content.vertex(i).x + steep * gy * content.vertex(i).y).collect();
        judge_with(rng, &content, field, tally);
    }
}

/// One triangle with an edge on x = 0, and a start close before it under any slope that leads there.
fn each_leaving(rng: &mut Rng, tally: &mut Tally, count: usize) {
    for _ in 0..count {
        let (gx, gy) = (unit(rng), -within_range(rng, 0.1, 1.0));
        let ahead = -gy / (gx * gx + gy * gy).sqrt();
        let x = Some(nudge(-1e-12 * ahead, rng.between(-3, 3)));
        let content = Content {
            vertices: vec![0.0, -1.0, 0.0, 1.0, -2.0, 0.0],
            triangles: vec![0, 1, 2],
            neighbours: vec![-1; 3],
            tags: vec![0; 3],
            settings: Settings { limit: Some(0), step: Some(power(-1000)), x, y: Some(0.0), room: Some(9), ..Settings::default() },
        };
        tally.counts.note(1, 1);
        let field = (0..3).map(|i| gx * content.vertex(i).x + gy * content.vertex(i).y).collect();
        judge_with(rng, &content, field, tally);
    }
}

/// A quarter, or near a line of the lattice, or so many pieces from it.
fn on_lattice(rng: &mut Rng, size: f64) -> f64 {
    let line = size * rng.between(0, 4) as f64;
    let off = match rng.below(3) {
        0 => 0.25 * size,
        1 => rng.pick(&[0.0, 1e-12, -1e-12]),
        _ => 0.2 * rng.between(-20, 20) as f64,
    };
    line + nudge(off, rng.pick(&[-1, 0, 0, 1]))
}

// ---- inputs

/// A step, a start and a room as well, and how the start was come by.
pub fn tracing(rng: &mut Rng, content: &Content, with: Settings) -> (Settings, usize) {
    let step = match rng.below(8) {
        0 => scaled(rng, -996, 996).abs(),
        1 => scaled(rng, -60, 20).abs(),
        2 => rng.pick(&[1e-300, 1e300, power(-1000)]),
        _ => within_range(rng, 0.01, 3.0),
    };
    let room = match rng.below(8) {
        0 => 1 + rng.below(10),
        1 => 1 + rng.below(100),
        _ => 1 + rng.below(5000),
    };
    let (class, start) = start(rng, content);
    let at = |x: f64| x.clamp(-REACH, REACH);
    (Settings { step: Some(step), room: Some(room), x: start.map(|p| at(p.x)), y: start.map(|p| at(p.y)), ..with }, class)
}

/// A start, and how it was come by.
fn start(rng: &mut Rng, content: &Content) -> (usize, Option<Point>) {
    if rng.one_in(2) {
        return (0, None);
    }
    if content.t() == 0 || rng.one_in(8) {
        let size = rng.pick(&[1.0, 10.0, REACH]);
        return (1, Some(Point::new(size * unit(rng), size * unit(rng))));
    }
    let [a, b, c] = content.triangle(rng.below(content.t() as u64) as usize);
    let between = |a: Point, b: Point, s: f64| Point::new(a.x + s * (b.x - a.x), a.y + s * (b.y - a.y));
    let (s, t) = (within_range(rng, 0.0, 1.0), within_range(rng, 0.0, 1.0));
    match rng.below(4) {
        0 => (3, Some(between(a, b, rng.pick(&[0.5, 0.25, s])))),
        1 => (4, Some(rng.pick(&[a, b, c]))),
        _ => (2, Some(between(a, between(b, c, s), t))),
    }
}

/// A smooth field, a random one, a level one, or one with special values or thresholds.
fn any_field(rng: &mut Rng, content: &Content) -> Vec<f64> {
    let all = 0..content.n();
    let (a, b) = (unit(rng), unit(rng));
    match rng.below(7) {
        0 => all.map(|i| a * content.vertex(i).x + b * content.vertex(i).y).collect(),
        1 => all.map(|i| 0.05 * content.vertex(i).length_squared()).collect(),
        2 => all.map(|_| 0.5 + 0.5 * unit(rng)).collect(),
        3 => all.map(|_| if rng.one_in(3) { special(rng) } else { unit(rng) }).collect(),
        4 => {
            let (low, high) = rng.pick(&[(-80, 80), (-1022, 1023), (-45, -35)]);
            all.map(|_| if rng.one_in(20) { any(rng) } else { scaled(rng, low, high) }).collect()
        }
        5 => all.map(|_| nudge(rng.pick(&[0.0, 1e-12, 0.99, 0.99, 1.0]), rng.pick(&[-1, 0, 0, 0, 1]))).collect(),
        _ => all.map(|_| if rng.one_in(10) { b } else { a }).collect(),
    }
}

// ---- the comparison

/// A field in place of the solver's, which has no pass.
fn judge_with(rng: &mut Rng, content: &Content, field: Vec<f64>, tally: &mut Tally) {
    let run = Run::new(content);
    let mut solved = run.solved();
    solved.x.clone_from(&field);
    judge(rng, &run, solved, Some(&field), tally);
}

/// The last place of a run that has the same field, and room for every point.
pub fn with_room_enough(content: &Content, solved: State) -> State {
    let mut run = Run::new(content);
    run.room = MOST_POINTS;
    run.from(solved)
}

fn judge(rng: &mut Rng, run: &Run, solved: State, field: Option<&[f64]>, tally: &mut Tally) {
    tally.counts.note(3, finite(&solved.x));
    let last = run.from(solved.clone());
    tally.counts.note(0, last.path_end as usize);
    tally.counts.note(2, [1, 2, 10, 100].iter().filter(|k| last.crossings >= **k).count());
    let free = with_room_enough(run.content, solved);
    tally.counts.note(4, (free.path_end == 7) as usize);
    tally.note(as_original(run, &last, &free).and_then(|()| as_library(rng, run, field, &last)));
}

/// The run and the library, open, advanced to the last place. Another field than the solver's is no sheet's: it is put into the work at place 0, where the
/// contract of an advance, which holds for every work, says that the passes go on from it.
#[cfg(run)]
pub fn as_library(rng: &mut Rng, run: &Run, field: Option<&[f64]>, last: &State) -> Verdict {
    let mut opened = Opened::new(rng, run.content)?;
    opened.has_matrix(run)?;
    if let Some(x) = field {
        let at = opened.layout.field;
        opened.buffers.floats[at..at + x.len()].copy_from_slice(x);
    }
    same("refusal", 0, opened.call(Call::Advance(u32::MAX)))?;
    opened.shows(run, last.shown())?;
    opened.has_length(last.shown(), opened.lengths())
}

#[cfg(not(run))]
pub fn as_library(_: &mut Rng, _: &Run, _: Option<&[f64]>, _: &State) -> Verdict {
    Ok(())
}

/// The run, the same with room enough, and the original.
pub fn as_original(run: &Run, last: &State, free: &State) -> Verdict {
    let mesh = originals::mesh(run.content);
    let gradients = compute_gradient_field(&mesh, &last.x)?;
    same_points("gradients", &last.gradients, &gradients)?;
    if free.path_end == 7 {
        return Ok(());
    }
    let settings = &run.content.settings;
    let traced = trace_spiral(&mesh, &last.x, settings.step.unwrap(), settings.start());
    same("whether there is a path", free.path_end < 8, traced.is_ok())?;
    let Ok(path) = traced else {
        return same("points without a start", 0, last.points.len());
    };
    let flat: Vec<Point> = path.iter().map(|p| Point::new(p.x, p.y)).collect();
    same("points with a z", 0, path.iter().filter(|p| p.z.to_bits() != 0).count())?;
    same_points("points", &free.points, &flat)?;
    same("whether the room is short", last.path_end == 7, flat.len() > run.room)?;
    same_points("points within the room", &last.points, &flat[..last.points.len()])
}

fn same_points(what: &str, ours: &[Point], theirs: &[Point]) -> Verdict {
    let numbers = |list: &[Point]| -> Vec<f64> { list.iter().flat_map(|p| [p.x, p.y]).collect() };
    same_floats(what, &numbers(ours), &numbers(theirs))
}

//! The field: matrix, field values and norms, against the original solver.

use crate::cases::{kind, same, same_floats, same_lists, Cases, Tally, Verdict};
use crate::content::{Content, Settings};
use crate::floats::{scaled, unit};
use crate::meshes::{changed, fan, few, grid, heap, most, near_tiny, needles, ring, strip, Make};
#[cfg(run)]
use crate::opened::Opened;
use crate::originals;
use crate::originals::laplace::{solve_laplace, solve_laplace_with_history};
#[cfg(run)]
use crate::machine::Call;
use crate::rng::Rng;
use crate::stand_ins::last_matrix;
use crate::trial::Sort;
use crate::uninterrupted::{Run, State};

pub fn fields() -> Cases {
    Cases {
        name: "field",
        kinds: vec![
            kind("rings", 200, |rng, _, tally| each(rng, tally, 20, ring)),
            kind("grids", 200, |rng, _, tally| each(rng, tally, 20, grid)),
            kind("fans", 200, |rng, _, tally| each(rng, tally, 20, fan)),
            kind("strips", 200, |rng, _, tally| each(rng, tally, 20, strip)),
            kind("needles", 1000, |rng, _, tally| {
                for _ in 0..50 {
                    let mut content = needles(rng);
                    content.settings = lasting(rng);
                    judge(rng, &content, tally);
                }
            }),
            kind("of numbers near 1e-30", 100, |rng, _, tally| {
                for _ in 0..50 {
                    let mut content = near_tiny(rng);
                    content.settings = lasting(rng);
                    judge(rng, &content, tally);
                }
            }),
            kind("heaps of triangles", 200, |rng, _, tally| each(rng, tally, 20, heap)),
            kind("of few vertices and triangles", 100, |rng, _, tally| each(rng, tally, 20, few)),
            kind("of the most vertices and triangles", 8, |rng, _, tally| each(rng, tally, 1, most)),
        ],
        sorts: SORTS,
    }
}

/// Of what kind the numbers of a list are.
pub const FINITE: &[&str] = &["finite", "with an infinity", "with a NaN", "with both"];

pub fn finite(list: &[f64]) -> usize {
    let with = |test: fn(f64) -> bool| list.iter().any(|x| test(*x)) as usize;
    with(f64::is_infinite) + 2 * with(f64::is_nan)
}

const SORTS: &[Sort] = &[
    Sort { what: "field end", classes: &["0", "1", "2", "3"] },
    Sort { what: "field", classes: FINITE },
    Sort { what: "norms", classes: FINITE },
    Sort { what: "passes", classes: &["0", "1", "2 to 9", "10 to 99", "100 to 999", "more"] },
];

fn each(rng: &mut Rng, tally: &mut Tally, count: usize, make: Make) {
    for _ in 0..count {
        let mut content = make(rng);
        changed(rng, &mut content);
        content.settings = Settings { step: Some(1.0), room: Some(1), ..solving(rng) };
        judge(rng, &content, tally);
    }
}

/// A limit and a tolerance.
pub fn solving(rng: &mut Rng) -> Settings {
    let limit = match rng.below(6) {
        0 => Some(rng.below(3)),
        1 => Some(rng.below(20)),
        2 => Some(rng.below(200)),
        _ => None,
    };
    let tolerance = match rng.below(6) {
        0 => Some(rng.pick(&[0.0, -0.0, -1.0, 1e300, f64::MAX, f64::MIN, f64::from_bits(1)])),
        1 => Some(scaled(rng, -80, 20).abs()),
        2 => Some(1e-3 * unit(rng)),
        _ => None,
    };
    Settings { limit, tolerance, ..Settings::default() }
}

/// A tolerance that no norm is below, and any limit: a field that grows is seen on its way.
fn lasting(rng: &mut Rng) -> Settings {
    let limit = if rng.one_in(3) { 1000 } else { rng.below(100) };
    Settings { limit: Some(limit), tolerance: Some(rng.pick(&[0.0, -1.0])), step: Some(1.0), room: Some(1), ..Settings::default() }
}

fn judge(rng: &mut Rng, content: &Content, tally: &mut Tally) {
    let run = Run::new(content);
    let s = run.solved();
    tally.counts.note(0, s.field_end as usize);
    tally.counts.note(1, finite(&s.x));
    tally.counts.note(2, finite(&s.norms));
    tally.counts.note(3, [1, 2, 10, 100, 1000].iter().filter(|k| s.place >= **k).count());
    tally.note(as_original(content, &run, &s).and_then(|()| as_library(rng, &run, &s)));
}

/// The run and the library.
#[cfg(run)]
fn as_library(rng: &mut Rng, run: &Run, s: &State) -> Verdict {
    let mut opened = Opened::new(rng, run.content)?;
    opened.has_matrix(run)?;
    same("refusal", 0, opened.call(Call::Advance(s.place as u32)))?;
    opened.shows(run, s.shown())
}

#[cfg(not(run))]
fn as_library(_: &mut Rng, _: &Run, _: &State) -> Verdict {
    Ok(())
}

/// The uninterrupted run and both solvers of the original.
pub fn as_original(content: &Content, run: &Run, s: &State) -> Verdict {
    let mesh = originals::mesh(content);
    let limit = content.settings.limit.map(|k| k as usize);
    let (x, norms) = solve_laplace_with_history(&mesh, limit, content.settings.tolerance)?;
    same_floats("norms", &s.norms, &norms)?;
    same_floats("field", &s.x, &x)?;
    let matrix = last_matrix();
    for (i, row) in run.rows.iter().enumerate() {
        let (from, to) = (matrix.offsets[i], matrix.offsets[i + 1]);
        let (columns, values): (Vec<usize>, Vec<f64>) = row.iter().copied().unzip();
        same_lists("columns", &columns, &matrix.columns[from..to])?;
        same_floats("values", &values, &matrix.values[from..to])?;
    }
    same("rows", run.rows.len() + 1, matrix.offsets.len())?;
    same_floats("field without history", &s.x, &solve_laplace(&mesh, limit, content.settings.tolerance)?)
}

//! Times whole runs on rings, of the library and of the Rust: the original solver and tracer, and the reader that is written here from document 01.

use crate::content::{Content, Settings};
use crate::machine::{needs, Call};
use crate::meshes::ring_of;
use crate::originals;
use crate::originals::gradient::compute_gradient_field;
use crate::originals::laplace::solve_laplace_with_history;
use crate::originals::pde::trace_spiral;
use crate::rattle_run as rattle;
use crate::rattle_run::{Buffers, Record};
use crate::reader::read;
use crate::rng::Rng;
use crate::uninterrupted::Run;
use crate::writer::bytes;
use std::hint::black_box;
use std::time::Instant;

/// How often each side is timed in a sweep; the least time counts.
const ROUNDS: usize = 25;

/// How often all that is timed of a ring is gone through, so that what disturbs the machine for a second does not stay in a figure.
const SWEEPS: usize = 8;

/// How many passes are timed together.
const PASSES: u32 = 200;

pub fn all(seed: u64) {
    println!("microseconds on rings, library and Rust");
    let rings = [(25, 19), (50, 39), (64, 62)].map(|(around, layers)| {
        let ring = Ring::new(seed, around, layers);
        (ring.content.n(), ring.show(&ring.least_times()))
    });
    growth(&rings);
}

/// What was timed, the library and the Rust.
type Timed = (&'static str, f64, f64);

/// How each time grows: times the first ring's, beside how n does.
fn growth(rings: &[(usize, Vec<Timed>)]) {
    let times = |of: &dyn Fn(usize) -> f64| (1..rings.len()).map(|i| format!("{:.1}", of(i) / of(0))).collect::<Vec<_>>().join(", ");
    println!("  growth against the first ring: n {}", times(&|i| rings[i].0 as f64));
    for (k, (what, ..)) in rings[0].1.iter().enumerate() {
        println!("    {what}: library {}; Rust {}", times(&|i| rings[i].1[k].1), times(&|i| rings[i].1[k].2));
    }
}

/// The least time of some rounds, in microseconds. `before` is not timed.
fn least<T>(mut before: impl FnMut() -> T, mut timed: impl FnMut(&mut T)) -> f64 {
    let round = |_| {
        let mut with = before();
        let start = Instant::now();
        timed(&mut with);
        black_box(with);
        start.elapsed().as_nanos() as f64 / 1e3
    };
    (0..ROUNDS).map(round).fold(f64::INFINITY, f64::min)
}

fn show(all: &mut Vec<Timed>, what: &'static str, library: f64, rust: f64) {
    println!("    {what}: library {library:.3}, Rust {rust:.3}, ratio {:.2}", library / rust);
    all.push((what, library, rust));
}

/// A run of the library on buffers of just the needed space.
struct Opened {
    record: Record,
    buffers: Buffers,
}

impl Opened {
    fn new(content: &Content, sheet: &[u8]) -> Opened {
        let mut buffers = lent(content);
        let record = open(sheet, &mut buffers);
        Opened { record, buffers }
    }

    fn call(&mut self, call: Call) {
        assert!(rattle::call(&mut self.record, call, &mut self.buffers, [usize::MAX; 3]) == 0);
    }

    /// After some calls.
    fn after(content: &Content, sheet: &[u8], calls: &[Call]) -> Opened {
        let mut opened = Opened::new(content, sheet);
        calls.iter().for_each(|call| opened.call(*call));
        opened
    }
}

fn lent(content: &Content) -> Buffers {
    let [floats, words, path] = needs(content);
    Buffers { floats: vec![1.0; floats], words: vec![1; words], path: vec![1.0; path] }
}

fn open(sheet: &[u8], buffers: &mut Buffers) -> Record {
    rattle::open(sheet, buffers, [usize::MAX; 3]).expect("the sheet of a ring opens")
}

/// A ring, and what the times need of its run.
struct Ring {
    content: Content,
    sheet: Vec<u8>,
    mesh: originals::types::TriangleMesh,
    x: Vec<f64>,
    start: u32,
    crossings: usize,
    points: usize,
}

impl Ring {
    fn new(seed: u64, around: usize, layers: usize) -> Ring {
        let mut rng = Rng::new(seed, "timing", around as u64);
        let mut content = ring_of(&mut rng, around, layers, 0.3);
        content.settings = Settings { step: Some(0.05), room: Some(10_000), ..Settings::default() };
        let run = Run::new(&content);
        let solved = run.solved();
        let (x, start) = (solved.x.clone(), solved.place as u32 + 1);
        let last = run.from(solved);
        let (sheet, mesh) = (bytes(&content), originals::mesh(&content));
        Ring { sheet, mesh, x, start, crossings: last.crossings, points: last.points.len(), content }
    }

    /// The calls before each timed way back, and that way.
    fn ways(&self) -> [(Vec<Call>, Call); 3] {
        let to_the_end = Call::Advance(u32::MAX);
        [
            (vec![to_the_end], Call::Back(1)),
            (vec![Call::Advance(self.start / 2), Call::Mark, to_the_end], Call::Return),
            (vec![Call::Advance(self.start), Call::Mark, to_the_end], Call::Return),
        ]
    }

    /// The Rust's reading, assembly, solving, 200 passes with assembly, gradients and tracing.
    fn rust(&self) -> Vec<f64> {
        let (mesh, settings) = (&self.mesh, self.content.settings);
        let solve = |limit: usize, tolerance: f64| {
            least(|| (), |_| drop(black_box(solve_laplace_with_history(mesh, Some(limit), Some(tolerance)))))
        };
        vec![
            least(|| (), |_| drop(black_box(read(&self.sheet).map(|c| originals::mesh(&c))))),
            solve(0, -1.0),
            solve(settings.limit(), settings.tolerance()),
            solve(PASSES as usize, -1.0),
            least(|| (), |_| drop(black_box(compute_gradient_field(mesh, &self.x)))),
            least(|| (), |_| drop(black_box(trace_spiral(mesh, &self.x, settings.step.unwrap(), settings.start())))),
        ]
    }

    /// The library's opening, 200 passes, crossings and whole run, then each way back.
    fn library(&self) -> Vec<f64> {
        let (content, sheet) = (&self.content, &self.sheet);
        let mut lasting = content.clone();
        lasting.settings.tolerance = Some(-1.0);
        let lasting_sheet = bytes(&lasting);
        let whole = |b: &mut Buffers| {
            let mut record = open(sheet, b);
            assert!(rattle::call(&mut record, Call::Advance(u32::MAX), b, [usize::MAX; 3]) == 0);
        };
        let mut times = vec![
            least(|| lent(content), |b| drop(black_box(open(sheet, b)))),
            least(|| Opened::new(&lasting, &lasting_sheet), |o| o.call(Call::Advance(PASSES))),
            least(|| Opened::after(content, sheet, &[Call::Advance(self.start)]), |o| o.call(Call::Advance(u32::MAX))),
            least(|| lent(content), whole),
        ];
        times.extend(self.ways().map(|(calls, call)| least(|| Opened::after(content, sheet, &calls), |o| o.call(call))));
        times
    }

    /// All of these, the least of the sweeps.
    fn least_times(&self) -> Vec<f64> {
        let sweep = |_| [self.rust(), self.library()].concat();
        let lesser = |a: Vec<f64>, b: Vec<f64>| a.iter().zip(&b).map(|(a, b)| a.min(*b)).collect();
        (0..SWEEPS).map(sweep).reduce(lesser).unwrap()
    }

    fn show(&self, times: &[f64]) -> Vec<Timed> {
        let &[reading, assembly, solving, passes, gradients, tracing, opening, own_passes, own_crossings, own_whole, back, half, start] =
            times
        else {
            panic!("thirteen times")
        };
        let (n, t, solves) = (self.content.n(), self.content.t(), self.start - 1);
        println!("  n {n}, T {t}, {solves} passes of solving, {} crossings, {} points", self.crossings, self.points);
        let mut all = Vec::new();
        show(&mut all, "opening, against reading and assembly", opening, reading + assembly);
        show(&mut all, "opening, reading included, against assembly alone", opening, assembly);
        let each = PASSES as f64;
        show(&mut all, "a pass of solving", own_passes / each, (passes - assembly) / each);
        let each = self.crossings as f64;
        show(&mut all, "a crossing", own_crossings / each, (tracing - gradients) / each);
        let whole = reading + solving + tracing;
        show(&mut all, "a whole run", own_whole, whole);
        println!(
            "    back 1 from the last place, against the library's own crossings: {back:.3}, {own_crossings:.3}, ratio {:.2}",
            back / own_crossings
        );
        println!("    against the Rust's crossings, and then against a whole run of it, which has no other way back:");
        show(&mut all, "back 1 from the last place, against the crossings", back, tracing - gradients);
        show(&mut all, "back 1 from the last place", back, whole);
        show(&mut all, "return to a mark half way through solving", half, whole);
        show(&mut all, "return to a mark at the start pass", start, whole);
        all
    }
}

//! Whole runs of sheets of every size, of the library and of the original: the limit as the sheet means it, the path by the rule of room.

use crate::cases::{kind, Cases, Tally};
use crate::content::{Content, MAX_TRIANGLES, MAX_VERTICES};
use crate::fields::{self, solving};
use crate::floats::within_range;
use crate::meshes::{changed, ring_of};
use crate::paths::{self, tracing};
use crate::rng::Rng;
use crate::trial::Sort;
use crate::uninterrupted::Run;

pub fn whole() -> Cases {
    Cases {
        name: "whole runs",
        kinds: vec![
            kind("on sheets of at most 64 vertices", 100, |rng, _, tally| each(rng, tally, 20, 64)),
            kind("on sheets of at most 512 vertices", 50, |rng, _, tally| each(rng, tally, 10, 512)),
            kind("on sheets of at most 4,096 vertices", 50, |rng, _, tally| each(rng, tally, 1, MAX_VERTICES)),
        ],
        sorts: &[
            Sort { what: "vertices", classes: &["to 16", "to 64", "to 256", "to 1,024", "to 4,095", "4,096"] },
            Sort { what: "triangles", classes: &["to 16", "to 64", "to 256", "to 1,024", "to 4,096", "to 8,191", "8,192"] },
            Sort { what: "field end", classes: &["0", "1", "2", "3"] },
            Sort { what: "path end", classes: &["0", "1", "2", "3", "4", "5", "6", "7", "8", "9"] },
            Sort { what: "the original's path", classes: &["compared", "left out, being too long"] },
        ],
    }
}

/// Rings of up to so many vertices, as long and as thin as they come, with further vertices and triangles now and then up to the most.
fn sized(rng: &mut Rng, most: usize) -> Content {
    let n = 6 + rng.below(most as u64 - 5) as usize;
    let around = 3 + rng.below((n as f64).sqrt() as u64 * 2) as usize;
    let around = around.min(n / 2);
    let layers = n / around - 1;
    let jitter = within_range(rng, 0.0, 0.7);
    let mut content = ring_of(rng, around, layers, jitter);
    if rng.one_in(4) {
        crate::meshes::fill_up(rng, &mut content, most, most.min(MAX_TRIANGLES / 2) * 2);
    }
    content
}

fn each(rng: &mut Rng, tally: &mut Tally, count: usize, most: usize) {
    for _ in 0..count {
        let mut content = sized(rng, most);
        changed(rng, &mut content);
        let with = solving(rng);
        content.settings = tracing(rng, &content, with).0;
        judge(rng, &content, tally);
    }
}

fn judge(rng: &mut Rng, content: &Content, tally: &mut Tally) {
    let run = Run::new(content);
    let solved = run.solved();
    let last = run.from(solved.clone());
    let free = paths::with_room_enough(content, solved.clone());
    tally.counts.note(0, [17, 65, 257, 1025, 4096].iter().filter(|k| content.n() >= **k).count());
    tally.counts.note(1, [17, 65, 257, 1025, 4097, 8192].iter().filter(|k| content.t() >= **k).count());
    tally.counts.note(2, solved.field_end as usize);
    tally.counts.note(3, last.path_end as usize);
    tally.counts.note(4, (free.path_end == 7) as usize);
    let original = fields::as_original(content, &run, &solved).and_then(|()| paths::as_original(&run, &last, &free));
    tally.note(original.and_then(|()| paths::as_library(rng, &run, None, &last)));
}

//! Subjects whose inputs are sheets, meshes and lists of calls: a block makes its inputs and judges each of them.

use crate::floats::canon;
use crate::rng::Rng;
use crate::trial::{jobs, on_every_processor, print_differing, Compared, Counts, Outcome, Scale, Sort};
use std::fmt::Debug;
use std::sync::atomic::{AtomicUsize, Ordering};

/// Why two sides differ.
pub type Verdict = Result<(), String>;

/// A kind of input: a block makes and judges some of them.
pub struct Kind {
    pub what: &'static str,
    pub blocks: u64,
    pub judge: fn(&mut Rng, u64, &mut Tally),
}

pub fn kind(what: &'static str, blocks: u64, judge: fn(&mut Rng, u64, &mut Tally)) -> Kind {
    Kind { what, blocks, judge }
}

pub struct Cases {
    pub name: &'static str,
    pub kinds: Vec<Kind>,
    pub sorts: &'static [Sort],
}

/// What came of the inputs so far.
pub struct Tally {
    pub counts: Counts,
    inputs: u64,
    differ: u64,
    /// the first that differs in the present block
    first: Option<String>,
}

impl Tally {
    fn new(sorts: &[Sort]) -> Tally {
        Tally { counts: Counts::new(sorts), inputs: 0, differ: 0, first: None }
    }

    /// Notes one input.
    pub fn note(&mut self, verdict: Verdict) {
        self.inputs += 1;
        self.counts.last.clear();
        if let Err(why) = verdict {
            self.differ += 1;
            self.first.get_or_insert(why);
        }
    }
}

/// What one thread found.
struct Found {
    inputs: Vec<u64>,
    tally: Tally,
    shown: Vec<(usize, String)>,
}

impl Cases {
    fn work(&self, jobs: &[(usize, u64)], next: &AtomicUsize, seed: u64) -> Found {
        let mut found = Found { inputs: vec![0; self.kinds.len()], tally: Tally::new(self.sorts), shown: Vec::new() };
        loop {
            let job = next.fetch_add(1, Ordering::Relaxed);
            let Some(&(kind, block)) = jobs.get(job) else {
                return found;
            };
            let mut rng = Rng::new(seed, &format!("{} {}", self.name, self.kinds[kind].what), block);
            let before = found.tally.inputs;
            (self.kinds[kind].judge)(&mut rng, block, &mut found.tally);
            found.inputs[kind] += found.tally.inputs - before;
            if let Some(why) = found.tally.first.take() {
                found.shown.push((job, format!("block {block} of {}: {why}", self.kinds[kind].what)));
            }
        }
    }
}

impl Compared for Cases {
    fn name(&self) -> &'static str {
        self.name
    }

    fn compare(&self, scale: Scale) -> Outcome {
        let jobs = jobs(self.kinds.iter().map(|kind| kind.blocks * scale.times));
        let mut all = Tally::new(self.sorts);
        let mut inputs = vec![0; self.kinds.len()];
        let mut shown = Vec::new();
        for found in on_every_processor(|next| self.work(&jobs, next, scale.seed)) {
            for (all, one) in inputs.iter_mut().zip(&found.inputs) {
                *all += one;
            }
            all.inputs += found.tally.inputs;
            all.differ += found.tally.differ;
            all.counts.add(&found.tally.counts);
            shown.extend(found.shown);
        }
        println!("{}: {} inputs, {} differ", self.name, all.inputs, all.differ);
        for (kind, n) in self.kinds.iter().zip(&inputs) {
            println!("    {} {}", n, kind.what);
        }
        all.counts.print(self.sorts);
        print_differing(shown);
        Outcome { agree: all.inputs - all.differ, differ: all.differ }
    }
}

/// The two sides have the same number, or the like.
pub fn same<T: PartialEq + Debug>(what: &str, ours: T, theirs: T) -> Verdict {
    if ours == theirs {
        Ok(())
    } else {
        Err(format!("{what}: {ours:x?} and {theirs:x?}"))
    }
}

/// The two sides have the same list.
pub fn same_lists<T: PartialEq + Debug>(what: &str, ours: &[T], theirs: &[T]) -> Verdict {
    same(&format!("how many {what}"), ours.len(), theirs.len())?;
    match ours.iter().zip(theirs).position(|(a, b)| a != b) {
        None => Ok(()),
        Some(i) => same(&format!("{what}, at {i}"), &ours[i], &theirs[i]),
    }
}

/// The two sides have the same numbers, bit for bit, where any NaN counts as any other.
pub fn same_floats(what: &str, ours: &[f64], theirs: &[f64]) -> Verdict {
    same(&format!("how many {what}"), ours.len(), theirs.len())?;
    match ours.iter().zip(theirs).position(|(a, b)| canon(*a) != canon(*b)) {
        None => Ok(()),
        Some(i) => same(&format!("{what}, at {i}"), canon(ours[i]), canon(theirs[i])),
    }
}

/// The two sides have the same numbers, bit for bit, NaNs too.
pub fn same_bits(what: &str, ours: &[f64], theirs: &[f64]) -> Verdict {
    same(&format!("how many {what}"), ours.len(), theirs.len())?;
    match ours.iter().zip(theirs).position(|(a, b)| a.to_bits() != b.to_bits()) {
        None => Ok(()),
        Some(i) => same(&format!("{what}, at {i}"), ours[i].to_bits(), theirs[i].to_bits()),
    }
}

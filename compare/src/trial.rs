//! Runs a function of both sides on many inputs, on every processor, and counts where the answers agree.

use crate::floats::{canon, within};
use crate::list;
use crate::rng::Rng;
use std::sync::atomic::{AtomicUsize, Ordering};
use std::thread;

/// Appends the inputs of the block with a number.
pub type Make<const N: usize> = fn(&mut Rng, u64, &mut Vec<[f64; N]>);

/// A kind of input, made in blocks that share nothing.
pub struct Plan<const N: usize> {
    pub what: &'static str,
    pub blocks: u64,
    pub make: Make<N>,
}

pub fn plan<const N: usize>(what: &'static str, blocks: u64, make: Make<N>) -> Plan<N> {
    Plan { what, blocks, make }
}

/// Something an input is sorted by: a number that the function compares, or the kind of its answer.
pub struct Sort {
    pub what: &'static str,
    pub classes: &'static [&'static str],
}

/// The classes of a number that is compared with a threshold. Near means at most four doubles away.
pub const SIDES: &[&str] = &["below", "near below", "at", "near above", "above", "NaN"];

/// Into which class of each sort the inputs fell.
pub struct Counts {
    of: Vec<Vec<u64>>,
    /// the classes of the last input, one after another
    pub last: Vec<(usize, usize)>,
}

impl Counts {
    pub fn new(sorts: &[Sort]) -> Counts {
        Counts { of: sorts.iter().map(|s| vec![0; s.classes.len()]).collect(), last: Vec::new() }
    }

    pub fn of(&self, sort: usize, class: usize) -> u64 {
        self.of[sort][class]
    }

    pub fn note(&mut self, sort: usize, class: usize) {
        self.of[sort][class] += 1;
        self.last.push((sort, class));
    }

    /// On which side of a threshold a compared number lies.
    pub fn side(&mut self, sort: usize, value: f64, threshold: f64) {
        let near = !value.is_nan() && within(value, threshold, 4);
        let class = match value.partial_cmp(&threshold) {
            None => 5,
            Some(std::cmp::Ordering::Equal) => 2,
            Some(std::cmp::Ordering::Less) => near as usize,
            Some(std::cmp::Ordering::Greater) => 4 - near as usize,
        };
        self.note(sort, class);
    }

    pub fn add(&mut self, other: &Counts) {
        for (mine, its) in self.of.iter_mut().zip(&other.of) {
            for (m, i) in mine.iter_mut().zip(its) {
                *m += i;
            }
        }
    }

    pub fn print(&self, sorts: &[Sort]) {
        for (sort, of) in sorts.iter().zip(&self.of) {
            let parts: Vec<String> = sort.classes.iter().zip(of).map(|(c, n)| format!("{c} {n}")).collect();
            println!("    {}: {}", sort.what, parts.join(", "));
        }
    }
}

/// Prints the first of those that differ, each with the number of its job.
pub fn print_differing(mut shown: Vec<(usize, String)>) {
    shown.sort();
    for (_, line) in shown.iter().take(5) {
        println!("    DIFFERS at {line}");
    }
}

/// A function of both sides. Its answer is a list of bit patterns, with one pattern for every NaN.
pub struct Subject<const N: usize, const M: usize> {
    pub name: &'static str,
    pub rattle: fn(&[f64; N]) -> [u64; M],
    pub original: fn(&[f64; N]) -> [u64; M],
    pub plans: Vec<Plan<N>>,
    pub sorts: &'static [Sort],
    /// Sorts an input. It follows the function, for these counts alone: no answer comes from it.
    pub sort: fn(&[f64; N], &[u64; M], &mut Counts),
    /// Inputs that the fixed list has in any case.
    pub listed: Vec<[f64; N]>,
}

/// A subject, whatever its inputs and answers are.
pub trait Compared {
    fn name(&self) -> &'static str;
    /// Compares every input and prints what was run; the first few that differ are printed whole.
    fn compare(&self, scale: Scale) -> Outcome;
}

/// A subject of which the fixed list has rows.
pub trait Listed: Compared {
    /// Some of the inputs, each with the original's answer.
    fn rows(&self, seed: u64) -> Vec<Vec<u64>>;
}

/// How much is run: the numbers follow from the seed, and each plan makes `times` its blocks.
#[derive(Clone, Copy)]
pub struct Scale {
    pub seed: u64,
    pub times: u64,
}

pub struct Outcome {
    pub agree: u64,
    pub differ: u64,
}

/// The blocks of each plan, one after another: the plan's number and the block's.
pub fn jobs(blocks: impl Iterator<Item = u64>) -> Vec<(usize, u64)> {
    blocks.enumerate().flat_map(|(p, n)| (0..n).map(move |b| (p, b))).collect()
}

/// What the threads give, one for each processor. Each takes the next job's number until there is none left.
pub fn on_every_processor<T: Send>(work: impl Fn(&AtomicUsize) -> T + Sync) -> Vec<T> {
    let next = AtomicUsize::new(0);
    let threads = thread::available_parallelism().map_or(1, |n| n.get());
    thread::scope(|s| {
        let workers: Vec<_> = (0..threads).map(|_| s.spawn(|| work(&next))).collect();
        workers.into_iter().map(|w| w.join().unwrap()).collect()
    })
}

/// What one thread found.
struct Found {
    inputs: Vec<u64>,
    differ: u64,
    counts: Counts,
    /// the first differing input of each block that has one
    shown: Vec<(usize, String)>,
}

impl<const N: usize, const M: usize> Subject<N, M> {
    /// The inputs of one block of a plan.
    pub fn block(&self, plan: &Plan<N>, seed: u64, block: u64, out: &mut Vec<[f64; N]>) {
        let mut rng = Rng::new(seed, &format!("{} {}", self.name, plan.what), block);
        (plan.make)(&mut rng, block, out);
    }

    fn work(&self, jobs: &[(usize, u64)], next: &AtomicUsize, seed: u64) -> Found {
        let mut found = Found { inputs: vec![0; self.plans.len()], differ: 0, counts: Counts::new(self.sorts), shown: Vec::new() };
        let mut inputs = Vec::new();
        loop {
            let job = next.fetch_add(1, Ordering::Relaxed);
            let Some(&(plan, block)) = jobs.get(job) else {
                return found;
            };
            inputs.clear();
            self.block(&self.plans[plan], seed, block, &mut inputs);
            found.inputs[plan] += inputs.len() as u64;
            self.check(&inputs, job, &mut found);
        }
    }

    fn check(&self, inputs: &[[f64; N]], job: usize, found: &mut Found) {
        let mut first = true;
        for input in inputs {
            let original = (self.original)(input);
            let rattle = (self.rattle)(input);
            found.counts.last.clear();
            (self.sort)(input, &original, &mut found.counts);
            if rattle != original {
                found.differ += 1;
                if first {
                    found.shown.push((job, self.show(input, &original, &rattle)));
                }
                first = false;
            }
        }
    }

    fn show(&self, input: &[f64; N], original: &[u64; M], rattle: &[u64; M]) -> String {
        let input = input.map(|x| x.to_bits());
        format!("{:016x?}: the original gives {:016x?}, Rattle {:016x?}", input, original, rattle)
    }

    fn report(&self, found: Vec<Found>) -> Outcome {
        let mut inputs = vec![0; self.plans.len()];
        let mut differ = 0;
        let mut counts = Counts::new(self.sorts);
        let mut shown = Vec::new();
        for f in found {
            for (all, one) in inputs.iter_mut().zip(&f.inputs) {
                *all += one;
            }
            differ += f.differ;
            counts.add(&f.counts);
            shown.extend(f.shown);
        }
        let total: u64 = inputs.iter().sum();
        println!("{}: {} inputs, {} differ", self.name, total, differ);
        for (plan, n) in self.plans.iter().zip(&inputs) {
            println!("    {} {}", n, plan.what);
        }
        counts.print(self.sorts);
        print_differing(shown);
        Outcome { agree: total - differ, differ }
    }
}

impl<const N: usize, const M: usize> Compared for Subject<N, M> {
    fn name(&self) -> &'static str {
        self.name
    }

    fn compare(&self, scale: Scale) -> Outcome {
        let jobs = jobs(self.plans.iter().map(|plan| plan.blocks * scale.times));
        self.report(on_every_processor(|next| self.work(&jobs, next, scale.seed)))
    }
}

impl<const N: usize, const M: usize> Listed for Subject<N, M> {
    fn rows(&self, seed: u64) -> Vec<Vec<u64>> {
        list::choose(self, seed)
            .iter()
            .map(|input| {
                let inputs = input.iter().map(|x| canon(*x));
                inputs.chain((self.original)(input)).collect()
            })
            .collect()
    }
}

//! A fixed list of inputs and answers, for a Rattle program that replays it without Rust (crates/replay_numbers).

use crate::rng::Rng;
use crate::trial::{Counts, Listed, Subject};

/// How many inputs of each function are taken at least, beyond those that it lists itself.
const MORE: usize = 30;

/// Inputs of a subject: those that it lists, then such as fall into a class that fewer than two so far do, then others of each plan in turn.
pub fn choose<const N: usize, const M: usize>(subject: &Subject<N, M>, seed: u64) -> Vec<[f64; N]> {
    let mut rng = Rng::new(seed, subject.name, 0);
    let mut chosen = subject.listed.clone();
    let least = chosen.len() + MORE;
    let mut counts = Counts::new(subject.sorts);
    let mut inputs = Vec::new();
    for plan in &subject.plans {
        subject.block(plan, seed, rng.below(plan.blocks), &mut inputs);
    }
    for input in &inputs {
        if adds_to(subject, input, &mut counts) {
            chosen.push(*input);
        }
    }
    let mut plans = subject.plans.iter().cycle();
    while chosen.len() < least {
        let plan = plans.next().unwrap();
        inputs.clear();
        subject.block(plan, seed, rng.below(plan.blocks), &mut inputs);
        chosen.push(rng.pick(&inputs));
    }
    chosen
}

/// Whether an input falls into a class that fewer than two so far do. It is counted if so.
fn adds_to<const N: usize, const M: usize>(subject: &Subject<N, M>, input: &[f64; N], counts: &mut Counts) -> bool {
    let mut own = Counts::new(subject.sorts);
    (subject.sort)(input, &(subject.original)(input), &mut own);
    let adds = own.last.iter().any(|&(sort, class)| counts.of(sort, class) < 2);
    if adds {
        for (sort, class) in own.last {
            counts.note(sort, class);
        }
    }
    adds
}

/// Prints the list as the tables of a Rattle program, in the layout of rt fmt: an array of rows for each function.
pub fn print(subjects: &[Box<dyn Listed>], seed: u64) {
    println!("// Inputs and answers as bit patterns, with one pattern for every NaN. `compare/run --list` printed this file: the answers are those of");
    println!("// the original Rust and of Rust's f64, with the seed {seed}. A row has the inputs in the order of the parameters, and then the answer.");
    for subject in subjects {
        let rows = subject.rows(seed);
        println!();
        println!("// {} rows of {}", rows.len(), rows[0].len());
        println!("pub const {}: [[u64; {}]; {}] = [", subject.name().to_uppercase(), rows[0].len(), rows.len());
        for row in rows {
            let patterns: Vec<String> = row.iter().map(|pattern| format!("0x{pattern:016x}")).collect();
            // more than four are over the width of a line
            if patterns.len() <= 4 {
                println!("    [{}],", patterns.join(", "));
            } else {
                println!("    [\n        {},\n    ],", patterns.join(",\n        "));
            }
        }
        println!("];");
    }
}

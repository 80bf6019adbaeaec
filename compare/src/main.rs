//! Compares the Rattle functions with the original Rust, bit for bit; any NaN counts as any other.
//! compare/run builds and starts it: see there for its arguments, and for the parts `sheet` and `run`.

#![cfg_attr(not(all(sheet, run)), allow(dead_code))]

#[cfg(run)]
mod calls;
mod cases;
mod content;
mod drafts;
mod fields;
mod floats;
mod list;
mod list_sheets;
mod machine;
mod meshes;
mod near_misses;
mod numbers;
#[cfg(run)]
mod opened;
mod originals;
mod paths;
mod plane;
mod rattle;
#[cfg(run)]
mod rattle_run;
#[cfg(sheet)]
mod rattle_sheet;
mod reader;
mod rng;
mod runs;
mod samples;
mod shapes;
#[cfg(sheet)]
mod sheets;
#[cfg(run)]
mod space;
#[cfg(run)]
mod stacks;
mod stand_ins;
mod timing;
#[cfg(run)]
mod timing_runs;
mod trial;
mod uninterrupted;
mod whole;
mod writer;

/// The path by which the original names its types.
use originals::geo;
use std::process::exit;
use trial::{Compared, Listed, Scale};

/// Functions of a few numbers.
fn functions() -> Vec<Box<dyn Listed>> {
    vec![
        Box::new(numbers::sqrt()),
        Box::new(numbers::abs()),
        Box::new(numbers::clamp()),
        Box::new(numbers::at_least()),
        Box::new(numbers::ceil_count()),
        Box::new(plane::dot()),
        Box::new(plane::length_squared()),
        Box::new(plane::sign()),
        Box::new(plane::point_in_triangle()),
        Box::new(plane::get_ray_line_intersection()),
        Box::new(plane::get_barycentric_weights()),
        Box::new(plane::barycentric_interpolate()),
    ]
}

fn subjects() -> Vec<Box<dyn Compared>> {
    let mut all: Vec<Box<dyn Compared>> = Vec::new();
    for function in functions() {
        all.push(function);
    }
    all.push(Box::new(samples::samples()));
    #[cfg(sheet)]
    all.extend([Box::new(sheets::reading()) as Box<dyn Compared>, Box::new(sheets::writing())]);
    all.extend([Box::new(fields::fields()) as Box<dyn Compared>, Box::new(paths::paths()), Box::new(whole::whole())]);
    #[cfg(run)]
    all.extend([
        Box::new(calls::lists()) as Box<dyn Compared>,
        Box::new(calls::altered()),
        Box::new(space::needed()),
        Box::new(stacks::stacks()),
    ]);
    all
}

enum Task {
    Compare,
    Time,
    List,
    ListSheets,
    /// writes the input and the lines of crates/replay_runs to a folder
    Runs(String),
}

struct Arguments {
    task: Task,
    scale: Scale,
    /// only the subjects whose names have this
    only: String,
}

fn arguments() -> Option<Arguments> {
    let mut all = Arguments { task: Task::Compare, scale: Scale { seed: 1, times: 1 }, only: String::new() };
    let mut words = std::env::args().skip(1);
    while let Some(word) = words.next() {
        match word.as_str() {
            "--seed" => all.scale.seed = words.next()?.parse().ok()?,
            "--count" => all.scale.times = words.next()?.parse().ok()?,
            "--only" => all.only = words.next()?,
            "--time" => all.task = Task::Time,
            "--list" => all.task = Task::List,
            "--list-sheets" => all.task = Task::ListSheets,
            "--runs" => all.task = Task::Runs(words.next()?),
            _ => return None,
        }
    }
    Some(all)
}

fn main() {
    let Some(Arguments { task, scale, only }) = arguments() else {
        eprintln!("usage: compare/run [FOLDER] [--seed N] [--count N] [--only WORD] [--time | --list | --list-sheets | --runs FOLDER]");
        exit(2);
    };
    match task {
        Task::Compare => compare(scale, &only),
        Task::Time => time(scale.seed),
        Task::List => list::print(&functions(), scale.seed),
        Task::ListSheets => list_sheets::print(),
        Task::Runs(folder) => runs::write(&folder, scale.seed),
    }
}

fn time(seed: u64) {
    timing::all(seed);
    #[cfg(run)]
    timing_runs::all(seed);
}

fn compare(scale: Scale, only: &str) {
    print!("the original functions, unchanged:\n{}", originals::TAKEN);
    println!("seed {}, {} times the inputs", scale.seed, scale.times);
    let (mut agree, mut differ) = (0, 0);
    for subject in subjects().iter().filter(|subject| subject.name().contains(only)) {
        let outcome = subject.compare(scale);
        agree += outcome.agree;
        differ += outcome.differ;
    }
    println!("{agree} agree, {differ} differ");
    if differ != 0 {
        exit(1);
    }
}

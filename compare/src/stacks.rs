//! Opening, the four calls and what shows a run, at the most vertices and triangles, on threads with small stacks, against the counter machine and the
//! uninterrupted run. A call that needs more stack ends the program by a signal.

use crate::calls::note;
use crate::cases::{kind, same, Cases, Tally, Verdict};
use crate::content::{Content, Settings};
use crate::machine::{needs, Call, Machine};
use crate::meshes::most;
use crate::opened::{refuses, Opened};
use crate::rattle_run as rattle;
use crate::rng::Rng;
use crate::trial::Sort;
use crate::uninterrupted::{Run, Trace};
use std::thread::{scope, Builder};

pub fn stacks() -> Cases {
    Cases {
        name: "small stacks",
        kinds: vec![
            kind("64 KB: opening, every call, and what shows a run", 2, |rng, _, tally| each(rng, tally, 64, 0)),
            kind("256 KB: the same near the most passes", 2, |rng, _, tally| each(rng, tally, 256, u64::MAX - 30)),
        ],
        sorts: &[
            Sort { what: "calls", classes: &["advance", "back", "mark", "return"] },
            Sort { what: "refusals", classes: &["none", "8", "9", "10"] },
        ],
    }
}

/// A sheet of the most vertices and triangles.
fn sheet(rng: &mut Rng) -> Content {
    let mut content = most(rng);
    content.settings = Settings { limit: Some(60), step: Some(0.1), room: Some(5000), ..Settings::default() };
    content
}

fn each(rng: &mut Rng, tally: &mut Tally, kilobytes: usize, passes: u64) {
    let content = sheet(rng);
    let run = Run::new(&content);
    let trace = Trace::new(&run);
    let verdict = scope(|threads| {
        let small = Builder::new().stack_size(kilobytes * 1024);
        let thread = small.spawn_scoped(threads, || called(rng, &content, &run, &trace, passes, tally)).expect("no thread");
        thread.join().expect("the thread ended early")
    });
    tally.note(verdict);
}

/// From place 0 into solving, to the field's end, along the path to its end, and back; a return with no mark, a short loan.
fn called(rng: &mut Rng, content: &Content, run: &Run, trace: &Trace, passes: u64, tally: &mut Tally) -> Verdict {
    refuses(rng, content)?;
    let mut machine = Machine::new(trace.last(), needs(content));
    let mut opened = Opened::new(rng, content)?;
    opened.has_matrix(run)?;
    machine.passes = passes;
    opened.record.wholes[rattle::PASSES] = passes;
    let last = trace.last() as u32;
    let all = opened.lengths();
    let short = [all[0], all[1], 0];
    let calls = [
        (Call::Return, all),
        (Call::Advance(20), all),
        (Call::Mark, short),
        (Call::Mark, all),
        (Call::Advance(last), all),
        (Call::Advance(5), all),
        (Call::Back(20), all),
        (Call::Return, all),
        (Call::Back(last), all),
    ];
    for (call, lent) in calls {
        let said = opened.call_with(&mut machine, call, lent).map_err(|why| format!("{call:?}: {why}"))?;
        note(tally, call, said);
        opened.shows(run, trace.at(machine.place)).map_err(|why| format!("after {call:?}: {why}"))?;
        for lent in [all, short] {
            opened.has_length(trace.at(machine.place), lent)?;
        }
    }
    near_the_most(&mut opened, &mut machine, passes, tally)?;
    opened.has_matrix(run)
}

/// Each kind of place, reached with no count of passes, and from there an advance that would carry the count too far, and one that would not.
fn near_the_most(opened: &mut Opened, machine: &mut Machine, passes: u64, tally: &mut Tally) -> Verdict {
    let all = opened.lengths();
    for place in [0, 30, 59, 60, 61, 62, machine.last - 1, machine.last] {
        set_passes(opened, machine, 0);
        let to = [Call::Back(machine.place as u32), Call::Advance(place as u32)];
        for call in to {
            same("refusal", 0, opened.call_with(machine, call, all)?)?;
        }
        set_passes(opened, machine, passes);
        for k in [machine.last as u32, 40, 3] {
            let said = opened.call_with(machine, Call::Advance(k), all)?;
            note(tally, Call::Advance(k), said);
        }
    }
    Ok(())
}

fn set_passes(opened: &mut Opened, machine: &mut Machine, passes: u64) {
    machine.passes = passes;
    opened.record.wholes[rattle::PASSES] = passes;
}

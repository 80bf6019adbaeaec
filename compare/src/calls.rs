//! Lists of calls, against the counter machine and the uninterrupted run; and calls on records and buffers that were altered.

use crate::cases::{kind, same, Cases, Tally, Verdict};
use crate::content::{Content, Settings, FACTOR, MAX_LIMIT, MAX_ROOM, MAX_TRIANGLES, MAX_VERTICES};
use crate::floats::{any, special, PATTERN};
use crate::machine::{any_call, any_lent, needs, space, Call, Machine};
use crate::meshes::{changed, fan, few, grid, heap, ring, Make};
use crate::opened::{alike_buffers, behind, lengths, lent, refuses, same_all, same_buffers, same_length, Opened};
use crate::paths::tracing;
use crate::rattle_run as rattle;
use crate::rattle_run::{Buffers, Part, Record, PARTS, REALS, SAID, WHOLES, WHOLE_RECORD};
use crate::rng::Rng;
use crate::stand_ins::Point;
use crate::trial::Sort;
use crate::uninterrupted::{length, Run, Trace};
use crate::writer::bytes;

pub fn lists() -> Cases {
    Cases {
        name: "lists of calls",
        kinds: vec![
            kind("on rings", 200, |rng, _, tally| each(rng, tally, 10, ring, list)),
            kind("on grids", 100, |rng, _, tally| each(rng, tally, 10, grid, list)),
            kind("on fans", 100, |rng, _, tally| each(rng, tally, 10, fan, list)),
            kind("on heaps", 100, |rng, _, tally| each(rng, tally, 10, heap, list)),
            kind("on few vertices and triangles", 50, |rng, _, tally| each(rng, tally, 10, few, list)),
            kind("with passes near the most", 50, |rng, _, tally| each(rng, tally, 10, ring, list_near_the_most)),
        ],
        sorts: &[
            Sort { what: "calls", classes: &["advance", "back", "mark", "return"] },
            Sort { what: "refusals", classes: &["none", "8", "9", "10"] },
            Sort { what: "marks returned to", classes: &["before the place", "at it", "behind it"] },
            Sort { what: "places after a call", classes: &["0", "solving", "crossing", "the last"] },
        ],
    }
}

pub fn altered() -> Cases {
    Cases {
        name: "altered work",
        kinds: vec![
            kind("records and buffers altered anyhow, on rings", 500, |rng, _, tally| each(rng, tally, 4, ring, anyhow)),
            kind("records and buffers altered anyhow, on heaps", 500, |rng, _, tally| each(rng, tally, 4, heap, anyhow)),
            kind("one index or count out of its range", 300, |rng, _, tally| each(rng, tally, 4, ring, out_of_range)),
            kind("flags of every kind of value in every state, on rings", 100, |rng, _, tally| each(rng, tally, 1, ring, flags)),
            kind("flags of every kind of value in every state, on heaps", 100, |rng, _, tally| each(rng, tally, 1, heap, flags)),
            kind("lists too short for a record", 100, |rng, _, tally| each(rng, tally, 1, ring, short_lists)),
            kind("advances near the most passes, on rings", 300, |rng, _, tally| each(rng, tally, 4, ring, near_the_most)),
            kind("advances near the most passes, on heaps", 300, |rng, _, tally| each(rng, tally, 4, heap, near_the_most)),
        ],
        sorts: &[
            Sort { what: "calls", classes: &["advance", "back", "mark", "return"] },
            Sort { what: "refusals", classes: &["none", "8", "9", "10"] },
            Sort { what: "flags altered at places", classes: &["0", "solving", "crossing", "the last"] },
            Sort { what: "flags altered with", classes: &["no mark", "a mark"] },
            Sort { what: "flags that are", classes: &["0", "1", "neither"] },
        ],
    }
}

type Judge = fn(&mut Rng, &Content, &mut Tally);

/// Sheets whose runs are short.
fn each(rng: &mut Rng, tally: &mut Tally, count: usize, make: Make, judge: Judge) {
    for _ in 0..count {
        let mut content = make(rng);
        changed(rng, &mut content);
        let limit = Some(rng.below(40));
        let tolerance = rng.one_in(3).then(|| rng.pick(&[0.0, 1e-3, -1.0]));
        let (settings, _) = tracing(rng, &content, Settings { limit, tolerance, ..Settings::default() });
        let room = settings.room.map(|room| room.min(400));
        content.settings = Settings { room, ..settings };
        judge(rng, &content, tally);
    }
}

// ---- lists

fn list(rng: &mut Rng, content: &Content, tally: &mut Tally) {
    let verdict = listed(rng, content, 0, tally);
    tally.note(verdict);
}

/// The record's pass count, and the machine's, stand where an advance may go beyond the most.
fn list_near_the_most(rng: &mut Rng, content: &Content, tally: &mut Tally) {
    let passes = u64::MAX - rng.below(60);
    let verdict = listed(rng, content, passes, tally);
    tally.note(verdict);
}

fn listed(rng: &mut Rng, content: &Content, passes: u64, tally: &mut Tally) -> Verdict {
    let run = Run::new(content);
    let trace = Trace::new(&run);
    refuses(rng, content)?;
    let mut machine = Machine::new(trace.last(), needs(content));
    let mut opened = Opened::new(rng, content)?;
    opened.has_matrix(&run)?;
    opened.shows(&run, trace.at(0))?;
    machine.passes = passes;
    opened.record.wholes[rattle::PASSES] = passes;
    for i in 0..rng.between(1, 60) {
        let call = any_call(rng, machine.last);
        let lent = any_lent(rng, opened.lengths(), machine.needs);
        let before = (machine.place, machine.mark);
        let said = opened.call_with(&mut machine, call, lent).map_err(|why| format!("call {i}, {call:?}: {why}"))?;
        note(tally, call, said);
        if let (Call::Return, 0, (place, Some(mark))) = (call, said, before) {
            tally.counts.note(2, 1 + (mark > place) as usize - (mark < place) as usize);
        }
        tally.counts.note(3, kind_of_place(&trace, &machine));
        same("passes", machine.passes, opened.record.wholes[rattle::PASSES])?;
        opened.shows(&run, trace.at(machine.place)).map_err(|why| format!("after call {i}, {call:?}: {why}"))?;
        opened.has_length(trace.at(machine.place), lent).map_err(|why| format!("after call {i}, {call:?}: {why}"))?;
    }
    opened.has_length(trace.at(machine.place), opened.lengths())?;
    opened.has_matrix(&run)
}

fn kind_of_place(trace: &Trace, machine: &Machine) -> usize {
    match machine.place {
        0 => 0,
        p if p == machine.last => 3,
        p => 1 + (trace.at(p).field_end != 0) as usize,
    }
}

pub fn note(tally: &mut Tally, call: Call, said: u32) {
    tally.counts.note(0, call.numbers()[0] as usize);
    tally.counts.note(1, [0, 8, 9, 10].iter().position(|k| *k == said).unwrap());
}

// ---- altered records and buffers

/// A run that some calls have brought somewhere.
fn somewhere(rng: &mut Rng, content: &Content) -> Result<Opened, String> {
    let mut opened = Opened::new(rng, content)?;
    for _ in 0..rng.below(4) {
        let call = any_call(rng, 60);
        opened.call(call);
    }
    Ok(opened)
}

/// Calls on a run with some numbers altered, and more from call to call; after a refusal often from the unaltered run again, so that other alterations
/// get as far as a pass. Each returns, and where it refuses, record and buffers are as they were.
fn anyhow(rng: &mut Rng, content: &Content, tally: &mut Tally) {
    let mut opened = match somewhere(rng, content) {
        Ok(opened) => opened,
        Err(why) => return tally.note(Err(why)),
    };
    let unaltered = (opened.record.clone(), opened.buffers.clone());
    for _ in 0..20 {
        for _ in 0..rng.between(1, 3) {
            alter(rng, &mut opened);
        }
        let call = any_call(rng, 200);
        let lent = any_lent(rng, opened.lengths(), needs(content));
        let said = returns(&mut opened, call, lent, tally);
        if said != Ok(0) && !rng.one_in(4) {
            (opened.record, opened.buffers) = unaltered.clone();
        }
        tally.note(said.map(drop));
    }
}

/// A number of the record or of a buffer that is another one now.
fn alter(rng: &mut Rng, opened: &mut Opened) {
    let b = &mut opened.buffers;
    match rng.below(6) {
        0 | 1 => {
            let i = rng.below(rattle::WHOLES as u64) as usize;
            let old = opened.record.wholes[i];
            let wild = rng.next();
            let others = [0, 1, 2, 3, old.wrapping_add(1), old.saturating_sub(1), old / 2, 50, 1 << 20, wild & 0xffff_ffff];
            let flag = i == rattle::GIVEN || i == rattle::MARKED;
            opened.record.wholes[i] = if flag && !rng.one_in(8) { rng.below(2) } else { rng.pick(&others) };
        }
        2 => {
            let i = rng.below(rattle::REALS as u64) as usize;
            opened.record.reals[i] = if rng.one_in(2) { special(rng) } else { any(rng) }.to_bits();
        }
        3 => {
            let i = rng.below(b.words.len() as u64) as usize;
            let wild = rng.next() as u32;
            b.words[i] = rng.pick(&[0, 1, 2, 5, 20, u32::MAX, wild]);
        }
        4 => {
            let i = rng.below(b.floats.len() as u64) as usize;
            b.floats[i] = if rng.one_in(2) { special(rng) } else { any(rng) };
        }
        _ => {
            let i = rng.below(b.path.len() as u64) as usize;
            b.path[i] = special(rng);
        }
    }
}

/// What refuses a call on any record before its other numbers are looked at: 10 for n, T, limit or room, then 8; and 10 for a flag that is neither 0 nor 1.
fn foreseen(record: &Record, lent: [usize; 3]) -> Option<u32> {
    let Some(needs) = needs_of(record) else {
        return Some(10);
    };
    if lent.iter().zip(needs).any(|(lent, need)| *lent < need) {
        return Some(8);
    }
    [rattle::GIVEN, rattle::MARKED].iter().any(|flag| record.wholes[*flag] > 1).then_some(10)
}

/// The space that a record's n, T, limit and room ask for, where they are in their ranges.
fn needs_of(record: &Record) -> Option<[usize; 3]> {
    let [n, t, limit, room] = [rattle::N, rattle::T, rattle::LIMIT, rattle::ROOM].map(|i| record.wholes[i]);
    let counts = n <= MAX_VERTICES as u64 && t <= MAX_TRIANGLES as u64 && limit <= MAX_LIMIT && (1..=MAX_ROOM).contains(&room);
    counts.then(|| space(n as usize, t as usize, limit as usize, room as usize))
}

/// What a call on any record owes: the refusal that is foreseen, else no 8, and 9 only for a return with no mark; no change where it refuses; what is lent
/// past the space stays. Before it, what the record shows, and the length.
fn returns(opened: &mut Opened, call: Call, lent: [usize; 3], tally: &mut Tally) -> Result<u32, String> {
    let record = opened.record.clone();
    let before = opened.buffers.clone();
    shows_any(&record, &before, lent)?;
    measures(&record, &before, lent)?;
    let said = rattle::call(&mut opened.record, call, &mut opened.buffers, lent);
    if ![0, 8, 9, 10].contains(&said) {
        return Err(format!("{call:?} gives {said}"));
    }
    note(tally, call, said);
    match foreseen(&record, lent) {
        Some(k) => same("refusal", k, said)?,
        None => {
            same("whether space is short", false, said == 8)?;
            let markless = call == Call::Return && record.wholes[rattle::MARKED] == 0;
            same("whether there is a return with no mark", markless, said == 9 || (markless && said == 10))?;
        }
    }
    if said != 0 {
        same_all((&record, &before), (&opened.record, &opened.buffers))?;
    } else if let Some(needs) = needs_of(&record) {
        same_buffers(&behind(&before, needs), &behind(&opened.buffers, needs))?;
    }
    Ok(said)
}

/// The length on any record: refused as a mark is, which has no refusal of its own, else that of the record's points.
fn measures(record: &Record, b: &Buffers, lent: [usize; 3]) -> Verdict {
    let (mut marked, mut with) = (record.clone(), b.clone());
    let expected = match rattle::call(&mut marked, Call::Mark, &mut with, lent) {
        0 => {
            let count = usize::try_from(record.wholes[rattle::POINTS]).unwrap_or(usize::MAX);
            let points = b.path.get(..count.saturating_mul(2)).ok_or("a mark takes more points than the path has")?;
            Ok(length(&points.chunks_exact(2).map(|p| Point::new(p[0], p[1])).collect::<Vec<_>>()))
        }
        k => Err(k),
    };
    let before = (record.clone(), b.clone());
    same_length(record, b, lent, expected)?;
    same_all((&before.0, &before.1), (record, b))
}

/// The numbers that are said of any record, and where its parts stand.
fn shows_any(record: &Record, b: &Buffers, lent: [usize; 3]) -> Verdict {
    same("place, passes and ends that are said", SAID.map(|i| record.wholes[i]), rattle::said_of(record, WHOLES))?;
    for part in PARTS {
        let mut out = [PATTERN; 3];
        same("refusal of a part", 0, rattle::part(part, record, WHOLE_RECORD, b, lent, &mut out))?;
        let [from, count] = stands(part, record, part.buffer(b, lent).len());
        same(&format!("{part:?}, start and count"), [from, count, PATTERN], out)?;
    }
    Ok(())
}

/// Where a part of any record starts in a buffer of so many places, and how many numbers it has: 0 and 0 where it has none, n or T is too large, or it would
/// reach past the end.
fn stands(part: Part, record: &Record, places: usize) -> [u64; 2] {
    let [n, t, norms, points] = [rattle::N, rattle::T, rattle::NORMS, rattle::POINTS].map(|i| record.wholes[i]);
    let counted = n <= MAX_VERTICES as u64 && t <= MAX_TRIANGLES as u64;
    let (from, count) = match part {
        Part::Points => (0, 2 * points as u128),
        _ if !counted => return [0, 0],
        Part::Field => (rattle::layout(n as usize, t as usize).field, n as u128),
        Part::Norms => (rattle::layout(n as usize, t as usize).norms, norms as u128),
        Part::Gradients => (rattle::layout(n as usize, t as usize).gradients, 2 * t as u128),
    };
    if count == 0 || from as u128 + count > places as u128 {
        return [0, 0];
    }
    [from as u64, count as u64]
}

/// An advance on altered work whose gain is known from one with no passes counted: where the count just holds it, the same comes of it, and where it
/// does not, the advance is refused with 10 and changes nothing.
fn near_the_most(rng: &mut Rng, content: &Content, tally: &mut Tally) {
    let verdict = somewhere(rng, content).and_then(|mut opened| {
        for _ in 0..rng.between(1, 3) {
            alter(rng, &mut opened);
        }
        let call = Call::Advance(rng.pick(&[1, 2, 5, 30, 60, 1000]));
        opened.record.wholes[rattle::PASSES] = 0;
        let before = (opened.record.clone(), opened.buffers.clone());
        if opened.call(call) != 0 {
            return Ok(());
        }
        let after = (opened.record.clone(), opened.buffers.clone());
        let gain = opened.record.wholes[rattle::PASSES];
        for over in 0..=gain.min(1) {
            (opened.record, opened.buffers) = before.clone();
            opened.record.wholes[rattle::PASSES] = u64::MAX - gain + over;
            let mut expected = if over == 0 { after.clone() } else { (opened.record.clone(), before.1.clone()) };
            expected.0.wholes[rattle::PASSES] = if over == 0 { u64::MAX } else { u64::MAX - gain + 1 };
            let said = opened.call(call);
            note(tally, call, said);
            same("refusal", 10 * over as u32, said)?;
            if over == 0 {
                same("the record", expected.0.canon(), opened.record.canon())?;
                alike_buffers(&expected.1, &opened.buffers)?;
            } else {
                same_all((&expected.0, &expected.1), (&opened.record, &opened.buffers))?;
            }
        }
        Ok(())
    });
    tally.note(verdict);
}

/// One index or count that is outside its range: every call refuses with 10, and record and buffers are as they were.
fn out_of_range(rng: &mut Rng, content: &Content, tally: &mut Tally) {
    for _ in 0..10 {
        let mut opened = match somewhere(rng, content) {
            Ok(opened) => opened,
            Err(why) => return tally.note(Err(why)),
        };
        if !(spoil_words(rng, content, &mut opened) || spoil_record(rng, content, &mut opened.record)) {
            continue;
        }
        let (record, buffers) = (opened.record.clone(), opened.buffers.clone());
        for call in [Call::Advance(1), Call::Back(1), Call::Mark, Call::Return] {
            let said = opened.call(call);
            let verdict = same("refusal", 10, said).and_then(|()| {
                note(tally, call, said);
                same_all((&record, &buffers), (&opened.record, &opened.buffers))?;
                same_length(&record, &buffers, opened.lengths(), Err(10))
            });
            tally.note(verdict);
        }
    }
}

/// How far beyond a range.
fn excess(rng: &mut Rng) -> u64 {
    rng.pick(&[1, 2, 1 << 20])
}

/// A corner, a neighbour, a row's start or a column of the matrix; it may find none.
fn spoil_words(rng: &mut Rng, content: &Content, opened: &mut Opened) -> bool {
    let (n, t) = (content.n(), content.t());
    let layout = &opened.layout;
    let entries = opened.buffers.words[layout.starts + n] as usize;
    let (list, count, most) = match rng.below(8) {
        0 => (layout.triangles, 3 * t, n - 1),
        1 => (layout.neighbours, 3 * t, t - 1),
        2 => (layout.starts, n + 1, 9 * t + n),
        3 => (layout.columns, entries, n - 1),
        _ => return false,
    };
    if count == 0 {
        return false;
    }
    let k = rng.below(count as u64) as usize;
    opened.buffers.words[list + k] = (most as u64 + excess(rng)) as u32;
    true
}

/// A count or an index of the record; it may find none.
fn spoil_record(rng: &mut Rng, content: &Content, record: &mut Record) -> bool {
    let crossings = (FACTOR * content.t()) as u64;
    let limit = content.settings.limit() as u64;
    let marked = record.wholes[rattle::MARKED] == 1;
    let (what, most) = match rng.below(10) {
        0 => (rattle::PLACE, limit + 1 + crossings),
        1 => (rattle::NORMS, limit + 1),
        2 => (rattle::FIELD_END, 3),
        3 => (rattle::PATH_END, 9),
        4 => (rattle::EDGE, 3),
        5 => (rattle::POINTS, content.settings.room.unwrap()),
        6 => (rattle::CROSSINGS, crossings),
        7 => (rattle::TRIANGLE, (content.t() as u64).max(1) - 1),
        8 if marked => (rattle::MARK_PLACE, limit + 1 + crossings),
        9 if marked => (rattle::MARK_NORMS, limit + 1),
        _ => return false,
    };
    record.wholes[what] = most + excess(rng);
    true
}

// ---- flags

/// What a flag may be altered to.
const FLAGS: [u64; 7] = [0, 1, 2, 255, 1 << 32, 1 << 63, u64::MAX];

/// Every call on a run at each kind of place, with and without a mark, with one flag altered.
fn flags(rng: &mut Rng, content: &Content, tally: &mut Tally) {
    let states = match states(rng, content) {
        Ok(states) => states,
        Err(why) => return tally.note(Err(why)),
    };
    for state in states {
        for flag in [rattle::GIVEN, rattle::MARKED] {
            for value in FLAGS {
                let verdict = flagged(rng, content, &state, flag, value, tally);
                tally.note(verdict);
            }
        }
    }
}

/// Record, buffers, and the kind of its place.
type State = (Record, Buffers, usize);

/// A run at place 0, within solving, at the start pass, within crossing and at its last place, with no mark and with one.
fn states(rng: &mut Rng, content: &Content) -> Result<Vec<State>, String> {
    let run = Run::new(content);
    let trace = Trace::new(&run);
    let last = trace.last();
    let solved = (0..=last).find(|p| trace.at(*p).field_end != 0).unwrap_or(last);
    let mut all = Vec::new();
    for marked in [false, true] {
        let mark = rng.below(last as u64 + 1) as usize;
        for place in [0, rng.below(solved as u64 + 1) as usize, solved, solved + 1, (solved + last) / 2, last] {
            let mut opened = Opened::new(rng, content)?;
            let calls = [Call::Advance(mark as u32), Call::Mark, Call::Back(u32::MAX), Call::Advance(place as u32)];
            for call in &calls[if marked { 0 } else { 3 }..] {
                same("refusal", 0, opened.call(*call))?;
            }
            let kind = match place {
                0 => 0,
                p if p >= last => 3,
                p => 1 + (trace.at(p).field_end != 0) as usize,
            };
            all.push((opened.record, opened.buffers, kind));
        }
    }
    Ok(all)
}

/// A flag of that value, and every call, lent enough or too little, with counts in their ranges or not: only a flag that is 0 or 1 lets one get further.
fn flagged(rng: &mut Rng, content: &Content, state: &State, flag: usize, value: u64, tally: &mut Tally) -> Verdict {
    let marked = state.0.wholes[rattle::MARKED] as usize;
    tally.counts.note(2, state.2);
    tally.counts.note(3, marked);
    tally.counts.note(4, value.min(2) as usize);
    let mut record = state.0.clone();
    record.wholes[flag] = value;
    // the numbers of a start or a mark that was not there have any bits
    if state.0.wholes[flag] == 0 {
        let reals = if flag == rattle::GIVEN { 2..4 } else { 7..8 };
        reals.for_each(|i| record.reals[i] = any(rng).to_bits());
    }
    if state.0.wholes[flag] == 0 && flag == rattle::MARKED {
        record.wholes[rattle::MARK_PLACE] = rng.below(3);
        record.wholes[rattle::MARK_NORMS] = rng.pick(&[0, 1, 1, 1, u64::MAX]);
    }
    let all = lengths(&state.1);
    for call in [Call::Advance(1), Call::Advance(u32::MAX), Call::Back(1), Call::Mark, Call::Return] {
        let mut opened = Opened::of(content, record.clone(), state.1.clone());
        let said = returns(&mut opened, call, all, tally).map_err(|why| format!("flag {flag} is {value:x}, {call:?}: {why}"))?;
        if value == state.0.wholes[flag] {
            same("refusal with no flag altered", if call == Call::Return && marked == 0 { 9 } else { 0 }, said)?;
        }
        let mut short = all;
        let i = rng.below(3) as usize;
        short[i] = rng.below(needs(content)[i] as u64) as usize;
        opened = Opened::of(content, record.clone(), state.1.clone());
        same("refusal of too little", Ok(8), returns(&mut opened, call, short, tally))?;
        opened.record.wholes[rng.pick(&[rattle::N, rattle::T, rattle::LIMIT, rattle::ROOM])] = rng.pick(&[MAX_ROOM + 1, 1 << 32, u64::MAX]);
        same("refusal of a count", Ok(10), returns(&mut opened, call, short, tally))?;
    }
    Ok(())
}

// ---- lists too short for a record

/// Every call, the length, every part and opening, with lists of 0 to 16 whole numbers or 0 to 7 reals or both: 8 before anything else, in opening after
/// the sheet's own refusal, and nothing is written.
fn short_lists(rng: &mut Rng, content: &Content, tally: &mut Tally) {
    let mut opened = match somewhere(rng, content) {
        Ok(opened) => opened,
        Err(why) => return tally.note(Err(why)),
    };
    for _ in 0..rng.below(3) {
        alter(rng, &mut opened);
    }
    if rng.one_in(2) {
        opened.record.wholes[rng.pick(&[rattle::N, rattle::PLACE, rattle::GIVEN, rattle::MARKED])] = u64::MAX;
    }
    let wholes = (0..WHOLES).map(|k| [k, REALS]);
    let reals = (0..REALS).map(|k| [WHOLES, k]);
    let both = (0..8).map(|_| [rng.below(WHOLES as u64) as usize, rng.below(REALS as u64) as usize]).collect::<Vec<_>>();
    for places in wholes.chain(reals).chain(both) {
        let lent = any_lent(rng, opened.lengths(), needs(content));
        let verdict = short_list(&mut opened, places, lent, tally).and_then(|()| opens_short(rng, content, places));
        tally.note(verdict.map_err(|why| format!("lists of {places:?}: {why}")));
    }
}

fn short_list(opened: &mut Opened, places: [usize; 2], lent: [usize; 3], tally: &mut Tally) -> Verdict {
    let before = (opened.record.clone(), opened.buffers.clone());
    for call in [Call::Advance(1), Call::Back(1), Call::Mark, Call::Return] {
        let said = rattle::call_on(&mut opened.record, places, call, &mut opened.buffers, lent);
        same("refusal", 8, said)?;
        note(tally, call, said);
        same_all((&before.0, &before.1), (&opened.record, &opened.buffers))?;
    }
    let mut length = [f64::from_bits(PATTERN)];
    same("refusal of the length", 8, rattle::length(&opened.record, places, &opened.buffers, lent, &mut length))?;
    same("the length's list", PATTERN, length[0].to_bits())?;
    for part in PARTS {
        let mut out = [PATTERN; 2];
        same("refusal of a part", 8, rattle::part(part, &opened.record, places, &opened.buffers, lent, &mut out))?;
        same(
            "refusal of a part with one place",
            8,
            rattle::part(part, &opened.record, WHOLE_RECORD, &opened.buffers, lent, &mut out[..1]),
        )?;
        same("refusal of a part with no place", 8, rattle::part(part, &opened.record, WHOLE_RECORD, &opened.buffers, lent, &mut []))?;
        same("the part's list", [PATTERN; 2], out)?;
    }
    let read = SAID.map(|i| if i < places[0] { opened.record.wholes[i] } else { 0 });
    same("place, passes and ends of a short list", read, rattle::said_of(&opened.record, places[0]))?;
    same_all((&before.0, &before.1), (&opened.record, &opened.buffers))
}

fn opens_short(rng: &mut Rng, content: &Content, places: [usize; 2]) -> Verdict {
    let sheet = bytes(content);
    let buffers = lent(rng, content);
    let lent = any_lent(rng, lengths(&buffers), needs(content));
    let cut = rng.below(sheet.len() as u64) as usize;
    for (front, refused) in [(sheet.len(), 8), (cut, crate::reader::read(&sheet[..cut]).err().unwrap())] {
        let (mut record, mut after) = (Record::blank(), buffers.clone());
        same("refusal of opening", refused, rattle::open_on(&mut record, places, &sheet[..front], &mut after, lent))?;
        same_all((&Record::blank(), &buffers), (&record, &after))?;
    }
    Ok(())
}

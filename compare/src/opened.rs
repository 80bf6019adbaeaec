//! A run of the library on buffers of its own, and what it shows, against the uninterrupted run and the counter machine.

use crate::cases::{same, same_bits, same_floats, same_lists, Verdict};
use crate::content::Content;
use crate::floats::{canon, PATTERN};
use crate::machine::{needs, Call, Machine};
use crate::rattle_run as rattle;
use crate::rattle_run::{Buffers, Layout, Part, Record, SAID, WHOLES, WHOLE_RECORD};
use crate::rng::Rng;
use crate::stand_ins::Point;
use crate::uninterrupted::{length, Run, Shown};
use crate::writer::bytes;

/// A record and the buffers, which have a few places more than the run needs.
pub struct Opened {
    pub record: Record,
    pub buffers: Buffers,
    pub layout: Layout,
    needs: [usize; 3],
    /// what stood past the needed space
    past: Buffers,
}

/// What stands behind the first places of the buffers.
pub fn behind(b: &Buffers, places: [usize; 3]) -> Buffers {
    Buffers { floats: b.floats[places[0]..].to_vec(), words: b.words[places[1]..].to_vec(), path: b.path[places[2]..].to_vec() }
}

/// Buffers that have what a content needs and a few places more, with anything in them.
pub fn lent(rng: &mut Rng, content: &Content) -> Buffers {
    let [floats, words, path] = needs(content).map(|k| k + rng.below(4) as usize);
    Buffers {
        floats: (0..floats).map(|_| anything(rng)).collect(),
        words: (0..words).map(|_| rng.next() as u32).collect(),
        path: (0..path).map(|_| anything(rng)).collect(),
    }
}

/// A number, or one time in eight a NaN with a payload.
fn anything(rng: &mut Rng) -> f64 {
    match rng.next() {
        k if k % 8 == 0 => f64::from_bits(k | 0x7ff0_0000_0000_0001),
        k => k as f64,
    }
}

pub fn lengths(b: &Buffers) -> [usize; 3] {
    [b.floats.len(), b.words.len(), b.path.len()]
}

/// Bit for bit, NaNs too: what a refusal and the places past the needed space owe.
pub fn same_buffers(ours: &Buffers, theirs: &Buffers) -> Verdict {
    same_bits("floats", &ours.floats, &theirs.floats)?;
    same_lists("words", &ours.words, &theirs.words)?;
    same_bits("floats of the path", &ours.path, &theirs.path)
}

/// Where any NaN counts as any other.
pub fn alike_buffers(ours: &Buffers, theirs: &Buffers) -> Verdict {
    same_floats("floats", &ours.floats, &theirs.floats)?;
    same_lists("words", &ours.words, &theirs.words)?;
    same_floats("floats of the path", &ours.path, &theirs.path)
}

/// Record and buffers are, bit for bit, as they were before a refusal.
pub fn same_all(before: (&Record, &Buffers), after: (&Record, &Buffers)) -> Verdict {
    same("the record after a refusal", before.0, after.0)?;
    same_buffers(before.1, after.1)
}

/// Opening is refused where one buffer is too short, and by the sheet's refusal before that, and every lent place is as it was.
pub fn refuses(rng: &mut Rng, content: &Content) -> Verdict {
    let mut sheet = bytes(content);
    let mut buffers = lent(rng, content);
    let before = (Record::blank(), buffers.clone());
    let mut record = Record::blank();
    let mut short = lengths(&buffers);
    let i = rng.below(3) as usize;
    let less = rng.below(needs(content)[i] as u64) as usize;
    short[i] = rng.pick(&[needs(content)[i] - 1, less]);
    same("opening with too little space", 8, rattle::open_on(&mut record, WHOLE_RECORD, &sheet, &mut buffers, short))?;
    same_all((&before.0, &before.1), (&record, &buffers))?;
    sheet.push(0);
    same("opening a sheet that is too long", 1, rattle::open_on(&mut record, WHOLE_RECORD, &sheet, &mut buffers, short))?;
    same_all((&before.0, &before.1), (&record, &buffers))
}

impl Opened {
    pub fn new(rng: &mut Rng, content: &Content) -> Result<Opened, String> {
        let needs = needs(content);
        let mut buffers = lent(rng, content);
        let past = behind(&buffers, needs);
        let all = lengths(&buffers);
        let record = rattle::open(&bytes(content), &mut buffers, all).map_err(|k| format!("opening is refused with {k}"))?;
        let layout = rattle::layout(content.n(), content.t());
        Ok(Opened { record, buffers, layout, needs, past })
    }

    /// A record and buffers that a content's run has been brought to.
    pub fn of(content: &Content, record: Record, buffers: Buffers) -> Opened {
        let needs = needs(content);
        let past = behind(&buffers, needs);
        Opened { record, buffers, layout: rattle::layout(content.n(), content.t()), needs, past }
    }

    pub fn lengths(&self) -> [usize; 3] {
        lengths(&self.buffers)
    }

    /// A call on all of the buffers.
    pub fn call(&mut self, call: Call) -> u32 {
        let lent = self.lengths();
        rattle::call(&mut self.record, call, &mut self.buffers, lent)
    }

    /// A call that the machine makes too, lent no more than so much: the refusal is the machine's, and what is refused changes nothing.
    pub fn call_with(&mut self, machine: &mut Machine, call: Call, lent: [usize; 3]) -> Result<u32, String> {
        let expected = machine.call(call, lent);
        let before = (expected != 0).then(|| (self.record.clone(), self.buffers.clone()));
        let said = rattle::call(&mut self.record, call, &mut self.buffers, lent);
        same("refusal", expected, said)?;
        if let Some((record, buffers)) = before {
            same_all((&record, &buffers), (&self.record, &self.buffers))?;
        }
        Ok(said)
    }

    /// What document 01 compares at a place, and what was lent past the needed space. Norms and points are filled up with +0.
    pub fn shows(&self, run: &Run, at: Shown) -> Verdict {
        let wholes = &self.record.wholes;
        same("place", at.place as u64, wholes[rattle::PLACE])?;
        same("field end", at.field_end as u64, wholes[rattle::FIELD_END])?;
        same("path end", at.path_end as u64, wholes[rattle::PATH_END])?;
        same("how many norms", at.norms.len() as u64, wholes[rattle::NORMS])?;
        same("how many points", at.points.len() as u64, wholes[rattle::POINTS])?;
        same("place, passes and ends that are said", SAID.map(|i| wholes[i]), rattle::said_of(&self.record, WHOLES))?;
        same_floats("field", at.x, self.part(Part::Field, self.layout.field, at.x.len())?)?;
        same_floats("norms handed out", at.norms, self.part(Part::Norms, self.layout.norms, at.norms.len())?)?;
        let norms = filled_up(at.norms.to_vec(), run.content.settings.limit() + 1);
        same_floats("norms", &norms, &self.buffers.floats[self.layout.norms..][..norms.len()])?;
        let gradients = numbers(at.gradients);
        same_floats("gradients", &gradients, self.part(Part::Gradients, self.layout.gradients, gradients.len())?)?;
        let points = numbers(at.points);
        same_floats("points handed out", &points, self.part(Part::Points, 0, points.len())?)?;
        let path = filled_up(points, 2 * run.room);
        same_floats("path", &path, &self.buffers.path[..path.len()])?;
        same_buffers(&self.past, &behind(&self.buffers, self.needs))
    }

    /// A part that the library hands out, which starts at a place and has so many numbers; one that has none starts at 0.
    fn part(&self, part: Part, from: usize, count: usize) -> Result<&[f64], String> {
        let mut out = [PATTERN; 3];
        same("refusal of a part", 0, rattle::part(part, &self.record, WHOLE_RECORD, &self.buffers, self.lengths(), &mut out))?;
        let from = if count == 0 { 0 } else { from };
        same(&format!("{part:?}, start and count"), [from as u64, count as u64, PATTERN], out)?;
        Ok(&part.buffer(&self.buffers, self.lengths())[from..from + count])
    }

    /// The matrix in the work is the run's.
    pub fn has_matrix(&self, run: &Run) -> Verdict {
        let starts = &self.buffers.words[self.layout.starts..][..run.rows.len() + 1];
        let mut k = 0;
        for (i, row) in run.rows.iter().enumerate() {
            same("row start", k as u32, starts[i])?;
            let (columns, values): (Vec<u32>, Vec<f64>) = row.iter().map(|(j, v)| (*j as u32, *v)).unzip();
            same_lists("columns", &columns, &self.buffers.words[self.layout.columns + k..][..row.len()])?;
            same_floats("values", &values, &self.buffers.floats[self.layout.values + k..][..row.len()])?;
            k += row.len();
        }
        same("end of the rows", k as u32, starts[run.rows.len()])
    }

    /// The length of the path that is there, from the fronts of the buffers: refused with 8 where one is too short, or last where there is no place for
    /// the number. It alters nothing.
    pub fn has_length(&self, at: Shown, lent: [usize; 3]) -> Verdict {
        let short = lent.iter().zip(self.needs).any(|(lent, need)| *lent < need);
        let before = (self.record.clone(), self.buffers.clone());
        same_length(&self.record, &self.buffers, lent, if short { Err(8) } else { Ok(length(at.points)) })?;
        same_all((&before.0, &before.1), (&self.record, &self.buffers))
    }
}

/// The length or the refusal that is expected, from lists of 0 to 2 places for the number.
pub fn same_length(record: &Record, b: &Buffers, lent: [usize; 3], expected: Result<f64, u32>) -> Verdict {
    for places in 0..3 {
        let mut out = [f64::from_bits(PATTERN); 2];
        let said = rattle::length(record, WHOLE_RECORD, b, lent, &mut out[..places]);
        let refused = expected.err().unwrap_or(if places == 0 { 8 } else { 0 });
        same("refusal of the length", refused, said)?;
        let first = match expected {
            Ok(length) if places > 0 => length,
            _ => f64::from_bits(PATTERN),
        };
        same("length", canon(first), canon(out[0]))?;
        let left = if refused == 0 { &out[1..] } else { &out[..] };
        same("whether the rest of the length's list is left", true, left.iter().all(|x| x.to_bits() == PATTERN))?;
    }
    Ok(())
}

fn numbers(points: &[Point]) -> Vec<f64> {
    points.iter().flat_map(|p| [p.x, p.y]).collect()
}

fn filled_up(mut list: Vec<f64>, to: usize) -> Vec<f64> {
    list.resize(to, 0.0);
    list
}

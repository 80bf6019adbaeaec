//! Document 01's samples, of what is written from it here and of the library. S7 is about the square root alone and stands with it.

use crate::cases::{kind, same, Cases, Verdict};
use crate::content::{Content, Settings};
use crate::floats::{canon, power};
use crate::reader::read;
use crate::uninterrupted::{Run, Shown};
use crate::writer::bytes;
use std::fmt::Write;

pub fn samples() -> Cases {
    Cases {
        name: "samples",
        kinds: vec![kind("of document 01", 1, |_, _, tally| {
            for sample in [s1, s2, s3, s4, s5, s6, s8, s9, s10] {
                tally.note(sample());
            }
        })],
        sorts: &[],
    }
}

/// The sheet of S1, section by section.
const S1_SHEET: &str = "03000000 0000000000000000 0000000000000000 0000000000000040 0000000000000000 0000000000000000 0000000000000040 \
    01000000 00000000 01000000 02000000 03000000 ffffffff ffffffff ffffffff 03000000 02 01 00 \
    04000000 03 0000000000007001 04 000000000000e03f 05 000000000000e03f 06 6400000000000000";

const S1_PRINTED: &str = "\
end 3 1 3
u 0000000000000000
u 3ff0000000000000
u 0000000000000000
r 3ff0000000000000
r 0000000000000000
g 3fe0000000000000 0000000000000000
p 3fe0000000000000 3fe0000000000000
p 3fe0000000000000 3fe6666666666666
p 3fe0000000000000 3feccccccccccccd
p 3fe0000000000000 3ff199999999999a
p 3fe0000000000000 3ff4cccccccccccd
";

pub fn s1_content() -> Content {
    Content {
        vertices: vec![0.0, 0.0, 2.0, 0.0, 0.0, 2.0],
        triangles: vec![0, 1, 2],
        neighbours: vec![-1; 3],
        tags: vec![2, 1, 0],
        settings: Settings { step: Some(power(-1000)), x: Some(0.5), y: Some(0.5), room: Some(100), ..Settings::default() },
    }
}

/// S1 with other settings.
fn with(change: fn(&mut Settings)) -> Content {
    let mut content = s1_content();
    change(&mut content.settings);
    content
}

/// What the program `spiral` prints.
fn printed(at: &Shown) -> String {
    let mut out = format!("end {} {} {}\n", at.place, at.field_end, at.path_end);
    at.x.iter().for_each(|x| writeln!(out, "u {:016x}", canon(*x)).unwrap());
    at.norms.iter().for_each(|x| writeln!(out, "r {:016x}", canon(*x)).unwrap());
    at.gradients.iter().for_each(|g| writeln!(out, "g {:016x} {:016x}", canon(g.x), canon(g.y)).unwrap());
    at.points.iter().for_each(|p| writeln!(out, "p {:016x} {:016x}", canon(p.x), canon(p.y)).unwrap());
    out
}

/// The last place of a sheet, at which the library stands too.
fn last(content: &Content, check: impl Fn(&Shown) -> Verdict) -> Verdict {
    let content = read(&bytes(content)).map_err(|k| format!("refused with {k}"))?;
    let run = Run::new(&content);
    let last = run.from(run.start());
    check(&last.shown())?;
    as_library(&run, last.shown())
}

#[cfg(run)]
fn as_library(run: &Run, at: Shown) -> Verdict {
    let mut rng = crate::rng::Rng::new(1, "samples", 0);
    let mut opened = crate::opened::Opened::new(&mut rng, run.content)?;
    same("refusal", 0, opened.call(crate::machine::Call::Advance(u32::MAX)))?;
    opened.shows(run, at)
}

#[cfg(not(run))]
fn as_library(_: &Run, _: Shown) -> Verdict {
    Ok(())
}

fn ends(content: &Content, place: usize, field_end: u32, path_end: u32) -> Verdict {
    last(content, |at| same("place and ends", (place, field_end, path_end), (at.place, at.field_end, at.path_end)))
}

fn refused(content: &Content, number: u32) -> Verdict {
    let sheet = bytes(content);
    #[cfg(sheet)]
    same("the library's refusal", Some(number), crate::rattle_sheet::read(&sheet).err())?;
    same("refusal", Some(number), read(&sheet).err())
}

fn s1() -> Verdict {
    let digits: String = S1_SHEET.split_whitespace().collect();
    let sheet: Vec<u8> = (0..digits.len() / 2).map(|i| u8::from_str_radix(&digits[2 * i..2 * i + 2], 16).unwrap()).collect();
    same("sheet", &sheet, &bytes(&s1_content()))?;
    last(&s1_content(), |at| same("printed", S1_PRINTED, &printed(at)))
}

fn s2() -> Verdict {
    last(&with(|s| s.room = Some(5)), |at| same("printed", S1_PRINTED, &printed(at)))?;
    last(&with(|s| s.room = Some(4)), |at| same("ends and points", (1, 7, 1), (at.field_end, at.path_end, at.points.len())))
}

fn s3() -> Verdict {
    ends(&with(|s| s.limit = Some(0)), 2, 3, 1)
}

fn s4() -> Verdict {
    let content = with(|s| s.tolerance = Some(0.0));
    ends(&content, 4, 2, 3)?;
    last(&content, |at| same("norms", &[1.0, 0.0][..], at.norms))
}

/// Advance 10, back 1, mark, advance 1, return: place 2, passes 4.
#[cfg(run)]
fn s5() -> Verdict {
    use crate::machine::{needs, Machine};
    use crate::machine::Call::{Advance, Back, Mark, Return};
    let content = s1_content();
    let run = Run::new(&content);
    let trace = crate::uninterrupted::Trace::new(&run);
    let mut machine = Machine::new(trace.last(), needs(&content));
    let mut opened = crate::opened::Opened::new(&mut crate::rng::Rng::new(1, "samples", 0), &content)?;
    for call in [Advance(10), Back(1), Mark, Advance(1), Return] {
        let lent = opened.lengths();
        opened.call_with(&mut machine, call, lent)?;
    }
    same("place and passes", (2, 4), (machine.place, machine.passes))?;
    same("the library's passes", 4, opened.record.wholes[crate::rattle_run::PASSES])?;
    opened.shows(&run, trace.at(2))
}

#[cfg(not(run))]
fn s5() -> Verdict {
    Ok(())
}

fn s6() -> Verdict {
    ends(&Content { settings: s1_content().settings, ..Content::default() }, 2, 2, 8)
}

fn s8() -> Verdict {
    let at = |x: f64| {
        let mut content = s1_content();
        (content.settings.x, content.settings.y) = (Some(x), Some(x));
        content
    };
    last(&at(1.0), |at| same("whether the start is accepted", true, at.path_end != 8))?;
    last(&at(3.0), |at| same("path end", 8, at.path_end))?;
    refused(&at(f64::NAN), 6)
}

fn s9() -> Verdict {
    refused(&with(|s| s.step = Some(-0.0)), 7)
}

/// An untagged unused vertex put first, no start.
fn s10() -> Verdict {
    let mut content = with(|s| (s.x, s.y) = (None, None));
    content.vertices.splice(0..0, [0.0, 0.0]);
    content.tags.insert(0, 0);
    content.triangles.iter_mut().for_each(|v| *v += 1);
    last(&content, |at| same("path end", 9, at.path_end))
}

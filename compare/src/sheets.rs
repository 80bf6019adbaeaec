//! Sheets read and written: the library's reader and writer against those written from document 01.

use crate::cases::{kind, same, same_floats, same_lists, Cases, Tally, Verdict};
use crate::content::{Content, Settings, MAX_TRIANGLES, MAX_VERTICES};
use crate::drafts::{beyond, content, content_of, coordinate, damaged, settings, Draft, CONTENT_FAULTS, LENGTH_FAULTS, NANS};
use crate::rattle_sheet as rattle;
use crate::rattle_sheet::Checked;
use crate::reader::read;
use crate::rng::Rng;
use crate::trial::Sort;
use crate::writer::{bytes, check};

const ANSWERS: &[Sort] = &[Sort { what: "answer", classes: &["accepted", "1", "2", "3", "4", "5", "6", "7", "8"] }];

pub fn reading() -> Cases {
    Cases {
        name: "reader of sheets",
        kinds: vec![
            kind("whole, of a few items", 400, |rng, _, tally| each(rng, tally, 50, |rng| bytes(&content(rng, 4, 4)))),
            kind("whole, of up to 300 vertices", 100, |rng, _, tally| each(rng, tally, 20, |rng| bytes(&content(rng, 300, 500)))),
            kind("whole, of up to the most vertices and triangles", 40, |rng, block, tally| {
                each(rng, tally, 1, |rng| greatest(rng, block))
            }),
            kind("of a few items, with one fault", 1000, |rng, _, tally| each(rng, tally, 60, |rng| faulty(rng, 4, 1))),
            kind("of a few items, with two faults", 1000, |rng, _, tally| each(rng, tally, 60, |rng| faulty(rng, 4, 2))),
            kind("of up to 60 items, with one to four faults", 400, |rng, _, tally| {
                each(rng, tally, 40, |rng| {
                    let faults = rng.between(1, 4) as usize;
                    faulty(rng, 60, faults)
                })
            }),
            kind("of up to the most vertices and triangles, with a fault", 40, |rng, _, tally| {
                each(rng, tally, 2, |rng| {
                    let whole = content(rng, MAX_VERTICES, MAX_TRIANGLES);
                    damaged(rng, whole, 1)
                })
            }),
            kind("cut at every place", 100, |rng, _, tally| cut_everywhere(rng, tally)),
            kind("with a NaN, an infinity or a number out of range at every place", 100, |rng, _, tally| wrong_everywhere(rng, tally)),
            kind("with any list of kinds", 400, |rng, _, tally| each(rng, tally, 50, any_kinds)),
            kind("of any bytes", 100, |rng, _, tally| each(rng, tally, 50, any_bytes)),
            kind("with lists too short for a check", 200, |rng, _, tally| checked_short(rng, tally)),
        ],
        sorts: ANSWERS,
    }
}

pub fn writing() -> Cases {
    Cases {
        name: "writer of sheets",
        kinds: vec![
            kind("whole contents", 400, |rng, _, tally| each_content(rng, tally, 25, |rng| content(rng, 20, 30))),
            kind("with one fault", 800, |rng, _, tally| each_content(rng, tally, 25, |rng| spoiled(rng, 1))),
            kind("with two faults", 800, |rng, _, tally| each_content(rng, tally, 25, |rng| spoiled(rng, 2))),
            kind("of about the most vertices and triangles", 40, |rng, block, tally| {
                each_content(rng, tally, 1, |rng| about_the_most(rng, block))
            }),
            kind("with lists too short for settings or the length", 200, |rng, _, tally| written_short(rng, tally)),
        ],
        sorts: ANSWERS,
    }
}

// ---- reading

fn each(rng: &mut Rng, tally: &mut Tally, count: usize, mut make: impl FnMut(&mut Rng) -> Vec<u8>) {
    for _ in 0..count {
        let sheet = make(rng);
        judge(&sheet, tally);
    }
}

fn judge(sheet: &[u8], tally: &mut Tally) {
    let ours = read(sheet);
    tally.counts.note(0, ours.as_ref().map_or_else(|k| *k as usize, |_| 0));
    tally.note(reads(sheet, &ours));
}

fn reads(sheet: &[u8], ours: &Result<Content, u32>) -> Verdict {
    checks(sheet, ours, rattle::CHECKED)?;
    let theirs = rattle::read(sheet);
    same("refusal", ours.as_ref().err(), theirs.as_ref().err())?;
    let (Ok(ours), Ok(theirs)) = (ours, theirs) else {
        return Ok(());
    };
    same_content(ours, &theirs)?;
    let mut out = vec![0; sheet.len()];
    same("bytes written again", Ok(sheet.len()), rattle::write(&theirs, &mut out))?;
    same_lists("bytes written again", sheet, &out)
}

/// A check into lists of so many places: the sheet's refusal, then 8 where one is too short. What is refused writes nothing.
fn checks(sheet: &[u8], ours: &Result<Content, u32>, places: [usize; 3]) -> Verdict {
    let short = places.iter().zip(rattle::CHECKED).any(|(place, need)| *place < need);
    let expected = ours.as_ref().err().copied().unwrap_or(if short { 8 } else { 0 });
    let mut lists = Checked::blank();
    same("refusal of a check", expected, rattle::check(sheet, places, &mut lists))?;
    if expected != 0 {
        return same("lists after a refused check", Checked::blank(), lists);
    }
    same("whether a check leaves the rest of its lists", true, lists.keeps_the_rest())
}

/// Every list by itself with every length that is too short, and all of them at once, for a sheet that is whole or has a fault.
fn checked_short(rng: &mut Rng, tally: &mut Tally) {
    let sheet = if rng.one_in(2) { faulty(rng, 4, 1) } else { bytes(&content(rng, 4, 4)) };
    let ours = read(&sheet);
    for places in too_short(rng, rattle::CHECKED) {
        tally.counts.note(0, ours.as_ref().map_or_else(|k| *k as usize, |_| 8));
        tally.note(checks(&sheet, &ours, places).map_err(|why| format!("lists of {places:?}: {why}")));
    }
    if let Ok(ours) = ours {
        tally.counts.note(0, 0);
        tally.note(left_out(rng, &sheet, &ours));
    }
}

/// Numbers of places that are less than the needs in one list, or in some.
fn too_short(rng: &mut Rng, needs: [usize; 3]) -> Vec<[usize; 3]> {
    let mut all = Vec::new();
    for i in 0..3 {
        for less in 0..needs[i] {
            let mut places = needs;
            places[i] = less;
            all.push(places);
        }
    }
    all.extend((0..4).map(|_| needs.map(|need| rng.below(need as u64) as usize)));
    all
}

/// A vertex and a triangle into lists with fewer places than they have numbers.
fn left_out(rng: &mut Rng, sheet: &[u8], ours: &Content) -> Verdict {
    let (n, t) = (ours.n(), ours.t());
    for places in 0..2 * (n > 0) as usize {
        let i = rng.below(n as u64) as usize;
        let mut expected = [0.0; 2];
        expected[..places].copy_from_slice(&ours.vertices[2 * i..][..places]);
        same_floats("a vertex in few places", &expected, &rattle::vertex(&sheet[4..], i, places))?;
    }
    for places in 0..3 * (t > 0) as usize {
        let i = rng.below(t as u64) as usize;
        let mut expected = [0; 3];
        expected[..places].copy_from_slice(&ours.triangles[3 * i..][..places]);
        same_lists("corners in few places", &expected, &rattle::corners(&sheet[4 + 16 * n + 4..], i, places))?;
    }
    Ok(())
}

fn same_content(ours: &Content, theirs: &Content) -> Verdict {
    same_floats("vertices", &ours.vertices, &theirs.vertices)?;
    same_lists("triangles", &ours.triangles, &theirs.triangles)?;
    same_lists("neighbours", &ours.neighbours, &theirs.neighbours)?;
    same_lists("tags", &ours.tags, &theirs.tags)?;
    same("settings", ours.settings.present(), theirs.settings.present())
}

/// The most vertices, the most triangles, or both.
fn greatest(rng: &mut Rng, block: u64) -> Vec<u8> {
    let n = if block % 3 == 0 { 1 + rng.below(MAX_VERTICES as u64) as usize } else { MAX_VERTICES };
    let t = if block % 3 == 1 { rng.below(MAX_TRIANGLES as u64) as usize } else { MAX_TRIANGLES };
    bytes(&content_of(rng, n, t))
}

fn faulty(rng: &mut Rng, items: usize, faults: usize) -> Vec<u8> {
    let whole = content(rng, items, items);
    damaged(rng, whole, faults)
}

/// A whole sheet and everything it starts with.
fn cut_everywhere(rng: &mut Rng, tally: &mut Tally) {
    let sheet = bytes(&content(rng, 3, 2));
    for end in 0..=sheet.len() {
        judge(&sheet[..end], tally);
    }
}

/// Three vertices and all settings: at each of the ten numbers each NaN and some numbers out of range; what is before and behind may be at fault too.
fn wrong_everywhere(rng: &mut Rng, tally: &mut Tally) {
    let mut whole = content_of(rng, 3, 1);
    whole.settings = Settings {
        limit: Some(rng.below(1000)),
        tolerance: Some(1e-8),
        x: Some(coordinate(rng)),
        y: Some(coordinate(rng)),
        ..settings(rng)
    };
    for place in 0..10 {
        for pattern in NANS.into_iter().chain((0..5).map(|_| beyond(rng).to_bits())) {
            let mut c = whole.clone();
            let s = &mut c.settings;
            let x = match place {
                0..6 => &mut c.vertices[place],
                _ => [&mut s.tolerance, &mut s.step, &mut s.x, &mut s.y][place - 6].as_mut().unwrap(),
            };
            *x = f64::from_bits(pattern);
            judge(&bytes(&c), tally);
        }
    }
}

/// Up to seven settings, mostly of rising kinds, with values that suit most of them.
fn any_kinds(rng: &mut Rng) -> Vec<u8> {
    let mut draft = Draft::new(&content(rng, 2, 1));
    let wild = rng.one_in(2);
    let mut kinds: Vec<u8> = Vec::new();
    for known in 1..=6 {
        if !rng.one_in(4) {
            kinds.push(known);
        }
        if wild && rng.one_in(6) {
            let any = 1 + rng.below(6) as u8;
            kinds.push(rng.pick(&[0, known, 7, 255, any]));
        }
    }
    let section = &mut draft.sections[4];
    section.count = kinds.len() as u32;
    section.items.clear();
    for kind in kinds {
        let suits = if kind == 1 || kind == 6 { 1 + rng.below(1000) } else { 1.0f64.to_bits() };
        let value = if rng.one_in(20) { rng.pick(&[0, u64::MAX, 1 << 63, 1 << 32, f64::INFINITY.to_bits()]) } else { suits };
        section.items.push(kind);
        section.items.extend(value.to_le_bytes());
    }
    draft.bytes()
}

/// Mostly zeros, so that some counts are small.
fn any_bytes(rng: &mut Rng) -> Vec<u8> {
    let most = rng.pick(&[8, 40, 200]);
    let length = rng.below(most);
    let often = rng.pick(&[1, 3, 10]);
    (0..length).map(|_| if rng.one_in(often) { rng.next() as u8 } else { 0 }).collect()
}

// ---- writing

fn each_content(rng: &mut Rng, tally: &mut Tally, count: usize, mut make: impl FnMut(&mut Rng) -> Content) {
    for _ in 0..count {
        let content = make(rng);
        let needed = bytes(&content).len();
        let space = match rng.below(4) {
            0 => needed,
            1 => needed + rng.below(40) as usize,
            2 => needed - 1,
            _ => rng.below(needed as u64 + 1) as usize,
        };
        let ours = check(&content).and(if space < needed { Err(8) } else { Ok(needed) });
        tally.counts.note(0, ours.map_or_else(|k| k as usize, |_| 0));
        let before: Vec<u8> = (0..space).map(|_| rng.next() as u8).collect();
        let presence = rng.pick(&[1, 1, 2, 255, 1 << 32, 1 << 63, u64::MAX]);
        tally.note(writes(&content, ours, presence, rattle::WRITTEN, before));
    }
}

/// Every list by itself with every length that is too short, and all of them at once: 8 before any other refusal.
fn written_short(rng: &mut Rng, tally: &mut Tally) {
    let content = if rng.one_in(2) { spoiled(rng, 1) } else { content(rng, 6, 8) };
    let space = rng.below(2 * bytes(&content).len() as u64) as usize;
    for places in too_short(rng, rattle::WRITTEN) {
        tally.counts.note(0, 8);
        let before = (0..space).map(|_| rng.next() as u8).collect();
        tally.note(writes(&content, Err(8), 1, places, before).map_err(|why| format!("lists of {places:?}: {why}")));
    }
}

/// A presence is any number but 0. What is refused writes nothing.
fn writes(content: &Content, ours: Result<usize, u32>, presence: u64, places: [usize; 3], before: Vec<u8>) -> Verdict {
    let mut out = before.clone();
    let (theirs, left) = rattle::write_on(content, presence, places, &mut out);
    same("length or refusal", ours, theirs)?;
    same("whether the rest of the length's list is left", true, left)?;
    let mut expected = before;
    if let Ok(length) = ours {
        expected[..length].copy_from_slice(&bytes(content));
    }
    same_lists("bytes", &expected, &out)
}

fn spoiled(rng: &mut Rng, faults: usize) -> Content {
    let mut c = content(rng, 6, 8);
    for _ in 0..faults {
        let k = rng.below((CONTENT_FAULTS.len() + LENGTH_FAULTS.len()) as u64) as usize;
        let fault = CONTENT_FAULTS.get(k).copied().unwrap_or_else(|| LENGTH_FAULTS[k - CONTENT_FAULTS.len()]);
        fault(rng, &mut c);
    }
    c
}

/// One vertex or one triangle too many at times, and their lists to suit.
fn about_the_most(rng: &mut Rng, block: u64) -> Content {
    let n = MAX_VERTICES + (block % 4 == 1) as usize;
    let t = MAX_TRIANGLES + (block % 4 == 2) as usize;
    content_of(rng, n, t)
}

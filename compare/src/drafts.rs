//! Sheets of every size, whole and damaged. A fault of a content is a number out of place, which a writer refuses too; a fault of a draft lies in the bytes.

use crate::content::{Content, Settings, MAX_LIMIT, MAX_ROOM, MAX_TRIANGLES, MAX_VERTICES, REACH};
use crate::floats::{any, nudge, scaled, unit};
use crate::rng::Rng;

// ---- whole contents

/// At most n vertices and t triangles. Vertices, neighbours and tags are any that a sheet may have; they need not make a mesh.
pub fn content(rng: &mut Rng, n: usize, t: usize) -> Content {
    let n = rng.below(n as u64 + 1) as usize;
    let t = if n == 0 { 0 } else { rng.below(t as u64 + 1) as usize };
    content_of(rng, n, t)
}

/// Just n vertices and t triangles.
pub fn content_of(rng: &mut Rng, n: usize, t: usize) -> Content {
    Content {
        vertices: (0..2 * n).map(|_| coordinate(rng)).collect(),
        triangles: (0..3 * t).map(|_| rng.below(n as u64) as u32).collect(),
        neighbours: (0..3 * t).map(|_| rng.between(-1, t as i64 - 1) as i32).collect(),
        tags: (0..n).map(|_| rng.below(3) as u8).collect(),
        settings: settings(rng),
    }
}

/// Any number that a coordinate may be: zeros of both signs, subnormals and the ends of the range too.
pub fn coordinate(rng: &mut Rng) -> f64 {
    match rng.below(8) {
        0 => rng.pick(&[0.0, -0.0, REACH, -REACH, f64::from_bits(1), -f64::from_bits(1), f64::MIN_POSITIVE]),
        1 => nudge(rng.pick(&[REACH, -REACH]), rng.between(-2, 2)).clamp(-REACH, REACH),
        2 => scaled(rng, -1022, 19),
        3 => f64::from_bits(any(rng).to_bits() & 0x800f_ffff_ffff_ffff),
        4 => rng.between(-9, 9) as f64,
        _ => unit(rng) * REACH,
    }
}

fn finite(rng: &mut Rng) -> f64 {
    match rng.below(4) {
        0 => rng.pick(&[0.0, -0.0, f64::MAX, f64::MIN, 1e-8, -1.0]),
        1 => scaled(rng, -20, 20),
        _ => scaled(rng, -1022, 1023),
    }
}

fn positive(rng: &mut Rng) -> f64 {
    match rng.below(4) {
        0 => rng.pick(&[f64::from_bits(1), f64::MIN_POSITIVE, f64::MAX, 1.0]),
        _ => finite(rng).abs().max(f64::from_bits(1)),
    }
}

/// A number from low to high, often one at the ends.
fn whole(rng: &mut Rng, low: u64, high: u64) -> u64 {
    match rng.below(4) {
        0 => rng.pick(&[low, low + 1, high - 1, high]),
        1 => low + rng.below(10),
        _ => rng.between(low as i64, high as i64) as u64,
    }
}

/// Settings that a sheet may have.
pub fn settings(rng: &mut Rng) -> Settings {
    let start = rng.one_in(2);
    Settings {
        limit: rng.one_in(2).then(|| whole(rng, 0, MAX_LIMIT)),
        tolerance: rng.one_in(2).then(|| finite(rng)),
        step: Some(positive(rng)),
        x: start.then(|| coordinate(rng)),
        y: start.then(|| coordinate(rng)),
        room: Some(whole(rng, 1, MAX_ROOM)),
    }
}

// ---- faults of a content

/// A fault, which may find nothing to damage.
pub type Fault<T> = fn(&mut Rng, &mut T);

pub const NANS: [u64; 5] = [0x7ff8_0000_0000_0000, 0xfff8_0000_0000_0000, 0x7ff0_0000_0000_0001, 0xfff0_0000_0000_0001, u64::MAX];

/// Numbers that no coordinate may be.
pub fn beyond(rng: &mut Rng) -> f64 {
    match rng.below(4) {
        0 => rng.pick(&[f64::INFINITY, f64::NEG_INFINITY]),
        1 => nudge(rng.pick(&[REACH, -REACH]).copysign(1.0), rng.between(1, 3)) * if rng.one_in(2) { 1.0 } else { -1.0 },
        _ => scaled(rng, 20, 1023),
    }
}

pub fn nan(rng: &mut Rng) -> f64 {
    f64::from_bits(rng.pick(&NANS))
}

/// One element of a list.
fn one<'a, T>(rng: &mut Rng, list: &'a mut [T]) -> Option<&'a mut T> {
    let k = rng.below(list.len().max(1) as u64) as usize;
    list.get_mut(k)
}

/// One of the real settings that are present.
fn one_real<'a>(rng: &mut Rng, s: &'a mut Settings) -> Option<&'a mut f64> {
    let mut present: Vec<&mut f64> = [&mut s.tolerance, &mut s.step, &mut s.x, &mut s.y].into_iter().flatten().collect();
    let k = rng.below(present.len().max(1) as u64) as usize;
    (k < present.len()).then(|| present.swap_remove(k))
}

pub const CONTENT_FAULTS: [Fault<Content>; 13] = [
    |rng, c| {
        let n = c.n() as u32;
        let more = n + rng.below(1 << 20) as u32;
        let wrong = rng.pick(&[n, n + 1, u32::MAX, 1 << 31, more]);
        one(rng, &mut c.triangles).into_iter().for_each(|v| *v = wrong);
    },
    |rng, c| {
        let t = c.t() as i32;
        let less = -2 - rng.below(1 << 20) as i32;
        let wrong = rng.pick(&[t, t + 1, -2, i32::MIN, i32::MAX, less]);
        one(rng, &mut c.neighbours).into_iter().for_each(|k| *k = wrong);
    },
    |rng, c| {
        let wrong = rng.between(3, 255) as u8;
        one(rng, &mut c.tags).into_iter().for_each(|k| *k = wrong);
    },
    |rng, c| {
        let wrong = nan(rng);
        one(rng, &mut c.vertices).into_iter().for_each(|x| *x = wrong);
    },
    |rng, c| {
        let wrong = beyond(rng);
        one(rng, &mut c.vertices).into_iter().for_each(|x| *x = wrong);
    },
    |rng, c| {
        let wrong = nan(rng);
        one_real(rng, &mut c.settings).into_iter().for_each(|x| *x = wrong);
    },
    |rng, c| {
        let wrong = beyond(rng);
        one_real(rng, &mut c.settings).into_iter().for_each(|x| *x = wrong);
    },
    |rng, c| c.settings.step = Some(rng.pick(&[0.0, -0.0, -1.0, -f64::from_bits(1), f64::MIN, f64::NEG_INFINITY])),
    |rng, c| c.settings.limit = Some(rng.pick(&[MAX_LIMIT + 1, 1 << 32, (1 << 32) + 5, 1 << 63, u64::MAX, (7 << 32) + MAX_LIMIT])),
    |rng, c| c.settings.room = Some(rng.pick(&[0, MAX_ROOM + 1, 1 << 32, (1 << 32) + 5, 1 << 63, u64::MAX, (7 << 32) + MAX_ROOM])),
    |_, c| c.settings.step = None,
    |_, c| c.settings.room = None,
    |rng, c| {
        if rng.one_in(2) {
            c.settings.x = None;
            c.settings.y = Some(coordinate(rng));
        } else {
            c.settings.x = Some(coordinate(rng));
            c.settings.y = None;
        }
    },
];

/// Faults that only a content can have: lists whose lengths do not go together, or are too great.
pub const LENGTH_FAULTS: [Fault<Content>; 6] = [
    |rng, c| resize(rng, &mut c.vertices, 2 * MAX_VERTICES, 0.0),
    |rng, c| resize(rng, &mut c.triangles, 3 * MAX_TRIANGLES, 0),
    |rng, c| resize(rng, &mut c.neighbours, 3 * MAX_TRIANGLES, -1),
    |rng, c| resize(rng, &mut c.tags, MAX_VERTICES, 0),
    |rng, c| {
        let n = c.n();
        let k = n + rng.between(-1, 1).max(-(n as i64)) as usize;
        c.vertices.resize(2 * k, 0.0);
    },
    |rng, c| {
        let t = c.t();
        let k = t.wrapping_add_signed(rng.between(-1, 1) as isize).min(t + 1);
        c.triangles.resize(3 * k, 0);
    },
];

/// A few more elements or fewer, seldom about as many as a sheet may have.
fn resize<T: Copy>(rng: &mut Rng, list: &mut Vec<T>, most: usize, with: T) {
    let around = if rng.one_in(40) { most } else { list.len() };
    list.resize((around as i64 + rng.between(-3, 3)).max(0) as usize, with);
}

// ---- drafts: the sections of a sheet as bytes

pub struct Section {
    pub count: u32,
    /// bytes of an item
    pub size: usize,
    pub items: Vec<u8>,
}

pub struct Draft {
    pub sections: [Section; 5],
    /// bytes behind section 5
    pub tail: Vec<u8>,
    /// the sheet stops after so many bytes of a section
    pub end: Option<(usize, usize)>,
}

impl Draft {
    pub fn new(c: &Content) -> Draft {
        let section = |count: usize, size: usize, items: Vec<u8>| Section { count: count as u32, size, items };
        let present = c.settings.present();
        let setting = |(kind, value): (u8, u64)| std::iter::once(kind).chain(value.to_le_bytes());
        Draft {
            sections: [
                section(c.n(), 16, c.vertices.iter().flat_map(|x| x.to_le_bytes()).collect()),
                section(c.t(), 12, c.triangles.iter().flat_map(|v| v.to_le_bytes()).collect()),
                section(c.neighbours.len(), 4, c.neighbours.iter().flat_map(|k| k.to_le_bytes()).collect()),
                section(c.tags.len(), 1, c.tags.clone()),
                section(present.len(), 9, present.into_iter().flat_map(setting).collect()),
            ],
            tail: Vec::new(),
            end: None,
        }
    }

    pub fn bytes(&self) -> Vec<u8> {
        let mut out = Vec::new();
        for (i, section) in self.sections.iter().enumerate() {
            let from = out.len();
            out.extend(section.count.to_le_bytes());
            out.extend(&section.items);
            if let Some((_, length)) = self.end.filter(|(of, _)| *of == i) {
                out.truncate(from + length);
                return out;
            }
        }
        out.extend(&self.tail);
        out
    }
}

/// Places of a section at which it is cut: in its count, behind it, in an item, between two items.
fn cut(rng: &mut Rng, d: &mut Draft) {
    let i = rng.below(5) as usize;
    let s = &d.sections[i];
    let whole = rng.below((s.items.len() / s.size) as u64 + 1) as usize;
    let length = match rng.below(4) {
        0 => rng.below(4) as usize,
        1 => 4,
        2 => 4 + s.size * whole,
        _ => 4 + rng.below(s.items.len() as u64 + 1) as usize,
    };
    d.end = Some((i, length));
}

fn tail(rng: &mut Rng, d: &mut Draft) {
    let any = 1 + rng.below(20);
    let k = rng.pick(&[1, 2, 9, any]);
    d.tail = (0..k).map(|_| if rng.one_in(2) { 0 } else { rng.next() as u8 }).collect();
}

/// A count over its limit; the items stay, seldom as many as the count says.
fn count_over(rng: &mut Rng, d: &mut Draft) {
    let (i, most) = rng.pick(&[(0, MAX_VERTICES as u32), (1, MAX_TRIANGLES as u32), (4, 6)]);
    let s = &mut d.sections[i];
    let any = most + 1 + rng.below(1000) as u32;
    s.count = rng.pick(&[most + 1, most + 2, 1 << 16, 1 << 31, u32::MAX, any]);
    if s.count < most + 1000 && rng.one_in(20) {
        s.items.resize(s.size * s.count as usize, 0);
    }
}

/// A count that is not the section's, the items as they were or as many as it says.
fn count_unlike(rng: &mut Rng, d: &mut Draft) {
    let i = rng.below(5) as usize;
    let s = &mut d.sections[i];
    let near = (s.count as i64 + rng.pick(&[-3, -2, -1, 1, 2, 3])).max(0) as u32;
    s.count = rng.pick(&[near, near, 0, s.count / 3, 3 * (s.count % 10000), u32::MAX]);
    if s.count < 1000 && rng.one_in(2) {
        s.items.resize(s.size * s.count as usize, 0);
    }
}

/// Kinds unknown, repeated or falling.
fn kinds(rng: &mut Rng, d: &mut Draft) {
    let s = &mut d.sections[4];
    let m = s.items.len() / 9;
    if m == 0 {
        return;
    }
    let (i, j) = (rng.below(m as u64) as usize, rng.below(m as u64) as usize);
    match rng.below(4) {
        0 => s.items[9 * i] = rng.pick(&[0, 7, 8, 128, 255]),
        1 => s.items[9 * i] = s.items[9 * j],
        2 => (0..9).for_each(|b| s.items.swap(9 * i + b, 9 * j + b)),
        _ => s.items[9 * i] = 1 + rng.below(6) as u8,
    }
}

fn changed_byte(rng: &mut Rng, d: &mut Draft) {
    let i = rng.below(5) as usize;
    let s = &mut d.sections[i];
    let bit = rng.below(32);
    let wrong = rng.next() as u8;
    match one(rng, &mut s.items) {
        None => s.count ^= 1 << bit,
        Some(byte) => *byte = wrong,
    }
}

pub const DRAFT_FAULTS: [Fault<Draft>; 6] = [cut, tail, count_over, count_unlike, kinds, changed_byte];

/// A content with so many faults, of either sort, as bytes.
pub fn damaged(rng: &mut Rng, mut content: Content, faults: usize) -> Vec<u8> {
    let mut of_draft = Vec::new();
    for _ in 0..faults {
        let k = rng.below((CONTENT_FAULTS.len() + 2 * DRAFT_FAULTS.len()) as u64) as usize;
        match CONTENT_FAULTS.get(k) {
            Some(fault) => fault(rng, &mut content),
            None => of_draft.push(DRAFT_FAULTS[k % DRAFT_FAULTS.len()]),
        }
    }
    let mut draft = Draft::new(&content);
    for fault in of_draft {
        fault(rng, &mut draft);
    }
    draft.bytes()
}

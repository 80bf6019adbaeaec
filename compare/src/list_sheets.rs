//! A fixed list of sheets and of contents to write, with the answers of the reader and the writer written from document 01, for a Rattle program
//! that replays it without Rust (crates/replay_sheets).

use crate::content::{Content, Settings, MAX_LIMIT, MAX_ROOM, MAX_TRIANGLES, MAX_VERTICES, REACH};
use crate::drafts::Draft;
use crate::reader::read;
use crate::writer::{bytes, check};

/// A sheet, the number that is told of it, 0 for none, and the number of a second fault that is not told, 0 for none.
struct Listed {
    sheet: Vec<u8>,
    told: u32,
    other: u32,
}

fn base() -> Content {
    Content {
        vertices: vec![0.5, -0.0, 3.0, 0.25, -1.5, 2.0],
        triangles: vec![0, 1, 2],
        neighbours: vec![-1, 0, -1],
        tags: vec![1, 2, 0],
        settings: Settings { limit: Some(40), tolerance: Some(1e-6), step: Some(0.125), x: Some(0.5), y: Some(0.75), room: Some(60) },
    }
}

fn told(sheet: &[u8]) -> u32 {
    read(sheet).err().unwrap_or(0)
}

// ---- whole sheets

/// Contents at the ends of their ranges, with settings absent, and with nothing but what has to be.
fn whole() -> Vec<Content> {
    let changed = |change: fn(&mut Content)| {
        let mut c = base();
        change(&mut c);
        c
    };
    vec![
        base(),
        changed(|c| c.vertices = vec![REACH, -REACH, f64::from_bits(1), -f64::from_bits(1), -0.0, 0.0]),
        changed(|c| c.triangles = vec![2, 2, 2]),
        changed(|c| c.tags = vec![2, 2, 2]),
        changed(|c| c.settings.limit = Some(0)),
        changed(|c| c.settings.limit = Some(MAX_LIMIT)),
        changed(|c| c.settings.tolerance = Some(-f64::MAX)),
        changed(|c| c.settings.step = Some(f64::from_bits(1))),
        changed(|c| (c.settings.x, c.settings.y) = (Some(-REACH), Some(-0.0))),
        changed(|c| c.settings.room = Some(1)),
        changed(|c| c.settings.room = Some(MAX_ROOM)),
        changed(|c| c.settings.limit = None),
        changed(|c| c.settings.tolerance = None),
        changed(|c| (c.settings.x, c.settings.y) = (None, None)),
        Content { settings: base().settings, ..Content::default() },
        Content { settings: Settings { step: Some(1.0), room: Some(1), ..Settings::default() }, ..Content::default() },
    ]
}

// ---- faults

type Fault = Box<dyn Fn(&mut Draft)>;

/// Of two ends the first.
fn cut(section: usize, length: usize) -> Fault {
    Box::new(move |d| d.end = Some(d.end.map_or((section, length), |end| end.min((section, length)))))
}

fn count(section: usize, count: usize) -> Fault {
    Box::new(move |d| d.sections[section].count = count as u32)
}

fn bytes_at(section: usize, at: usize, bytes: impl AsRef<[u8]> + 'static) -> Fault {
    Box::new(move |d| {
        let bytes = bytes.as_ref();
        if let Some(place) = d.sections[section].items.get_mut(at..at + bytes.len()) {
            place.copy_from_slice(bytes);
        }
    })
}

fn coordinate(i: usize, x: f64) -> Fault {
    bytes_at(0, 8 * i, x.to_le_bytes())
}

fn number(section: usize, i: usize, v: u32) -> Fault {
    bytes_at(section, 4 * i, v.to_le_bytes())
}

/// The kind of the i-th setting.
fn kind(i: usize, kind: u8) -> Fault {
    bytes_at(4, 9 * i, [kind])
}

fn whole_value(i: usize, v: u64) -> Fault {
    bytes_at(4, 9 * i + 1, v.to_le_bytes())
}

fn real_value(i: usize, x: f64) -> Fault {
    whole_value(i, x.to_bits())
}

fn absent(kind: u8) -> Fault {
    Box::new(move |d| {
        let s = &mut d.sections[4];
        let left: Vec<u8> = s.items.chunks(9).filter(|item| item[0] != kind).flatten().copied().collect();
        s.count -= (s.items.len() - left.len()) as u32 / 9;
        s.items = left;
    })
}

/// The faults, in an order in which each leaves those before it.
fn faults() -> Vec<Fault> {
    let mut all = vec![absent(3), absent(6), absent(4), absent(5)];
    all.extend([coordinate(1, f64::NAN), coordinate(5, f64::NAN), coordinate(1, f64::INFINITY), coordinate(5, f64::NEG_INFINITY)]);
    all.extend([coordinate(0, -REACH - 1.0), coordinate(4, f64::from_bits(REACH.to_bits() + 1))]);
    all.extend([number(1, 0, 3), number(1, 2, u32::MAX), number(2, 0, 1), number(2, 2, -2i32 as u32)]);
    all.extend([bytes_at(3, 0, [3]), bytes_at(3, 2, [255])]);
    all.extend([kind(0, 0), kind(1, 1), kind(3, 2), kind(5, 7), kind(5, 255)]);
    all.extend([real_value(1, f64::NAN), real_value(2, f64::NAN), real_value(3, f64::NAN), real_value(4, f64::NAN)]);
    all.extend([
        whole_value(0, MAX_LIMIT + 1),
        whole_value(0, (1 << 32) + 5),
        real_value(1, f64::INFINITY),
        real_value(2, 0.0),
        real_value(2, -1.0),
    ]);
    all.extend([
        real_value(3, f64::NEG_INFINITY),
        real_value(4, 2.0 * REACH),
        whole_value(5, 0),
        whole_value(5, MAX_ROOM + 1),
        whole_value(5, (1 << 32) + 5),
    ]);
    all.extend([count(0, MAX_VERTICES), count(0, MAX_VERTICES + 1), count(1, MAX_TRIANGLES), count(1, MAX_TRIANGLES + 1)]);
    all.extend([count(2, 2), count(2, 4), count(3, 2), count(3, 1 << 31), count(4, 7), count(4, u32::MAX as usize)]);
    all.push(Box::new(|d| d.tail = vec![0]));
    for (section, items) in [16 * 3, 12, 4 * 3, 3, 9 * 6].into_iter().enumerate() {
        all.extend([cut(section, 0), cut(section, 2), cut(section, 4), cut(section, 4 + items - 1)]);
    }
    all
}

fn with(faults: &[&Fault]) -> Vec<u8> {
    let mut draft = Draft::new(&base());
    faults.iter().for_each(|fault| fault(&mut draft));
    draft.bytes()
}

/// How many sheets are listed at most with the same two numbers told in the same order.
const EACH: usize = 4;

/// Whole sheets, each fault alone, and two faults with different numbers.
fn sheets() -> Vec<Listed> {
    let mut all: Vec<Listed> = whole().iter().map(bytes).map(|sheet| Listed { told: told(&sheet), sheet, other: 0 }).collect();
    let faults = faults();
    let alone: Vec<Vec<u8>> = faults.iter().map(|fault| with(&[fault])).collect();
    all.extend(alone.iter().map(|sheet| Listed { sheet: sheet.clone(), told: told(sheet), other: 0 }));
    for (i, first) in faults.iter().enumerate() {
        for (j, second) in faults.iter().enumerate().skip(i + 1) {
            let sheet = with(&[first, second]);
            let (a, b) = (told(&alone[i]), told(&alone[j]));
            let told = told(&sheet);
            let new = all.iter().filter(|l| (l.told, l.other) == (told, a + b - told)).count() < EACH;
            if a != b && (told == a || told == b) && sheet != alone[i] && sheet != alone[j] && new {
                all.push(Listed { sheet, told, other: a + b - told });
            }
        }
    }
    all
}

/// Every two numbers are told in either order, but that no 2, 3 or 4 stands behind a 5.
fn covers(all: &[Listed]) -> bool {
    let has = |a, b| all.iter().any(|l| (l.told, l.other) == (a, b));
    (0..=7).all(|a| has(a, 0)) && (1..=7).all(|a| (1..=7).all(|b| a == b || has(a, b) != (a == 5 && (2..=4).contains(&b))))
}

// ---- contents to write

/// A content spoiled so that the number refuses it; crates/replay_sheets spoils it alike.
fn spoil(c: &mut Content, number: u32) {
    match number {
        3 => drop(c.neighbours.pop()),
        4 => c.tags[0] = 3,
        5 => c.settings.room = None,
        6 => c.vertices[2] = f64::NAN,
        7 => c.vertices[1] = f64::INFINITY,
        _ => {}
    }
}

/// The answer, two spoilings, and the space that is lent.
fn writes() -> Vec<[u32; 4]> {
    const SPOILINGS: [u32; 6] = [0, 3, 4, 5, 6, 7];
    let length = bytes(&base()).len() as u32;
    let mut all = Vec::new();
    for (i, a) in SPOILINGS.into_iter().enumerate() {
        for b in SPOILINGS.into_iter().skip(i + 1).chain((a == 0).then_some(0)) {
            let mut c = base();
            spoil(&mut c, a);
            spoil(&mut c, b);
            let refused = check(&c).err();
            for space in [length + 3, length, length - 1, 0] {
                let short = if space < length { 8 } else { 0 };
                all.push([refused.unwrap_or(short), a, b, space]);
            }
        }
    }
    all
}

// ---- the tables

/// Place × 256 + byte for each byte that is not the base's, or behind the base not 0.
fn changes(base: &[u8], sheet: &[u8]) -> Vec<u32> {
    let old = base.iter().copied().chain(std::iter::repeat(0));
    let changed = sheet.iter().zip(old).enumerate().filter(|(_, (new, old))| *new != old);
    changed.map(|(place, (new, _))| 256 * place as u32 + *new as u32).collect()
}

fn table<T: std::fmt::Display>(name: &str, of: &str, all: &[T]) {
    println!("pub const {name}: [{of}; {}] = [", all.len());
    let mut line = String::from("   ");
    for x in all {
        let word = format!(" {x},");
        if line.len() + word.len() > 99 {
            println!("{line}");
            line.truncate(3);
        }
        line.push_str(&word);
    }
    println!("{line}\n];");
}

/// Prints the list as the tables of a Rattle program, in the layout of rt fmt.
pub fn print() {
    let all = sheets();
    assert!(covers(&all), "a number or an order of two is missing");
    let base = bytes(&base());
    println!("// Sheets and contents, and what answers them. `compare/run --list-sheets` printed this file: the answers are those of the reader and the");
    println!("// writer that are written from document 01 in Rust. Each number from 1 to 7 is there alone, and every two of them in either order, but");
    println!("// that no 2, 3 or 4 can stand behind a 5.");
    println!("\n// a whole sheet");
    table("BASE", "u8", &base);
    println!(
        "\n// {} sheets: the answer, 0 where it is accepted; its length; how many changes of the base; place * 256 + byte for each",
        all.len()
    );
    let row = |l: &Listed| {
        let changes = changes(&base, &l.sheet);
        [vec![l.told, l.sheet.len() as u32, changes.len() as u32], changes].concat()
    };
    table("SHEETS", "u32", &all.iter().flat_map(row).collect::<Vec<u32>>());
    let writes = writes();
    println!("\n// {} contents: the answer, 0 where it is written; two numbers that it is spoiled by, 0 for none; the space", writes.len());
    println!("pub const WRITES: [[u32; 4]; {}] = [", writes.len());
    for row in &writes {
        println!("    {row:?},");
    }
    println!("];");
}

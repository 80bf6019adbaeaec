//! Sheets with lists of calls for the program crates/replay_runs, and the lines that it has to print: of the counter machine, and of the uninterrupted run,
//! which is held to the original first.

use crate::content::{Content, Settings};
use crate::fields;
use crate::floats::canon;
use crate::machine::{any_call, any_lent, needs, Call, Machine};
use crate::meshes::{changed, cut_ring, fan, few, grid, heap, near_tiny, needles, ring, strip, Make};
use crate::near_misses;
use crate::paths::{self, tracing};
use crate::reader::read;
use crate::rng::Rng;
use crate::samples::s1_content;
use crate::stand_ins::Point;
use crate::uninterrupted::{Run, Shown, Trace};
use crate::writer::bytes;
use std::fmt::Write;

/// The buffers of the program: floats, words and floats of the path.
const LENT: [usize; 3] = [4096, 4096, 1024];

/// A call, and how much it is lent.
type Lent = (Call, [usize; 3]);

struct Case {
    sheet: Vec<u8>,
    calls: Vec<Lent>,
}

/// All that there is.
const ALL: [usize; 3] = [u32::MAX as usize; 3];

/// A sheet whose run goes to its last place.
fn to_the_end(sheet: Vec<u8>) -> Case {
    Case { sheet, calls: vec![(Call::Advance(u32::MAX), ALL)] }
}

// ---- the lines

fn digest(list: impl Iterator<Item = f64>) -> u64 {
    list.fold(0u64, |digest, x| digest.rotate_left(5) ^ canon(x))
}

fn numbers(points: &[Point]) -> impl Iterator<Item = f64> + '_ {
    points.iter().flat_map(|p| [p.x, p.y])
}

/// The uninterrupted run is the original's, as far as that goes.
fn held_to_the_original(content: &Content) {
    let run = Run::new(content);
    let solved = run.solved();
    let last = run.from(solved.clone());
    let free = paths::with_room_enough(content, solved.clone());
    let verdict = fields::as_original(content, &run, &solved).and_then(|()| paths::as_original(&run, &last, &free));
    verdict.expect("the uninterrupted run and the original agree");
}

fn shown(at: &Shown, passes: u64, said: &[u32]) -> String {
    let mut out = format!("place {} passes {passes} ends {} {}", at.place, at.field_end, at.path_end);
    write!(out, " norms {} points {} said", at.norms.len(), at.points.len()).unwrap();
    said.iter().for_each(|k| write!(out, " {k}").unwrap());
    let digests = [
        digest(at.x.iter().copied()),
        digest(at.norms.iter().copied()),
        digest(numbers(at.gradients)),
        digest(numbers(at.points)),
    ];
    digests.iter().for_each(|d| write!(out, " {d:016x}").unwrap());
    out
}

fn line(case: &Case) -> String {
    let content = match read(&case.sheet) {
        Ok(content) => content,
        Err(k) => return format!("refused {k}"),
    };
    if needs(&content).iter().zip(LENT).any(|(need, lent)| *need > lent) {
        return "refused 8".to_string();
    }
    held_to_the_original(&content);
    let run = Run::new(&content);
    let trace = Trace::new(&run);
    let mut machine = Machine::new(trace.last(), needs(&content));
    let mut made = |(call, lent): &Lent| machine.call(*call, [0, 1, 2].map(|i| lent[i].min(LENT[i])));
    let said: Vec<u32> = case.calls.iter().map(&mut made).collect();
    shown(&trace.at(machine.place), machine.passes, &said)
}

// ---- the cases

fn with(change: impl Fn(&mut Content)) -> Case {
    let mut content = s1_content();
    change(&mut content);
    to_the_end(bytes(&content))
}

/// Document 01's samples that are about sheets, S1 first.
fn samples() -> Vec<Case> {
    let at = |x: f64| with(move |c| (c.settings.x, c.settings.y) = (Some(x), Some(x)));
    let s5 = [Call::Advance(10), Call::Back(1), Call::Mark, Call::Advance(1), Call::Return];
    vec![
        with(|_| ()),
        with(|c| c.settings.room = Some(5)),
        with(|c| c.settings.room = Some(4)),
        with(|c| c.settings.limit = Some(0)),
        with(|c| c.settings.tolerance = Some(0.0)),
        Case { sheet: bytes(&s1_content()), calls: s5.map(|call| (call, ALL)).to_vec() },
        with(|c| *c = Content { settings: c.settings, ..Content::default() }),
        at(1.0),
        at(3.0),
        at(f64::NAN),
        with(|c| c.settings.step = Some(-0.0)),
        with(|c| {
            (c.settings.x, c.settings.y) = (None, None);
            c.vertices.splice(0..0, [0.0, 0.0]);
            c.tags.insert(0, 0);
            c.triangles.iter_mut().for_each(|v| *v += 1);
        }),
    ]
}

/// S1 with something wrong: cut short, a byte too long, each section at fault, more space needed than there is.
fn refused() -> Vec<Case> {
    let sheet = bytes(&s1_content());
    let mut all: Vec<Case> = [1, 3, 30, sheet.len() - 1].iter().map(|k| to_the_end(sheet[..*k].to_vec())).collect();
    all.push(to_the_end([&sheet[..], &[0]].concat()));
    all.push(to_the_end([&5000u32.to_le_bytes(), &sheet[4..]].concat()));
    all.extend([
        with(|c| c.neighbours.truncate(2)),
        with(|c| c.triangles[1] = 3),
        with(|c| c.neighbours[2] = 1),
        with(|c| c.tags[0] = 3),
        with(|c| c.settings.step = None),
        with(|c| c.settings.x = None),
        with(|c| c.settings.tolerance = Some(f64::INFINITY)),
        with(|c| c.settings.limit = Some(100_001)),
        with(|c| c.settings.limit = Some(4096)),
        with(|c| c.settings.room = Some(513)),
    ]);
    all
}

const MAKERS: [Make; 9] = [ring, cut_ring, grid, fan, strip, needles, near_tiny, heap, few];

/// How many sheets there are of each path end, and how long a sheet may be.
const EACH_END: usize = 38;
const MOST_BYTES: usize = 620;

/// Small sheets of every kind; each path end is taken until there are enough.
fn small(seed: u64) -> Vec<Case> {
    let mut all = Vec::new();
    let mut ends = [0; 10];
    for block in 0.. {
        if ends[1..].iter().all(|k| *k == EACH_END) {
            break;
        }
        let mut rng = Rng::new(seed, "replayed sheets", block);
        let content = small_content(&mut rng, MAKERS[block as usize % MAKERS.len()]);
        let sheet = bytes(&content);
        let run = Run::new(&content);
        if sheet.len() > MOST_BYTES || needs(&content).iter().zip(LENT).any(|(need, lent)| *need > lent) {
            continue;
        }
        let trace = Trace::new(&run);
        let end = trace.at(trace.last()).path_end as usize;
        if ends[end] == EACH_END || too_long(&content) {
            continue;
        }
        ends[end] += 1;
        let calls = if rng.one_in(4) { any_calls(&mut rng, &content, trace.last()) } else { vec![(Call::Advance(u32::MAX), ALL)] };
        all.push(Case { sheet, calls });
    }
    all
}

fn small_content(rng: &mut Rng, make: Make) -> Content {
    let mut content = make(rng);
    changed(rng, &mut content);
    let with = fields::solving(rng);
    let (settings, _) = tracing(rng, &content, with);
    let room = settings.room.map(|room| 1 + (room - 1) % LENT[2] as u64 / 2);
    content.settings = Settings { room, ..settings };
    content
}

/// Whether the original would put down too many points.
fn too_long(content: &Content) -> bool {
    paths::with_room_enough(content, Run::new(content).start()).path_end == 7
}

fn any_calls(rng: &mut Rng, content: &Content, last: usize) -> Vec<Lent> {
    let one = |rng: &mut Rng| (any_call(rng, last), any_lent(rng, LENT, needs(content)));
    (0..rng.between(2, 12)).map(|_| one(rng)).collect()
}

pub fn write(folder: &str, seed: u64) {
    let mut all = samples();
    all.extend(near_misses::ALL.iter().map(|make| to_the_end(bytes(&make()))));
    all.extend(refused());
    all.extend(small(seed));
    let (mut input, mut output) = (Vec::new(), String::new());
    let mut any = 1usize;
    for case in &all {
        let mut number = |k: usize| input.extend((k as u32).to_le_bytes());
        number(case.sheet.len());
        input.extend(&case.sheet);
        let mut number = |k: usize| input.extend((k as u32).to_le_bytes());
        number(case.calls.len());
        for (call, lent) in &case.calls {
            // no call looks at its third number
            any = (any * 1_103_515_245 + 12_345) % 4_294_967_296;
            call.numbers().iter().for_each(|k| number(*k as usize));
            number(any);
            lent.iter().for_each(|k| number(*k));
        }
        writeln!(output, "{}", line(case)).unwrap();
    }
    std::fs::write(format!("{folder}/stdin"), &input).expect("the folder takes stdin");
    std::fs::write(format!("{folder}/stdout"), &output).expect("the folder takes stdout");
    println!("{} sheets, {} bytes of input, {} bytes of lines", all.len(), input.len(), output.len());
}

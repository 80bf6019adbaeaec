//! The Rattle run, by the C names of crates/cintrok. No struct or enum crosses the border: a record is a list of whole numbers and one of reals.

use crate::floats::{canon, PATTERN};
use crate::machine::Call;

mod exported {
    extern "C" {
        pub fn cintrok_raw_open(
            sheet: *const u8,
            sheet_len: usize,
            floats: *mut f64,
            floats_len: usize,
            words: *mut u32,
            words_len: usize,
            path: *mut f64,
            path_len: usize,
            wholes: *mut u64,
            wholes_len: usize,
            reals: *mut f64,
            reals_len: usize,
        ) -> u32;
        pub fn cintrok_raw_advance(
            k: u32,
            floats: *mut f64,
            floats_len: usize,
            words: *const u32,
            words_len: usize,
            path: *mut f64,
            path_len: usize,
            wholes: *mut u64,
            wholes_len: usize,
            reals: *mut f64,
            reals_len: usize,
        ) -> u32;
        pub fn cintrok_raw_back(
            k: u32,
            floats: *mut f64,
            floats_len: usize,
            words: *const u32,
            words_len: usize,
            path: *mut f64,
            path_len: usize,
            wholes: *mut u64,
            wholes_len: usize,
            reals: *mut f64,
            reals_len: usize,
        ) -> u32;
        pub fn cintrok_raw_mark(
            floats: *mut f64,
            floats_len: usize,
            words: *const u32,
            words_len: usize,
            path: *mut f64,
            path_len: usize,
            wholes: *mut u64,
            wholes_len: usize,
            reals: *mut f64,
            reals_len: usize,
        ) -> u32;
        pub fn cintrok_raw_return(
            floats: *mut f64,
            floats_len: usize,
            words: *const u32,
            words_len: usize,
            path: *mut f64,
            path_len: usize,
            wholes: *mut u64,
            wholes_len: usize,
            reals: *mut f64,
            reals_len: usize,
        ) -> u32;
        pub fn cintrok_raw_length(
            floats: *const f64,
            floats_len: usize,
            words: *const u32,
            words_len: usize,
            path: *const f64,
            path_len: usize,
            wholes: *const u64,
            wholes_len: usize,
            reals: *const f64,
            reals_len: usize,
            out: *mut f64,
            out_len: usize,
        ) -> u32;
        pub fn cintrok_raw_place(wholes: *const u64, wholes_len: usize) -> u64;
        pub fn cintrok_raw_passes(wholes: *const u64, wholes_len: usize) -> u64;
        pub fn cintrok_raw_field_end(wholes: *const u64, wholes_len: usize) -> u64;
        pub fn cintrok_raw_path_end(wholes: *const u64, wholes_len: usize) -> u64;
        pub fn cintrok_raw_field(
            floats: *const f64,
            floats_len: usize,
            wholes: *const u64,
            wholes_len: usize,
            reals: *const f64,
            reals_len: usize,
            out: *mut u64,
            out_len: usize,
        ) -> u32;
        pub fn cintrok_raw_norms(
            floats: *const f64,
            floats_len: usize,
            wholes: *const u64,
            wholes_len: usize,
            reals: *const f64,
            reals_len: usize,
            out: *mut u64,
            out_len: usize,
        ) -> u32;
        pub fn cintrok_raw_gradients(
            floats: *const f64,
            floats_len: usize,
            wholes: *const u64,
            wholes_len: usize,
            reals: *const f64,
            reals_len: usize,
            out: *mut u64,
            out_len: usize,
        ) -> u32;
        pub fn cintrok_raw_points(
            path: *const f64,
            path_len: usize,
            wholes: *const u64,
            wholes_len: usize,
            reals: *const f64,
            reals_len: usize,
            out: *mut u64,
            out_len: usize,
        ) -> u32;
        pub fn cintrok_raw_space_needed(n: u64, t: u64, limit: u64, room: u64, out: *mut u64, out_len: usize) -> u32;
    }
}

/// The whole numbers of a record, by their places.
pub const N: usize = 0;
pub const T: usize = 1;
pub const LIMIT: usize = 2;
pub const ROOM: usize = 3;
/// 1 where a start is given, else 0
pub const GIVEN: usize = 4;
pub const PLACE: usize = 5;
pub const NORMS: usize = 6;
pub const FIELD_END: usize = 7;
pub const TRIANGLE: usize = 8;
pub const EDGE: usize = 9;
pub const POINTS: usize = 10;
pub const PATH_END: usize = 11;
pub const CROSSINGS: usize = 12;
/// 1 where there is a mark, else 0
pub const MARKED: usize = 13;
pub const MARK_PLACE: usize = 14;
pub const MARK_NORMS: usize = 15;
pub const PASSES: usize = 16;
pub const WHOLES: usize = 17;

/// tolerance, step, start x and y, r·r, position x and y, the mark's r·r
pub const REALS: usize = 8;

/// The numbers of a record, reals by their bits.
#[derive(Clone, PartialEq, Debug)]
pub struct Record {
    pub wholes: [u64; WHOLES],
    pub reals: [u64; REALS],
}

/// How many places the two lists of a record have.
pub const WHOLE_RECORD: [usize; 2] = [WHOLES, REALS];

impl Record {
    /// No record yet.
    pub fn blank() -> Record {
        Record { wholes: [PATTERN; WHOLES], reals: [PATTERN; REALS] }
    }

    /// With one pattern for every NaN.
    pub fn canon(&self) -> Record {
        Record { wholes: self.wholes, reals: self.reals.map(|x| canon(f64::from_bits(x))) }
    }
}

/// The three lent buffers.
#[derive(Clone)]
pub struct Buffers {
    pub floats: Vec<f64>,
    pub words: Vec<u32>,
    pub path: Vec<f64>,
}

/// No more than the buffers have.
fn fronts(b: &Buffers, lent: [usize; 3]) -> [usize; 3] {
    [lent[0].min(b.floats.len()), lent[1].min(b.words.len()), lent[2].min(b.path.len())]
}

/// Opens a sheet on the fronts of the buffers that are lent, with a record's lists of so many places; the refusal's number, or 0.
pub fn open_on(record: &mut Record, places: [usize; 2], sheet: &[u8], b: &mut Buffers, lent: [usize; 3]) -> u32 {
    let lent = fronts(b, lent);
    unsafe {
        exported::cintrok_raw_open(
            sheet.as_ptr(),
            sheet.len(),
            b.floats.as_mut_ptr(),
            lent[0],
            b.words.as_mut_ptr(),
            lent[1],
            b.path.as_mut_ptr(),
            lent[2],
            record.wholes.as_mut_ptr(),
            places[0],
            record.reals.as_mut_ptr().cast(),
            places[1],
        )
    }
}

/// Opens a sheet on the fronts of the buffers that are lent.
pub fn open(sheet: &[u8], b: &mut Buffers, lent: [usize; 3]) -> Result<Record, u32> {
    let mut record = Record::blank();
    match open_on(&mut record, WHOLE_RECORD, sheet, b, lent) {
        0 => Ok(record),
        k => Err(k),
    }
}

/// Makes a call, lent the fronts of the buffers and a record's lists of so many places; the refusal's number, or 0.
pub fn call_on(record: &mut Record, places: [usize; 2], call: Call, b: &mut Buffers, lent: [usize; 3]) -> u32 {
    let lent = fronts(b, lent);
    let (floats, words, path) = (b.floats.as_mut_ptr(), b.words.as_ptr(), b.path.as_mut_ptr());
    let (wholes, reals) = (record.wholes.as_mut_ptr(), record.reals.as_mut_ptr().cast());
    unsafe {
        match call {
            Call::Advance(k) => {
                exported::cintrok_raw_advance(k, floats, lent[0], words, lent[1], path, lent[2], wholes, places[0], reals, places[1])
            }
            Call::Back(k) => {
                exported::cintrok_raw_back(k, floats, lent[0], words, lent[1], path, lent[2], wholes, places[0], reals, places[1])
            }
            Call::Mark => exported::cintrok_raw_mark(floats, lent[0], words, lent[1], path, lent[2], wholes, places[0], reals, places[1]),
            Call::Return => {
                exported::cintrok_raw_return(floats, lent[0], words, lent[1], path, lent[2], wholes, places[0], reals, places[1])
            }
        }
    }
}

/// Makes a call, lent the fronts of the buffers; the refusal's number, or 0.
pub fn call(record: &mut Record, call: Call, b: &mut Buffers, lent: [usize; 3]) -> u32 {
    call_on(record, WHOLE_RECORD, call, b, lent)
}

/// Puts the length of the path's points to the front of `out`; the refusal's number, or 0.
pub fn length(record: &Record, places: [usize; 2], b: &Buffers, lent: [usize; 3], out: &mut [f64]) -> u32 {
    let lent = fronts(b, lent);
    unsafe {
        exported::cintrok_raw_length(
            b.floats.as_ptr(),
            lent[0],
            b.words.as_ptr(),
            lent[1],
            b.path.as_ptr(),
            lent[2],
            record.wholes.as_ptr(),
            places[0],
            record.reals.as_ptr().cast(),
            places[1],
            out.as_mut_ptr(),
            out.len(),
        )
    }
}

/// Place, passes, field end and path end of a record whose list of whole numbers has so many places.
pub fn said_of(record: &Record, places: usize) -> [u64; 4] {
    let all = [exported::cintrok_raw_place, exported::cintrok_raw_passes, exported::cintrok_raw_field_end, exported::cintrok_raw_path_end];
    all.map(|one| unsafe { one(record.wholes.as_ptr(), places) })
}

/// Where those four stand in the list.
pub const SAID: [usize; 4] = [PLACE, PASSES, FIELD_END, PATH_END];

/// What a run shows: a part of the floats, or of the path.
#[derive(Clone, Copy, PartialEq, Debug)]
pub enum Part {
    Field,
    Norms,
    Gradients,
    Points,
}

pub const PARTS: [Part; 4] = [Part::Field, Part::Norms, Part::Gradients, Part::Points];

impl Part {
    /// The front of the buffer that it is a part of.
    pub fn buffer<'a>(self, b: &'a Buffers, lent: [usize; 3]) -> &'a [f64] {
        let lent = fronts(b, lent);
        match self {
            Part::Points => &b.path[..lent[2]],
            _ => &b.floats[..lent[0]],
        }
    }
}

/// Puts where a part starts and how many numbers it has to the front of `out`; the refusal's number, or 0.
pub fn part(part: Part, record: &Record, places: [usize; 2], b: &Buffers, lent: [usize; 3], out: &mut [u64]) -> u32 {
    let buffer = part.buffer(b, lent);
    let give = match part {
        Part::Field => exported::cintrok_raw_field,
        Part::Norms => exported::cintrok_raw_norms,
        Part::Gradients => exported::cintrok_raw_gradients,
        Part::Points => exported::cintrok_raw_points,
    };
    let (wholes, reals) = (record.wholes.as_ptr(), record.reals.as_ptr().cast());
    unsafe { give(buffer.as_ptr(), buffer.len(), wholes, places[0], reals, places[1], out.as_mut_ptr(), out.len()) }
}

/// Puts the floats, words and floats of the path that a run needs to the front of `out`; the refusal's number, or 0.
pub fn space_needed([n, t, limit, room]: [u64; 4], out: &mut [u64]) -> u32 {
    unsafe { exported::cintrok_raw_space_needed(n, t, limit, room, out.as_mut_ptr(), out.len()) }
}

/// Where lists stand in the lent buffers. Floats: field, gradients, norms, matrix values. Words: triangles, neighbours, row starts, columns.
pub struct Layout {
    pub field: usize,
    pub gradients: usize,
    pub norms: usize,
    pub values: usize,
    pub triangles: usize,
    pub neighbours: usize,
    pub starts: usize,
    pub columns: usize,
}

/// The places that crates/work/specs/Layout.antt gives them, for n vertices and t triangles.
pub fn layout(n: usize, t: usize) -> Layout {
    Layout {
        field: 5 * n + 9 * t,
        gradients: 9 * n + 9 * t,
        norms: 9 * n + 11 * t,
        values: 4 * n,
        triangles: 0,
        neighbours: 3 * t,
        starts: n + 6 * t,
        columns: 2 * n + 6 * t + 1,
    }
}

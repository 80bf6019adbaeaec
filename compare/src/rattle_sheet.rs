//! The Rattle reader and writer of sheets, by the C names of crates/cintrok. No struct or enum crosses the border: a setting is a presence and a number.

use crate::content::{Content, Settings};
use crate::floats::PATTERN;

mod exported {
    extern "C" {
        pub fn cintrok_raw_check(
            sheet: *const u8,
            sheet_len: usize,
            head: *mut u64,
            head_len: usize,
            wholes: *mut u64,
            wholes_len: usize,
            reals: *mut f64,
            reals_len: usize,
        ) -> u32;
        pub fn cintrok_raw_vertex(items: *const u8, items_len: usize, i: usize, out: *mut f64, out_len: usize);
        pub fn cintrok_raw_corners(items: *const u8, items_len: usize, i: usize, out: *mut u32, out_len: usize);
        pub fn cintrok_raw_neighbour(items: *const u8, items_len: usize, i: usize) -> u32;
        pub fn cintrok_raw_tag(items: *const u8, items_len: usize, i: usize) -> u32;
        pub fn cintrok_raw_write_sheet(
            vertices: *const f64,
            vertices_len: usize,
            triangles: *const u32,
            triangles_len: usize,
            neighbours: *const u32,
            neighbours_len: usize,
            tags: *const u8,
            tags_len: usize,
            wholes: *const u64,
            wholes_len: usize,
            reals: *const f64,
            reals_len: usize,
            out: *mut u8,
            out_len: usize,
            written: *mut u64,
            written_len: usize,
        ) -> u32;
    }
}

/// A head has n, T and where the items of sections 1 to 4 start.
const HEAD: usize = 6;
/// The whole numbers of settings: presences by kind, with the limit behind its own and the room last. The reals are the other four.
const WHOLES: usize = 8;
const REALS: usize = 4;

/// Where the presence of each kind stands.
const PRESENCES: [usize; 6] = [0, 2, 3, 4, 5, 6];
const LIMIT: usize = 1;
const ROOM: usize = 7;

/// How many places the lists of a check must have, and how many they are given here: head, wholes and reals.
pub const CHECKED: [usize; 3] = [HEAD, WHOLES, REALS];
const BEYOND: usize = 2;

/// The lists of a check, reals by their bits.
#[derive(PartialEq, Debug)]
pub struct Checked {
    head: [u64; HEAD + BEYOND],
    wholes: [u64; WHOLES + BEYOND],
    reals: [u64; REALS + BEYOND],
}

impl Checked {
    pub fn blank() -> Checked {
        Checked { head: [PATTERN; HEAD + BEYOND], wholes: [PATTERN; WHOLES + BEYOND], reals: [PATTERN; REALS + BEYOND] }
    }

    /// What an accepted sheet leaves: presences of 0 or 1, the numbers of absent settings and the places beyond as they were.
    pub fn keeps_the_rest(&self) -> bool {
        let flags = PRESENCES.iter().all(|at| self.wholes[*at] <= 1);
        let absent = |kind: usize| self.wholes[PRESENCES[kind - 1]] == 0;
        let left = |kind: usize, number: u64| !absent(kind) || number == PATTERN;
        let wholes = left(1, self.wholes[LIMIT]) && left(6, self.wholes[ROOM]);
        let reals = (0..REALS).all(|i| left(2 + i, self.reals[i]));
        let beyond = [&self.head[HEAD..], &self.wholes[WHOLES..], &self.reals[REALS..]].concat();
        flags && wholes && reals && beyond.iter().all(|k| *k == PATTERN)
    }
}

/// Checks a sheet into lists of so many places; the refusal's number, or 0.
pub fn check(sheet: &[u8], places: [usize; 3], lists: &mut Checked) -> u32 {
    let [head, wholes, reals] = places;
    assert!(head <= lists.head.len() && wholes <= lists.wholes.len() && reals <= lists.reals.len());
    unsafe {
        exported::cintrok_raw_check(
            sheet.as_ptr(),
            sheet.len(),
            lists.head.as_mut_ptr(),
            head,
            lists.wholes.as_mut_ptr(),
            wholes,
            lists.reals.as_mut_ptr().cast(),
            reals,
        )
    }
}

pub fn read(sheet: &[u8]) -> Result<Content, u32> {
    let mut lists = Checked::blank();
    let said = check(sheet, CHECKED.map(|k| k + BEYOND), &mut lists);
    if said != 0 {
        return Err(said);
    }
    let (n, t) = (lists.head[0] as usize, lists.head[1] as usize);
    let from = |section: usize| &sheet[lists.head[1 + section] as usize..];
    Ok(Content {
        vertices: (0..n).flat_map(|i| vertex(from(1), i, 2)).collect(),
        triangles: (0..t).flat_map(|i| corners(from(2), i, 3)).collect(),
        neighbours: (0..3 * t).map(|i| neighbour(from(3), i)).collect(),
        tags: (0..n).map(|i| tag(from(4), i)).collect(),
        settings: unpacked(&lists),
    })
}

/// The vertex as far as there are places for it, else zeros.
pub fn vertex(items: &[u8], i: usize, places: usize) -> [f64; 2] {
    let mut out = [0.0; 2];
    unsafe { exported::cintrok_raw_vertex(items.as_ptr(), items.len(), i, out.as_mut_ptr(), places) };
    out
}

/// The corners as far as there are places for them, else zeros.
pub fn corners(items: &[u8], i: usize, places: usize) -> [u32; 3] {
    let mut out = [0; 3];
    unsafe { exported::cintrok_raw_corners(items.as_ptr(), items.len(), i, out.as_mut_ptr(), places) };
    out
}

fn neighbour(items: &[u8], i: usize) -> i32 {
    unsafe { exported::cintrok_raw_neighbour(items.as_ptr(), items.len(), i) as i32 }
}

fn tag(items: &[u8], i: usize) -> u8 {
    let tag = unsafe { exported::cintrok_raw_tag(items.as_ptr(), items.len(), i) };
    tag.try_into().expect("a tag is a byte")
}

fn unpacked(lists: &Checked) -> Settings {
    let present = |kind: usize| lists.wholes[PRESENCES[kind - 1]] != 0;
    let real = |kind: usize| present(kind).then(|| f64::from_bits(lists.reals[kind - 2]));
    Settings {
        limit: present(1).then_some(lists.wholes[LIMIT]),
        tolerance: real(2),
        step: real(3),
        x: real(4),
        y: real(5),
        room: present(6).then_some(lists.wholes[ROOM]),
    }
}

/// The lists of settings, with that number for a presence.
fn packed(s: &Settings, presence: u64) -> ([u64; WHOLES], [u64; REALS]) {
    let mut wholes = [PATTERN; WHOLES];
    PRESENCES.iter().for_each(|at| wholes[*at] = 0);
    for (kind, _) in s.present() {
        wholes[PRESENCES[kind as usize - 1]] = presence;
    }
    wholes[LIMIT] = s.limit.unwrap_or(PATTERN);
    wholes[ROOM] = s.room.unwrap_or(PATTERN);
    (wholes, [s.tolerance, s.step, s.x, s.y].map(|x| x.map_or(PATTERN, f64::to_bits)))
}

/// How many places the lists of the writer must have: wholes, reals and written.
pub const WRITTEN: [usize; 3] = [WHOLES, REALS, 1];

/// Writes a content, with lists of so many places and that number for a presence, to the front of `out`; how many bytes it takes or the refusal, and
/// whether the places of `written` that are not for an answer are as they were.
pub fn write_on(content: &Content, presence: u64, places: [usize; 3], out: &mut [u8]) -> (Result<usize, u32>, bool) {
    let neighbours: Vec<u32> = content.neighbours.iter().map(|k| *k as u32).collect();
    let (wholes, reals) = packed(&content.settings, presence);
    let mut written = [PATTERN; 2];
    assert!(places[0] <= wholes.len() && places[1] <= reals.len() && places[2] <= written.len());
    let said = unsafe {
        exported::cintrok_raw_write_sheet(
            content.vertices.as_ptr(),
            content.vertices.len(),
            content.triangles.as_ptr(),
            content.triangles.len(),
            neighbours.as_ptr(),
            neighbours.len(),
            content.tags.as_ptr(),
            content.tags.len(),
            wholes.as_ptr(),
            places[0],
            reals.as_ptr().cast(),
            places[1],
            out.as_mut_ptr(),
            out.len(),
            written.as_mut_ptr(),
            places[2],
        )
    };
    match said {
        0 => (Ok(written[0] as usize), written[1] == PATTERN),
        k => (Err(k), written == [PATTERN; 2]),
    }
}

/// How many bytes the content takes at the front of `out`, or the refusal.
pub fn write(content: &Content, out: &mut [u8]) -> Result<usize, u32> {
    write_on(content, 1, WRITTEN, out).0
}

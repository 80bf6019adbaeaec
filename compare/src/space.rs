//! The space that a run needs, and what refuses to say it, against document 01's rule and limits.

use crate::cases::{kind, same, Cases, Tally, Verdict};
use crate::content::{MAX_LIMIT, MAX_ROOM, MAX_TRIANGLES, MAX_VERTICES};
use crate::floats::PATTERN;
use crate::machine::space;
use crate::rattle_run as rattle;
use crate::rng::Rng;
use crate::trial::Sort;

pub fn needed() -> Cases {
    Cases {
        name: "space needed",
        kinds: vec![
            kind("at, below and above each limit", 1, |_, _, tally| at_the_limits(tally)),
            kind("of numbers within the limits", 100, |rng, _, tally| each(rng, tally, within)),
            kind("of any numbers", 100, |rng, _, tally| each(rng, tally, anyhow)),
        ],
        sorts: &[Sort { what: "answer", classes: &["said", "2", "7", "8"] }],
    }
}

const MOST: [u64; 4] = [MAX_VERTICES as u64, MAX_TRIANGLES as u64, MAX_LIMIT, MAX_ROOM];

/// Every combination of numbers about the limits, and every number of places.
fn at_the_limits(tally: &mut Tally) {
    let about = |most: u64| [0, 1, most - 1, most, most + 1, 1 << 32, 1 << 63, u64::MAX];
    let [n, t, limit, room] = MOST.map(about);
    for n in n {
        for t in t {
            for limit in limit {
                for room in room {
                    (0..6).for_each(|places| judge([n, t, limit, room], places, tally));
                }
            }
        }
    }
}

fn each(rng: &mut Rng, tally: &mut Tally, make: fn(&mut Rng, u64) -> u64) {
    for _ in 0..200 {
        let numbers = MOST.map(|most| make(rng, most));
        let places = rng.pick(&[3, 3, 3, 0, 1, 2, 4, 5]);
        judge(numbers, places, tally);
    }
}

fn within(rng: &mut Rng, most: u64) -> u64 {
    1 + rng.below(most)
}

/// Within the limit, about it, or with any number of digits.
fn anyhow(rng: &mut Rng, most: u64) -> u64 {
    match rng.below(8) {
        0..5 => rng.below(most + 1),
        5 | 6 => (most + 3).saturating_sub(rng.below(6)),
        _ => rng.next() >> rng.below(64),
    }
}

/// 2 for a count, then 7 for the limit or the room, then 8 where there are not three places.
fn judge([n, t, limit, room]: [u64; 4], places: usize, tally: &mut Tally) {
    let expected = if n > MOST[0] || t > MOST[1] {
        2
    } else if limit > MOST[2] || room < 1 || room > MOST[3] {
        7
    } else if places < 3 {
        8
    } else {
        0
    };
    tally.counts.note(0, [0, 2, 7, 8].iter().position(|k| *k == expected).unwrap());
    let verdict = says([n, t, limit, room], places, expected);
    tally.note(verdict.map_err(|why| format!("n {n}, T {t}, limit {limit}, room {room}, {places} places: {why}")));
}

fn says(numbers: [u64; 4], places: usize, expected: u32) -> Verdict {
    let mut out = [PATTERN; 5];
    same("refusal", expected, rattle::space_needed(numbers, &mut out[..places]))?;
    let mut list = [PATTERN; 5];
    if expected == 0 {
        let [n, t, limit, room] = numbers.map(|k| k as usize);
        list[..3].copy_from_slice(&space(n, t, limit, room).map(|k| k as u64));
    }
    same("space", list, out)
}

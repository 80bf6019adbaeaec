//! Document 01's counter machine, and the space rule. Written from that document, apart from the library.

use crate::content::Content;
use crate::rng::Rng;

#[derive(Clone, Copy, PartialEq, Debug)]
pub enum Call {
    Advance(u32),
    Back(u32),
    Mark,
    Return,
}

impl Call {
    /// The number of its kind, and its k.
    pub fn numbers(self) -> [u32; 2] {
        match self {
            Call::Advance(k) => [0, k],
            Call::Back(k) => [1, k],
            Call::Mark => [2, 0],
            Call::Return => [3, 0],
        }
    }
}

/// Any call, with numbers small and large beside the last place.
pub fn any_call(rng: &mut Rng, last: usize) -> Call {
    let within = rng.below(last as u64 + 2) as u32;
    let k = rng.pick(&[0, 1, 1, 2, 3, 7, within, within, last as u32, u32::MAX]);
    match rng.below(8) {
        0..3 => Call::Advance(k),
        3..5 => Call::Back(k),
        5 => Call::Mark,
        _ => Call::Return,
    }
}

/// All that there is, just what is needed, something between; one time in eight too little of one buffer.
pub fn any_lent(rng: &mut Rng, all: [usize; 3], needs: [usize; 3]) -> [usize; 3] {
    let mut lent = [0, 1, 2].map(|i| rng.between(needs[i] as i64, all[i] as i64) as usize);
    if rng.one_in(8) {
        let i = rng.below(3) as usize;
        let less = rng.below(needs[i] as u64) as usize;
        lent[i] = rng.pick(&[needs[i] - 1, 0, less]);
    }
    lent
}

/// Floats, u32 and floats of the path that a run needs.
pub fn space(n: usize, t: usize, limit: usize, room: usize) -> [usize; 3] {
    [12 * n + 12 * t + limit + 32, 8 * n + 32 * t + 32, 2 * room]
}

pub fn needs(content: &Content) -> [usize; 3] {
    space(content.n(), content.t(), content.settings.limit(), content.settings.room.unwrap() as usize)
}

pub struct Machine {
    /// the last place, and the space that a call needs
    pub last: usize,
    pub needs: [usize; 3],
    pub place: usize,
    pub mark: Option<usize>,
    pub passes: u64,
}

impl Machine {
    pub fn new(last: usize, needs: [usize; 3]) -> Machine {
        Machine { last, needs, place: 0, mark: None, passes: 0 }
    }

    /// Makes a call that is lent so much; the refusal's number, or 0.
    pub fn call(&mut self, call: Call, lent: [usize; 3]) -> u32 {
        if lent.iter().zip(self.needs).any(|(lent, need)| *lent < need) {
            return 8;
        }
        match call {
            Call::Advance(k) => {
                let to = (self.place + k as usize).min(self.last);
                let Some(passes) = self.passes.checked_add((to - self.place) as u64) else {
                    return 10;
                };
                self.place = to;
                self.passes = passes;
            }
            Call::Back(k) => self.place = self.place.saturating_sub(k as usize),
            Call::Mark => self.mark = Some(self.place),
            Call::Return => match self.mark {
                None => return 9,
                Some(place) => self.place = place,
            },
        }
        0
    }
}

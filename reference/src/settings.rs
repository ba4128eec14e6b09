//! Levels, robots and duration set.

use crate::refusal::{refuse, Refusal};

#[derive(Clone, Copy, Debug)]
pub struct Settings {
    pub levels: usize,
    pub robots: usize,
    pub set: usize,
}

#[derive(Clone, Copy, Debug, PartialEq, Eq)]
pub enum Work {
    Entry,
    Leave,
    LoadedMove,
    EmptyMove,
    PickUp,
    Deliver,
    Wait,
}

impl Settings {
    pub fn new(levels: usize, robots: usize, set: usize) -> Result<Settings, Refusal> {
        refuse(!(1..=16).contains(&levels) || !(1..=64).contains(&robots) || set > 3, 5)?;
        Ok(Settings { levels, robots, set })
    }

    pub fn duration(&self, work: Work) -> usize {
        let of = |sets: [usize; 4]| sets[self.set];
        match work {
            Work::Entry => of([1, 2, 3, 3]),
            Work::Leave => of([1, 1, 2, 3]),
            Work::LoadedMove => of([1, 1, 3, 3]),
            Work::EmptyMove => of([1, 1, 1, 2]),
            Work::PickUp => of([1, 2, 3, 2]),
            Work::Deliver => of([1, 2, 3, 3]),
            Work::Wait => 1,
        }
    }
}

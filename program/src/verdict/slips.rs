//! Where the slips of a reading are, and which of them are wrong votes.

use serde::Serialize;

/// The most slips of a reading that are looked at one by one.
pub const MOST: usize = 200;

/// A step of the shift.
#[derive(Clone, Copy, Debug, PartialEq, Eq, Serialize)]
pub struct Slip {
    /// The stretch of frames that it is in, from 0.
    pub stretch: usize,
    /// The number of the first digit after it, in the reading, from 0.
    pub digit: u64,
    /// The frame that it is in, of all frames judged.
    pub frame: u64,
    /// By how many digits the shift changed: more than 0 where digits were lost.
    pub step: i64,
    /// How many slips it stands for.
    pub slips: u64,
    /// Whether it is at the justification place of a frame whose control digits did not agree.
    pub vote: bool,
}

/// The slips of one reading, the first of them one by one.
#[derive(Clone, Debug, Default)]
pub struct Located {
    /// Those that were looked at.
    pub slips: Vec<Slip>,
}

impl Located {
    /// How many slips are in the list.
    pub fn counted(&self) -> u64 {
        self.slips.iter().map(|slip| slip.slips).sum()
    }

    /// Whether there is room for more.
    pub fn is_open(&self) -> bool {
        self.slips.len() < MOST
    }

    /// The slips that are wrong votes.
    pub fn votes(&self) -> u64 {
        self.slips.iter().filter(|slip| slip.vote).map(|slip| slip.slips).sum()
    }

    /// The first that is no wrong vote, or the first of all.
    pub fn first(&self) -> Option<&Slip> {
        self.slips.iter().find(|slip| !slip.vote).or_else(|| self.slips.first())
    }

    /// The reading has now so many slips in this stretch: those that the cheapest way no longer has
    /// are dropped.
    pub fn cut_to(&mut self, stretch: usize, slips: u64) {
        let here = |slip: &&Slip| slip.stretch == stretch;
        let mut counted: u64 = self.slips.iter().filter(here).map(|slip| slip.slips).sum();
        while counted > slips {
            match self.slips.last().filter(here) {
                Some(last) => counted -= last.slips,
                None => return,
            }
            self.slips.pop();
        }
    }

    /// One more, where there is room.
    pub fn push(&mut self, slip: Slip) {
        if self.is_open() {
            self.slips.push(slip);
        }
    }
}

//! What the frames of a line came to, counted up over its runs, and its table.

use serde::Serialize;
use spritbobbin::{Level, Noted};

use crate::acts::Acts;

/// The sums so far.
#[derive(Debug)]
pub struct Totals {
    pub frames: u64,
    pub digits: [u64; 4],
    stuffed: [u64; 4],
    negative: [u64; 4],
    dissent: [u64; 4],
    alignment: u64,
    level: Level,
    acts: Acts,
}

impl Totals {
    pub fn of_level(level: Level) -> Totals {
        Totals {
            frames: 0,
            digits: [0; 4],
            stuffed: [0; 4],
            negative: [0; 4],
            dissent: [0; 4],
            alignment: 0,
            level,
            acts: Acts::of_level(level),
        }
    }

    /// Adds the frames of a run: the vote before it, its notes, and the digits of each tributary.
    pub fn add(&mut self, earlier: u8, notes: &[u8], digits: [usize; 4]) {
        let digits = digits.map(|digits| digits as u64);
        self.digits = sums(self.digits, digits);
        self.add_acts(earlier, notes, Some(digits));
    }

    /// Adds the frames of a run that were not taken apart.
    pub fn add_notes(&mut self, earlier: u8, notes: &[u8]) {
        self.add_acts(earlier, notes, None);
    }

    fn add_acts(&mut self, earlier: u8, notes: &[u8], digits: Option<[u64; 4]>) {
        let frames = notes.len() as u64;
        self.frames = self.frames.saturating_add(frames);
        let (stuffed, negative) = match digits {
            // Where no place is negative, what is missing of the digits is stuffed.
            Some(digits) if !self.level.looks_at_earlier() => {
                let all = frames.saturating_mul(self.level.tributary_digits() as u64);
                (digits.map(|digits| all.saturating_sub(digits)), [0; 4])
            }
            _ => self.acts.count(earlier, notes),
        };
        self.stuffed = sums(self.stuffed, stuffed);
        self.negative = sums(self.negative, negative);
    }

    /// Adds what was wrong in the frames of a run.
    pub fn add_errors(&mut self, noted: &Noted) {
        self.dissent = sums(self.dissent, noted.dissent.map(|digits| digits as u64));
        self.alignment = self.alignment.saturating_add(noted.alignment as u64);
    }

    /// Frames that were sent or taken apart by given notes.
    pub fn sent(&self) -> Counted {
        self.counted(false)
    }

    /// Frames whose notes were read.
    pub fn taken(&self) -> Counted {
        self.counted(true)
    }

    fn counted(&self, read: bool) -> Counted {
        let signed = self.level.looks_at_earlier();
        let mut tributaries = Vec::new();
        let counts = self.digits.into_iter().zip(self.stuffed);
        let others = self.negative.into_iter().zip(self.dissent);
        for (tributary, ((digits, stuffed), (negative, dissent))) in (1..).zip(counts.zip(others)) {
            let (negative, dissent) = (signed.then_some(negative), read.then_some(dissent));
            tributaries.push(Tributary { tributary, digits, stuffed, negative, dissent });
        }
        let alignment_wrong = read.then_some(self.alignment);
        Counted { level: self.level.number(), frames: self.frames, tributaries, alignment_wrong }
    }
}

/// What was counted, to be said.
#[derive(Clone, Debug, Serialize)]
pub struct Counted {
    pub level: u64,
    pub frames: u64,
    pub tributaries: Vec<Tributary>,
    /// Alignment digits that differ from the word.
    #[serde(skip_serializing_if = "Option::is_none")]
    pub alignment_wrong: Option<u64>,
}

#[derive(Clone, Debug, Serialize)]
pub struct Tributary {
    pub tributary: u64,
    pub digits: u64,
    pub stuffed: u64,
    /// Frames whose negative place carries a digit, at levels that have such places.
    #[serde(skip_serializing_if = "Option::is_none")]
    pub negative: Option<u64>,
    /// Control digits that differ from the majority of their group.
    #[serde(skip_serializing_if = "Option::is_none")]
    pub dissent: Option<u64>,
}

impl Counted {
    /// The table of the four tributaries, and what was wrong in all words.
    pub fn table(&self) -> String {
        let signed = self.tributaries.iter().any(|one| one.negative.is_some());
        let read = self.tributaries.iter().any(|one| one.dissent.is_some());
        let head =
            |wanted: bool, word: &str| if wanted { format!("{word:>13}") } else { String::new() };
        let cell =
            |number: Option<u64>| number.map_or(String::new(), |number| format!("{number:>13}"));
        let mut text = format!(
            "tributary        digits      stuffed{}{}\n",
            head(signed, "negative"),
            head(read, "dissent")
        );
        for one in &self.tributaries {
            text += &format!(
                "{:>9}{:>14}{:>13}{}{}\n",
                one.tributary,
                one.digits,
                one.stuffed,
                cell(one.negative),
                cell(one.dissent)
            );
        }
        if let Some(wrong) = self.alignment_wrong {
            text += &format!("alignment digits wrong: {wrong}\n");
        }
        text
    }
}

pub fn sums(one: [u64; 4], other: [u64; 4]) -> [u64; 4] {
    let mut both = one;
    both.iter_mut().zip(other).for_each(|(sum, more)| *sum = sum.saturating_add(more));
    both
}

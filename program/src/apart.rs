//! Frames taken apart, a run after the other: their notes read, their tributaries extracted, and both written where files are named for them.

use spritbobbin::{vote_after, Level, MOST_FRAMES};

use crate::cli::Engine;
use crate::failure::Failure;
use crate::files::Output;
use crate::level::UNKNOWN_VOTE;
use crate::quarters::QuartersOut;
use crate::totals::Totals;

/// How far it is.
#[derive(Debug)]
pub struct Apart {
    level: Level,
    /// The vote of the last frame so far.
    earlier: u8,
    engine: Engine,
    notes: Option<Output>,
    tributaries: Option<QuartersOut>,
    pub totals: Totals,
    few: [u8; MOST_FRAMES],
    buffer: Vec<u8>,
}

impl Apart {
    pub fn new(level: Level, earlier: u8, engine: Engine) -> Apart {
        Apart {
            level,
            earlier,
            engine,
            notes: None,
            tributaries: None,
            totals: Totals::of_level(level),
            few: [0; MOST_FRAMES],
            buffer: vec![0; level.buffer_bytes(MOST_FRAMES)],
        }
    }

    /// Writes the notes, and the tributaries in quarters of so many bytes, or of a length that is said at the end.
    pub fn into(
        mut self,
        notes: Output,
        tributaries: Output,
        quarter: Option<u64>,
    ) -> Result<Apart, Failure> {
        self.notes = Some(notes);
        self.tributaries = Some(QuartersOut::new(tributaries, quarter)?);
        Ok(self)
    }

    /// The frames of the next run do not follow those before: what was voted before them is not known.
    pub fn behind_gap(&mut self) {
        self.earlier = UNKNOWN_VOTE;
    }

    /// Takes a run of at most 64 frames apart.
    pub fn run(&mut self, line: &[u8]) -> Result<(), Failure> {
        let count = line.len() / self.level.frame_bytes();
        let few = self.few.get_mut(..count).unwrap_or_default();
        let buffer = self.buffer.get_mut(..self.level.buffer_bytes(count)).unwrap_or_default();
        let noted = self.engine.read_notes(self.level, line, few)?;
        let taken = self.engine.extract(self.level, self.earlier, line, few, buffer)?;
        if let Some(notes) = &mut self.notes {
            notes.append(few)?;
        }
        if let Some(tributaries) = &mut self.tributaries {
            tributaries.put(buffer, taken.digits)?;
        }
        self.totals.add(self.earlier, few, taken.digits);
        self.totals.add_errors(&noted);
        self.earlier = vote_after(self.earlier, few);
        Ok(())
    }

    /// The outputs, whose quarters have so many bytes.
    pub fn outputs(self, quarter: u64) -> Result<(Totals, Vec<Output>), Failure> {
        let mut outputs = Vec::new();
        outputs.extend(self.notes);
        if let Some(tributaries) = self.tributaries {
            outputs.push(tributaries.end(quarter)?);
        }
        Ok((self.totals, outputs))
    }
}

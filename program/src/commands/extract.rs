//! `extract`: takes a line of any number of frames apart by the notes of a file, and looks at no control digit.

use serde::Serialize;
use spritbobbin::{vote_after, MOST_FRAMES};

use crate::cli::Extract;
use crate::commands::send::{note_refused, quarter};
use crate::failure::Failure;
use crate::files::{self, Input, Output};
use crate::quarters::QuartersOut;
use crate::report::{shown, written, Report, Saying};
use crate::runs::Line;
use crate::totals::{Counted, Totals};

#[derive(Serialize)]
struct Extracted {
    #[serde(flatten)]
    counted: Counted,
    written: Vec<String>,
}

impl Report for Extracted {
    fn text(&self) -> String {
        let Counted { level, frames, .. } = self.counted;
        let head = format!("Level {level}: {frames} frames taken apart by these notes.\n");
        head + &self.counted.table() + &written(&self.written)
    }
}

pub fn run(call: Extract, mut saying: Saying) -> Result<u8, Failure> {
    let inputs = [("LINE", call.line.as_path()), ("NOTES", &call.notes)];
    files::distinct(&inputs, &[("TRIBUTARIES", &call.tributaries)])?;
    saying.aside = files::any_standard(&[&call.tributaries]);
    let line = Line::open(&call.line, Some(&call.of.level), call.after.earlier.as_deref())?;
    let notes = Input::open(&call.notes)?;
    one_each(&notes, &line)?;
    let bytes = quarter(line.level, line.frames);
    let mut tributaries = QuartersOut::new(Output::create(&call.tributaries)?, Some(bytes))?;
    let mut totals = Totals::of_level(line.level);
    let (mut few, mut buffer) = ([0; MOST_FRAMES], vec![0; line.level.buffer_bytes(MOST_FRAMES)]);
    let mut earlier = line.earlier;
    line.runs(saying, |run| {
        let count = run.line.len() / line.level.frame_bytes();
        let few = few.get_mut(..count).unwrap_or_default();
        notes.read_at(run.first, few)?;
        let buffer = buffer.get_mut(..line.level.buffer_bytes(count)).unwrap_or_default();
        let taken = spritbobbin::extract(line.level, earlier, run.line, few, buffer)
            .map_err(|refusal| note_refused(refusal, run.first, line.level, &notes))?;
        tributaries.put(buffer, taken.digits)?;
        totals.add(earlier, few, taken.digits);
        earlier = vote_after(earlier, few);
        Ok(())
    })?;
    let written = files::keep(vec![tributaries.end(bytes)?])?;
    saying.say(&Extracted { counted: totals.sent(), written })?;
    Ok(0)
}

/// That there is a note for each frame.
pub fn one_each(notes: &Input, line: &Line) -> Result<(), Failure> {
    if notes.bytes() == line.frames {
        return Ok(());
    }
    Err(Failure::refused(
        3,
        format!(
            "{} has {} bytes, and {} has {} frames; a note is one byte for each.",
            shown(notes.name()),
            notes.bytes(),
            shown(&line.name),
            line.frames
        ),
    ))
}

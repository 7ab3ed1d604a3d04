//! `take`: takes a line of any number of frames apart, a capture's too; with `--find` the frames that are found in a recording.

use serde::Serialize;

use crate::apart::Apart;
use crate::cli::Take;
use crate::commands::send::quarter;
use crate::failure::Failure;
use crate::files::{self, Output};
use crate::listening::Stretch;
use crate::report::{written, Report, Saying};
use crate::runs::Line;
use crate::stretches::{self, unknown_text};
use crate::totals::Counted;

#[derive(Serialize)]
struct Taken {
    #[serde(flatten)]
    counted: Counted,
    #[serde(skip_serializing_if = "Option::is_none")]
    stretches: Option<Vec<Stretch>>,
    #[serde(skip_serializing_if = "Vec::is_empty")]
    votes_unknown: Vec<u64>,
    written: Vec<String>,
    #[serde(skip)]
    found: String,
}

impl Report for Taken {
    fn text(&self) -> String {
        let Counted { level, frames, .. } = self.counted;
        let head = format!("Level {level}: {frames} frames taken apart.\n");
        self.found.clone() + &head + &self.counted.table() + &written(&self.written)
    }
}

pub fn run(call: Take, mut saying: Saying) -> Result<u8, Failure> {
    let outputs = [("NOTES", call.notes.as_path()), ("TRIBUTARIES", &call.tributaries)];
    files::distinct(&[("LINE", &call.line)], &outputs)?;
    saying.aside = files::any_standard(&[&call.notes, &call.tributaries]);
    let earlier = call.after.earlier.as_deref();
    let (line, found) = Line::open_or_find(
        &call.line,
        call.of.level.as_deref(),
        earlier,
        call.finding.find,
        saying,
    )?;
    let notes = Output::create(&call.notes)?;
    let tributaries = Output::create(&call.tributaries)?;
    let bytes = quarter(line.level, line.frames);
    let apart = Apart::new(line.level, line.earlier, call.by.engine);
    let mut apart = apart.into(notes, tributaries, Some(bytes))?;
    line.runs(saying, |run| {
        if run.behind_gap {
            apart.behind_gap();
        }
        apart.run(run.line)
    })?;
    let (totals, outputs) = apart.outputs(bytes)?;
    let written = files::keep(outputs)?;
    let votes_unknown = stretches::votes_unknown(line.level, found.as_deref(), earlier.is_some());
    let text = stretches::text(line.level, found.as_deref()) + &unknown_text(&votes_unknown);
    let counted = totals.taken();
    saying.say(&Taken { counted, stretches: found, votes_unknown, written, found: text })?;
    Ok(0)
}

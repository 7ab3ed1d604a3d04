//! `keep`: makes a capture of a line, with a label where one is said; with `--find` of the first frames found in a recording.

use std::os::unix::ffi::OsStringExt;

use spritbobbin::{MOST_FRAMES, MOST_LABEL_BYTES};

use crate::captures::{self, Holds};
use crate::cli::Keep;
use crate::failure::Failure;
use crate::files::{self, Input};
use crate::level;
use crate::listening;
use crate::made::Made;
use crate::report::Saying;
use crate::runs::Line;

pub fn run(call: Keep, mut saying: Saying) -> Result<u8, Failure> {
    files::distinct(&[("LINE", &call.line)], &[("CAPTURE", &call.capture)])?;
    saying.aside = files::any_standard(&[&call.capture]);
    let of = level::level(&call.of.level)?;
    let line = if call.finding.find {
        // The first 64 frames that follow one another.
        let (mut line, stretches) = listening::found(&call.line, of, 0, saying)?;
        let first = stretches.first().map_or(0, |stretch| stretch.frames);
        line.frames = first.min(MOST_FRAMES as u64);
        line
    } else {
        let input = Input::open(&call.line)?;
        let most = (of.frame_bytes().saturating_mul(MOST_FRAMES)) as u64;
        if input.bytes() % of.frame_bytes() as u64 != 0 || input.bytes() > most {
            return Err(captures::no_line(&call.line, of, input.bytes()));
        }
        Line::of_input(input, of, 0)?
    };
    let label = call.label.map(OsStringExt::into_vec);
    if let Some(label) = label.as_ref().filter(|label| label.len() > MOST_LABEL_BYTES) {
        return Err(captures::long_label(&call.capture, label.len()));
    }
    let bytes = usize::try_from(line.bytes()).unwrap_or(0);
    let mut holds = Holds::of(of, bytes, label.as_deref());
    let mut new = Made::capture(&call.capture, of, label)?;
    line.runs(saying, |run| new.append(run.line))?;
    holds.written = new.keep()?;
    saying.say(&holds)?;
    Ok(0)
}

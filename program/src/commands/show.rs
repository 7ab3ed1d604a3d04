//! `show CAPTURE [LINE]`: says what a capture holds, and writes its line out where a file is named.

use crate::captures::{self, Holds};
use crate::cli::Show;
use crate::failure::Failure;
use crate::files::{self, Output};
use crate::report::Saying;

pub fn run(call: Show, mut saying: Saying) -> Result<u8, Failure> {
    let line = call.line.as_deref();
    if let Some(line) = line {
        files::distinct(&[("CAPTURE", &call.capture)], &[("LINE", line)])?;
        saying.aside = files::any_standard(&[line]);
    }
    let captured = captures::open(&call.capture)?;
    let mut holds = Holds::of(captured.level, captured.line.len(), captured.label.as_deref());
    if let Some(line) = line {
        let output = Output::create(line)?;
        output.write_at(0, &captured.line)?;
        holds.written = files::keep(vec![output])?;
    }
    saying.say(&holds)?;
    Ok(0)
}

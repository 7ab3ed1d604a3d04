//! `swap`: a line or a capture with one tributary written anew.

use serde::Serialize;
use spritbobbin::{vote_after, Level, MOST_FRAMES};

use crate::cli::Swap;
use crate::commands::extract::one_each;
use crate::commands::send::quarter;
use crate::failure::Failure;
use crate::files::{self, Input};
use crate::level;
use crate::made::Made;
use crate::quarters::DigitsIn;
use crate::report::{shown, written, Report, Saying};
use crate::runs::Line;

#[derive(Serialize)]
struct Swapped {
    level: u64,
    frames: u64,
    tributary: usize,
    digits: u64,
    written: Vec<String>,
}

impl Report for Swapped {
    fn text(&self) -> String {
        let Swapped { level, frames, tributary, digits, .. } = self;
        format!("Level {level}: {frames} frames, {digits} digits put into tributary {tributary}.\n")
            + &written(&self.written)
    }
}

pub fn run(call: Swap, mut saying: Saying) -> Result<u8, Failure> {
    let inputs = [("LINE", call.line.as_path()), ("NOTES", &call.notes), ("DIGITS", &call.digits)];
    files::distinct(&inputs, &[("NEW", &call.new)])?;
    saying.aside = files::any_standard(&[&call.new]);
    let (line, tributary) = opened(&call)?;
    let notes = Input::open(&call.notes)?;
    one_each(&notes, &line)?;
    let digits = Input::open(&call.digits)?;
    let wanted = quarter(line.level, line.frames);
    if digits.bytes() < wanted {
        return Err(no_digits(&digits, line.level, line.frames, wanted));
    }
    let mut new = Made::create(&call.new, &line)?;
    let mut from = DigitsIn::new(&digits, 0, digits.bytes());
    let mut buffer = vec![0; line.level.quarter_bytes(MOST_FRAMES)];
    let (mut few, mut room) = ([0; MOST_FRAMES], Vec::new());
    let (mut earlier, mut put) = (line.earlier, 0_u64);
    line.runs(saying, |run| {
        let count = run.line.len() / line.level.frame_bytes();
        let few = few.get_mut(..count).unwrap_or_default();
        notes.read_at(run.first, few)?;
        let buffer = buffer.get_mut(..line.level.quarter_bytes(count)).unwrap_or_default();
        from.fill(buffer, line.level.room_digits().saturating_mul(count))?;
        room.clear();
        room.extend_from_slice(run.line);
        let used = spritbobbin::swap(line.level, earlier, tributary, &mut room, few, buffer)?;
        from.used(used);
        put = put.saturating_add(used as u64);
        earlier = vote_after(earlier, few);
        new.append(&room)
    })?;
    let written = new.keep()?;
    let (level, frames) = (line.level.number(), line.frames);
    saying.say(&Swapped { level, frames, tributary, digits: put, written })?;
    Ok(0)
}

/// The line and the tributary. Refused in this order: of a line 1, 5, 12, 2; of a capture 9, 1, 12, 2, 5.
fn opened(call: &Swap) -> Result<(Line, usize), Failure> {
    let (of, earlier) = (call.of.level.as_deref(), call.after.earlier.as_deref());
    if let Some(word) = of {
        level::earlier(level::level(word)?, earlier)?;
        let tributary = level::tributary(&call.tributary)?;
        return Ok((Line::open(&call.line, of, earlier)?, tributary));
    }
    let line = Line::open(&call.line, of, earlier);
    if let Err(Failure::Refused { number: 2 | 5, .. }) | Ok(_) = line {
        return level::tributary(&call.tributary).and_then(|tributary| Ok((line?, tributary)));
    }
    line.map(|line| (line, 0))
}

fn no_digits(digits: &Input, of: Level, frames: u64, wanted: u64) -> Failure {
    let (name, bytes) = (shown(digits.name()), digits.bytes());
    Failure::refused(
        4,
        format!("{name} has {bytes} bytes, and a tributary of {frames} frames of {of} wants {wanted} bytes or more."),
    )
}

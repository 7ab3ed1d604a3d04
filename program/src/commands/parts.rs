//! `cut`, `split` and `join`: frames of a line as a line or a capture, and the quarters of a file of tributaries apart and together.

use std::os::unix::ffi::OsStringExt;

use serde::Serialize;
use spritbobbin::{Level, MOST_FRAMES, MOST_LABEL_BYTES};

use crate::captures;
use crate::cli::{Cut, Join, Split};
use crate::failure::Failure;
use crate::files::{self, Input, Output, CHUNK};
use crate::listening::Stretch;
use crate::made::Made;
use crate::report::{shown, written, Report, Saying};
use crate::runs::Line;
use crate::stretches;
use crate::times::{microseconds, time};

#[derive(Serialize)]
struct CutOut {
    level: u64,
    kilobits: u32,
    first: u64,
    frames: u64,
    microseconds: u64,
    #[serde(skip_serializing_if = "Option::is_none")]
    stretches: Option<Vec<Stretch>>,
    written: Vec<String>,
    #[serde(skip)]
    found: String,
    #[serde(skip)]
    time: String,
}

impl Report for CutOut {
    fn text(&self) -> String {
        let CutOut { level, kilobits, first, frames, time, .. } = self;
        let found = self.found.clone();
        let head = format!("Level {level}, {kilobits} kbit/s\nframes cut out: {frames}, from frame {first} on ({time})\n");
        found + &head + &written(&self.written)
    }
}

pub fn cut(call: Cut, mut saying: Saying) -> Result<u8, Failure> {
    files::distinct(&[("LINE", &call.line)], &[("PART", &call.part)])?;
    saying.aside = files::any_standard(&[&call.part]);
    let (line, found) =
        Line::open_or_find(&call.line, call.of.level.as_deref(), None, call.finding.find, saying)?;
    let (from, to) = (place(&call.from, line.level)?, place(&call.to, line.level)?);
    if from > to || to > line.frames {
        return Err(Failure::refused(
            2,
            format!(
                "{} has {} frames, numbered from 0: no frames {from} to {to}.",
                shown(&line.name),
                line.frames
            ),
        ));
    }
    let frames = to.saturating_sub(from);
    let label = call.label.map(OsStringExt::into_vec).or_else(|| line.label.clone());
    let mut part = if call.capture {
        if frames > MOST_FRAMES as u64 {
            let bytes = frames.saturating_mul(line.level.frame_bytes() as u64);
            return Err(captures::no_line(&call.line, line.level, bytes));
        }
        if let Some(label) = label.as_ref().filter(|label| label.len() > MOST_LABEL_BYTES) {
            return Err(captures::long_label(&call.part, label.len()));
        }
        Made::capture(&call.part, line.level, label)?
    } else {
        Made::line(&call.part)?
    };
    let mut room = Vec::new();
    let mut first = from;
    while first < to {
        let count = to.saturating_sub(first).min(1024);
        let bytes = count.saturating_mul(line.level.frame_bytes() as u64);
        room.resize(usize::try_from(bytes).unwrap_or(0), 0);
        line.read(first, &mut room)?;
        part.append(&room)?;
        first = first.saturating_add(count);
    }
    let written = part.keep()?;
    let (level, kilobits) = (line.level.number(), line.level.kilobits());
    let digit = from.saturating_mul(line.level.frame_digits() as u64);
    let text = stretches::text(line.level, found.as_deref());
    let (microseconds, time) = (microseconds(kilobits, digit), time(kilobits, digit));
    saying.say(&CutOut {
        level,
        kilobits,
        first: from,
        frames,
        microseconds,
        stretches: found,
        written,
        found: text,
        time,
    })?;
    Ok(0)
}

/// A frame by its number, or by a time in seconds: the frame that begins then, or the first after it.
fn place(word: &str, level: Level) -> Result<u64, Failure> {
    let wrong = || {
        let word = shown(word.as_ref());
        Failure::Call(format!(
            "{word} is no frame: give its number, or a time in seconds, as 0.5s."
        ))
    };
    let Some(time) = word.strip_suffix('s') else {
        return word.parse().ok().filter(|_| !word.starts_with('+')).ok_or_else(wrong);
    };
    let (whole, rest) = time.split_once('.').unwrap_or((time, ""));
    let decimal = |text: &str| text.bytes().all(|byte| byte.is_ascii_digit());
    if !decimal(whole) || !decimal(rest) || whole.is_empty() || rest.len() > 9 || whole.len() > 9 {
        return Err(wrong());
    }
    let nanoseconds: u128 = format!("{whole}{rest:0<9}").parse().map_err(|_| wrong())?;
    // Times are said to the nearest microsecond: one that was rounded up is still that of its frame.
    let nanoseconds = nanoseconds.saturating_sub(500);
    // kbit/s are digits in a millisecond.
    let digits = nanoseconds.saturating_mul(u128::from(level.kilobits())) / 1_000_000;
    let frame = level.frame_digits() as u128;
    u64::try_from(digits.saturating_add(frame.saturating_sub(1)) / frame.max(1))
        .map_err(|_| wrong())
}

#[derive(Serialize)]
struct Shared {
    quarter_bytes: u64,
    written: Vec<String>,
}

impl Report for Shared {
    fn text(&self) -> String {
        format!("four quarters of {} bytes.\n", self.quarter_bytes) + &written(&self.written)
    }
}

pub fn split(call: Split, mut saying: Saying) -> Result<u8, Failure> {
    let names = [&call.one, &call.two, &call.three, &call.four];
    let outputs: Vec<_> =
        ["ONE", "TWO", "THREE", "FOUR"].into_iter().zip(names.map(|name| name.as_path())).collect();
    files::distinct(&[("TRIBUTARIES", &call.tributaries)], &outputs)?;
    saying.aside = files::any_standard(&names.map(|name| name.as_path()));
    let tributaries = Input::open(&call.tributaries)?;
    if tributaries.bytes() % 4 != 0 {
        return Err(Failure::refused(
            4,
            format!(
                "{} has {} bytes, no four equal quarters.",
                shown(tributaries.name()),
                tributaries.bytes()
            ),
        ));
    }
    let quarter = tributaries.bytes() / 4;
    let mut outputs = Vec::new();
    for name in names {
        outputs.push(Output::create(name)?);
    }
    for (j, output) in (0_u64..).zip(&mut outputs) {
        copied(&tributaries, quarter.saturating_mul(j), quarter, |_, bytes| output.append(bytes))?;
    }
    let written = files::keep(outputs)?;
    saying.say(&Shared { quarter_bytes: quarter, written })?;
    Ok(0)
}

pub fn join(call: Join, mut saying: Saying) -> Result<u8, Failure> {
    let names = [&call.one, &call.two, &call.three, &call.four];
    let inputs: Vec<_> =
        ["ONE", "TWO", "THREE", "FOUR"].into_iter().zip(names.map(|name| name.as_path())).collect();
    files::distinct(&inputs, &[("TRIBUTARIES", &call.tributaries)])?;
    saying.aside = files::any_standard(&[&call.tributaries]);
    let mut four = Vec::new();
    for name in names {
        four.push(Input::open(name)?);
    }
    let quarter = four.iter().map(Input::bytes).max().unwrap_or(0);
    let output = Output::create(&call.tributaries)?;
    output.set_length(quarter.saturating_mul(4))?;
    for (j, one) in (0_u64..).zip(&four) {
        let start = quarter.saturating_mul(j);
        copied(one, 0, one.bytes(), |at, bytes| output.write_at(start.saturating_add(at), bytes))?;
    }
    let written = files::keep(vec![output])?;
    saying.say(&Shared { quarter_bytes: quarter, written })?;
    Ok(0)
}

/// Hands on so many bytes from a place on, chunk by chunk, each with its place among them.
fn copied(
    from: &Input,
    start: u64,
    bytes: u64,
    mut to: impl FnMut(u64, &[u8]) -> Result<(), Failure>,
) -> Result<(), Failure> {
    let mut chunk = vec![0; CHUNK];
    let mut at = 0;
    while at < bytes {
        let count = bytes.saturating_sub(at).min(CHUNK as u64);
        let slice = chunk.get_mut(..usize::try_from(count).unwrap_or(0)).unwrap_or_default();
        from.read_at(start.saturating_add(at), slice)?;
        to(at, slice)?;
        at = at.saturating_add(count);
    }
    Ok(())
}

#[cfg(test)]
mod tests {
    use super::*;

    #[test]
    fn a_time_that_was_said_is_that_of_its_frame() {
        for level in Level::ALL {
            for frame in [0, 1, 2, 100, 101, 12_345, 1_234_567] {
                let digit = frame * level.frame_digits() as u64;
                let said = microseconds(level.kilobits(), digit);
                let word = format!("{}.{:06}s", said / 1_000_000, said % 1_000_000);
                assert_eq!(place(&word, level).ok(), Some(frame), "{word} at {level}");
                let later = format!("{}.{:06}s", (said + 1) / 1_000_000, (said + 1) % 1_000_000);
                assert_eq!(place(&later, level).ok(), Some(frame + 1), "{later} at {level}");
            }
        }
    }
}

//! `send`: makes a line of any number of frames. Each tributary's digits are read on from where the run before ended.

use serde::Serialize;
use spritbobbin::{vote_after, whole_bytes, Level, Refusal, MOST_FRAMES};

use crate::cli::Send;
use crate::failure::Failure;
use crate::files::{self, Input, Output, Window};
use crate::level;
use crate::progress::Progress;
use crate::quarters::DigitsIn;
use crate::report::{shown, written, Report, Saying};
use crate::runs::in_run;
use crate::totals::{Counted, Totals};

/// What is said of every line that was made here.
pub const NO_EVIDENCE: &str =
    "This line was made here: it is no evidence of what a multiplexer sent.\n";

#[derive(Serialize)]
struct Made {
    #[serde(flatten)]
    counted: Counted,
    evidence: bool,
    written: Vec<String>,
}

impl Report for Made {
    fn text(&self) -> String {
        let Counted { level, frames, .. } = self.counted;
        let head = format!("Level {level}: {frames} frames sent.\n");
        head + &self.counted.table() + NO_EVIDENCE + &written(&self.written)
    }
}

pub fn run(call: Send, mut saying: Saying) -> Result<u8, Failure> {
    let of = level::level(&call.of.level)?;
    let earlier = level::earlier(of, call.after.earlier.as_deref())?;
    let inputs = [("NOTES", call.notes.as_path()), ("TRIBUTARIES", &call.tributaries)];
    files::distinct(&inputs, &[("LINE", &call.line)])?;
    saying.aside = files::any_standard(&[&call.line]);
    let notes = Input::open(&call.notes)?;
    let tributaries = Input::open(&call.tributaries)?;
    let wanted = quarter(of, notes.bytes());
    if tributaries.bytes() % 4 != 0 || tributaries.bytes() / 4 < wanted {
        return Err(no_room(&tributaries, of, notes.bytes(), wanted));
    }
    let mut line = Output::create(&call.line)?;
    let mut totals = Totals::of_level(of);
    let sent = frames(&call, of, earlier, &notes, &tributaries, &mut line, &mut totals, saying);
    if let Err(Stopped::Refused(refusal, first)) = &sent {
        return Err(refused(*refusal, *first, of, &notes));
    }
    if let Err(Stopped::Failed(failure)) = sent {
        return Err(failure);
    }
    let written = files::keep(vec![line])?;
    saying.say(&Made { counted: totals.sent(), evidence: false, written })?;
    Ok(0)
}

/// What ends it: a refusal of the run with this first frame, or a file.
enum Stopped {
    Refused(Refusal, u64),
    Failed(Failure),
}

impl From<Failure> for Stopped {
    fn from(failure: Failure) -> Stopped {
        Stopped::Failed(failure)
    }
}

/// All frames, 64 at a time.
#[allow(clippy::too_many_arguments)]
fn frames(
    call: &Send,
    of: Level,
    mut earlier: u8,
    notes: &Input,
    tributaries: &Input,
    line: &mut Output,
    totals: &mut Totals,
    saying: Saying,
) -> Result<(), Stopped> {
    let mut quarters = DigitsIn::quarters(tributaries);
    let mut buffer = vec![0; of.buffer_bytes(MOST_FRAMES)];
    let mut window = Window::new(notes, 0, notes.bytes());
    let progress = Progress::of(Some(tributaries.bytes()), saying);
    let mut first: u64 = 0;
    while first < notes.bytes() {
        let count = in_run(notes.bytes().saturating_sub(first));
        let few = window.get(first..first.saturating_add(count as u64))?;
        let buffer = buffer.get_mut(..of.buffer_bytes(count)).unwrap_or_default();
        let wanted = of.room_digits().saturating_mul(count);
        for (digits, to) in quarters.iter_mut().zip(buffer.chunks_mut(of.quarter_bytes(count))) {
            digits.fill(to, wanted)?;
        }
        let made = line.room(of.frame_bytes().saturating_mul(count))?;
        let sent = call.by.engine.multiplex(of, earlier, made, few, buffer);
        let sent = sent.map_err(|refusal| Stopped::Refused(refusal, first))?;
        quarters.iter_mut().zip(sent.digits).for_each(|(digits, count)| digits.used(count));
        totals.add(earlier, few, sent.digits);
        earlier = vote_after(earlier, few);
        first = first.saturating_add(count as u64);
        progress.at(whole_bytes(totals.digits.iter().sum()));
    }
    Ok(())
}

/// The bytes of a quarter for so many frames.
pub fn quarter(of: Level, frames: u64) -> u64 {
    of.quarter_bytes(usize::try_from(frames).unwrap_or(usize::MAX)) as u64
}

fn no_room(tributaries: &Input, of: Level, frames: u64, wanted: u64) -> Failure {
    let (name, bytes) = (shown(tributaries.name()), tributaries.bytes());
    Failure::refused(
        4,
        format!(
            "{name} has {bytes} bytes, and {frames} frames of {of} want four equal quarters of {wanted} bytes or more."
        ),
    )
}

/// 10 comes after 5, and 5 is asked of all notes: where a run is refused with 10, a note of any later run with a bit that the level has
/// not goes first.
fn refused(refusal: Refusal, first: u64, of: Level, notes: &Input) -> Failure {
    if let Refusal::National { frame, .. } = refusal {
        return match later(first, of, notes) {
            Ok(None) => no_national(notes, of, first.saturating_add(frame as u64)),
            Ok(Some(frame)) => no_such_bits(notes, of, frame),
            Err(failure) => failure,
        };
    }
    note_refused(refusal, first, of, notes)
}

/// The refusal of a note, in words.
pub fn note_refused(refusal: Refusal, first: u64, of: Level, notes: &Input) -> Failure {
    match refusal {
        Refusal::NoteBits { frame, .. } => {
            no_such_bits(notes, of, first.saturating_add(frame as u64))
        }
        other => other.into(),
    }
}

/// The first frame from this one on whose note has a bit that the level has not: asked of the library, by a line of so many frames that
/// is not kept.
fn later(from: u64, of: Level, notes: &Input) -> Result<Option<u64>, Failure> {
    let (line, mut buffer) = (
        vec![0; of.frame_bytes().saturating_mul(MOST_FRAMES)],
        vec![0; of.buffer_bytes(MOST_FRAMES)],
    );
    let mut few = [0; MOST_FRAMES];
    let mut first = from;
    while first < notes.bytes() {
        let count = in_run(notes.bytes().saturating_sub(first));
        let few = few.get_mut(..count).unwrap_or_default();
        notes.read_at(first, few)?;
        let line = line.get(..of.frame_bytes().saturating_mul(count)).unwrap_or_default();
        // Extraction asks nothing of the national digits.
        if let Err(Refusal::NoteBits { frame, .. }) =
            spritbobbin::extract(of, 0, line, few, &mut buffer)
        {
            return Ok(Some(first.saturating_add(frame as u64)));
        }
        first = first.saturating_add(count as u64);
    }
    Ok(None)
}

fn no_such_bits(notes: &Input, of: Level, frame: u64) -> Failure {
    let what = if of.looks_at_earlier() {
        "a bit over 3 set; a note of level 12 or 14 has votes alone"
    } else {
        "bit 6 or 7 set; only level 4 has these national digits"
    };
    Failure::refused(5, format!("{}: the note of frame {frame} has {what}.", shown(notes.name())))
}

fn no_national(notes: &Input, of: Level, frame: u64) -> Failure {
    let bits = if of == Level::Four { "bits 5, 6 and 7 are" } else { "bit 5 is" };
    Failure::refused(
        10,
        format!(
            "{}: the note of frame {frame} has a national digit of 0; at {of} {bits} 1 in every note.",
            shown(notes.name())
        ),
    )
}

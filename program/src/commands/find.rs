//! `find`: finds the frames in a recording begun anywhere, takes them apart, and writes them as they came.

use std::ffi::OsString;
use std::path::{Path, PathBuf};

use serde::Serialize;
use spritbobbin::{digits_in, Level, Mode, MOST_FRAMES};

use crate::apart::Apart;
use crate::cli::{Engine, Find};
use crate::commands::send::quarter;
use crate::failure::Failure;
use crate::files::{self, Output, Stream};
use crate::level;
use crate::listening::{add_frame, listen, Heard, Stretch};
use crate::report::{written, Report, Saying, Telling};
use crate::stretches::{self, unknown_text, votes_unknown};
use crate::times::{microseconds, time};
use crate::totals::Counted;

/// Where something changes.
#[derive(Serialize)]
struct Turn {
    event: &'static str,
    digit: u64,
    microseconds: u64,
}

/// What stands below the turns.
#[derive(Serialize)]
struct Found {
    bytes: u64,
    digits: u64,
    found: bool,
    #[serde(flatten)]
    counted: Counted,
    words_tested: u64,
    mode: &'static str,
    #[serde(skip_serializing_if = "Option::is_none")]
    words_missed: Option<u8>,
    stretches: Vec<Stretch>,
    #[serde(skip_serializing_if = "Vec::is_empty")]
    votes_unknown: Vec<u64>,
    written: Vec<String>,
    #[serde(skip)]
    level: Level,
}

/// The frames that are held until they are taken apart, and the line that they are written to.
struct Held {
    apart: Apart,
    line: Option<Output>,
    frames: Vec<u8>,
    stretches: Vec<Stretch>,
}

pub fn run(call: Find, saying: Saying) -> Result<u8, Failure> {
    let of = level::level(&call.of.level)?;
    let earlier = level::earlier(of, call.after.earlier.as_deref())?;
    let names = call
        .out
        .as_deref()
        .map(|prefix| [".line", ".notes", ".tributaries"].map(|ending| ended(prefix, ending)));
    if let Some([line, notes, tributaries]) = &names {
        let outputs = [
            ("PREFIX.line", line.as_path()),
            ("PREFIX.notes", notes),
            ("PREFIX.tributaries", tributaries),
        ];
        files::distinct(&[("RECORDING", &call.recording)], &outputs)?;
    }
    let mut stream = Stream::open(&call.recording)?;
    let frame_bytes = of.frame_bytes() as u64;
    let bound = stream.bytes().map(|bytes| quarter(of, bytes / frame_bytes));
    let mut held = Held {
        apart: Apart::new(of, earlier, Engine::Quick),
        line: None,
        frames: Vec::new(),
        stretches: Vec::new(),
    };
    if let Some([line, notes, tributaries]) = &names {
        held.line = Some(Output::create(line)?);
        let (notes, tributaries) = (Output::create(notes)?, Output::create(tributaries)?);
        held.apart = held.apart.into(notes, tributaries, bound)?;
    }
    let mut telling = saying.telling();
    if let Some(bytes) = stream.bytes() {
        telling.text(&length(of, bytes))?;
    }
    telling.list("events")?;
    let (mut found, mut lost) = (false, false);
    let listened = listen(&mut stream, of, saying, |heard| {
        found |= matches!(heard, Heard::Found { .. });
        lost |= matches!(heard, Heard::Lost { .. });
        match heard {
            Heard::Frame { frame, digit } => held.hold(of, frame.bytes(), digit),
            turn => say(&mut telling, of, &turn),
        }
    })?;
    held.flush()?;
    telling.list_ends()?;
    if stream.bytes().is_none() {
        telling.text(&length(of, listened.bytes))?;
    }
    let (totals, mut outputs) = held.apart.outputs(quarter(of, listened.bytes / frame_bytes))?;
    if let Some(line) = held.line {
        outputs.insert(0, line);
    }
    let written = files::keep(outputs)?;
    let (mode, words_missed) = mode(listened.mode);
    telling.say(&Found {
        bytes: listened.bytes,
        digits: digits_in(listened.bytes),
        found,
        counted: totals.taken(),
        words_tested: listened.words,
        mode,
        words_missed,
        votes_unknown: votes_unknown(of, Some(&held.stretches), call.after.earlier.is_some()),
        stretches: held.stretches,
        written,
        level: of,
    })?;
    telling.end()?;
    Ok(u8::from(call.check && (lost || !found)))
}

/// The prefix and an ending.
fn ended(prefix: &Path, ending: &str) -> PathBuf {
    let mut name = OsString::from(prefix);
    name.push(ending);
    name.into()
}

impl Held {
    /// Holds a frame; 64 frames are taken apart at once.
    fn hold(&mut self, of: Level, frame: &[u8], digit: u64) -> Result<(), Failure> {
        if add_frame(&mut self.stretches, of, digit) {
            self.flush()?;
            self.apart.behind_gap();
        }
        self.frames.extend_from_slice(frame);
        if self.frames.len() < of.frame_bytes().saturating_mul(MOST_FRAMES) {
            return Ok(());
        }
        self.flush()
    }

    fn flush(&mut self) -> Result<(), Failure> {
        self.apart.run(&self.frames)?;
        if let Some(line) = &mut self.line {
            line.append(&self.frames)?;
        }
        self.frames.clear();
        Ok(())
    }
}

fn length(of: Level, bytes: u64) -> String {
    let (number, digits) = (of.number(), digits_in(bytes));
    format!("Level {number}: {bytes} bytes, {digits} digits, numbered from 0.\n")
}

/// Says where alignment is found and lost, and where the alarm begins and ends.
fn say(telling: &mut Telling, of: Level, heard: &Heard<'_>) -> Result<(), Failure> {
    let (event, digit, why) = match *heard {
        Heard::Found { digit } => {
            ("found", digit, "the third good word in a row, and the first frame handed over")
        }
        Heard::Lost { digit } => {
            ("lost", digit, "the fourth wrong word in a row, and its frame is not handed over")
        }
        Heard::AlarmBegins { digit } => (
            "alarm indication begins",
            digit,
            "the second stretch in a row with few zeros ends there",
        ),
        Heard::AlarmEnds { digit } => (
            "alarm indication ends",
            digit,
            "the second stretch in a row with more zeros ends there",
        ),
        Heard::Frame { .. } => return Ok(()),
    };
    let time = time(of.kilobits(), digit);
    telling.text(&format!("{event} at digit {digit} ({time}): {why}\n"))?;
    telling.item(&Turn { event, digit, microseconds: microseconds(of.kilobits(), digit) })
}

fn mode(mode: Mode) -> (&'static str, Option<u8>) {
    match mode {
        Mode::Hunting => ("hunting", None),
        Mode::OneFound => ("one good word found", None),
        Mode::TwoFound => ("two good words found", None),
        Mode::Aligned { missed } => ("aligned", Some(missed)),
    }
}

impl Report for Found {
    fn text(&self) -> String {
        let mut text = String::new();
        if !self.found {
            text += &format!(
                "alignment was not found: three good words in a row, {} digits apart, did not come\n",
                self.level.frame_digits()
            );
        }
        text += &format!("frames handed over: {}\n", self.counted.frames);
        text += &self.counted.table();
        text += &format!("words tested: {}\n", self.words_tested);
        let missed =
            self.words_missed.map_or(String::new(), |missed| format!(", {missed} words missed"));
        text += &format!("at the end: {}{missed}\n", self.mode);
        if !self.written.is_empty() && !self.stretches.is_empty() {
            text += &stretches::text(self.level, Some(&self.stretches));
        }
        text + &unknown_text(&self.votes_unknown) + &written(&self.written)
    }
}

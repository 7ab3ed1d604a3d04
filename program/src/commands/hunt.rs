//! `hunt`: finds the frames in a recording of 2048 kbit/s begun anywhere, and says where alignment is found and lost.

use serde::Serialize;
use spritbobbin::{
    copy_digits, digits_in, span, Finder, FinderMode, Multiframe, Turn, MULTIFRAME_BYTES,
};

use crate::cli::Hunt;
use crate::failure::Failure;
use crate::files::{Input, Stream, CHUNK};
use crate::progress::Progress;
use crate::report::{Report, Saying, Telling};
use crate::times::{microseconds, time};

const KILOBITS: u32 = 2048;

/// A word's digits. A frame begins a digit before its word.
pub const WORD: u64 = 7;

#[derive(Serialize)]
struct Event {
    event: &'static str,
    digit: u64,
    microseconds: u64,
}

#[derive(Serialize)]
struct Hunted {
    kilobits: u32,
    bytes: u64,
    digits: u64,
    times_found: u64,
    times_lost: u64,
    mode: &'static str,
    #[serde(skip_serializing_if = "Option::is_none")]
    words_missed: Option<u8>,
}

pub fn run(call: Hunt, saying: Saying) -> Result<u8, Failure> {
    let mut stream = Stream::open(&call.recording)?;
    // A pipe is read once, and no multiframe is looked for in it.
    let again = match stream.bytes() {
        Some(_) => Some(Input::open(&call.recording)?),
        None => None,
    };
    let mut telling = saying.telling();
    if let Some(bytes) = stream.bytes() {
        telling.text(&length(bytes))?;
    }
    telling.list("events")?;
    let mut finder = Finder::new();
    let (mut bytes, mut found, mut lost) = (0_u64, 0_u64, 0_u64);
    let progress = Progress::of(stream.bytes(), saying);
    let mut chunk = vec![0; CHUNK];
    loop {
        let count = stream.read(&mut chunk)?;
        if count == 0 {
            break;
        }
        for turn in finder.feed(chunk.get(..count).unwrap_or_default()) {
            match turn {
                Turn::Found { .. } => found = found.saturating_add(1),
                Turn::Lost { .. } => lost = lost.saturating_add(1),
            }
            say(&mut telling, digits_in(bytes), turn)?;
            if let (Some(input), Turn::Found { digits }) = (&again, turn) {
                let digit = digits_in(bytes).saturating_add(digits as u64);
                say_start(&mut telling, input, digit.saturating_sub(WORD + 1))?;
            }
        }
        bytes = bytes.saturating_add(count as u64);
        progress.at(bytes);
    }
    telling.list_ends()?;
    if stream.bytes().is_none() {
        telling.text(&length(bytes))?;
    }
    let (mode, words_missed) = mode(finder.mode());
    telling.say(&Hunted {
        kilobits: KILOBITS,
        bytes,
        digits: digits_in(bytes),
        times_found: found,
        times_lost: lost,
        mode,
        words_missed,
    })?;
    telling.end()?;
    Ok(u8::from(call.check && (found == 0 || lost > 0)))
}

fn length(bytes: u64) -> String {
    let digits = digits_in(bytes);
    format!("{KILOBITS} kbit/s: {bytes} bytes, {digits} digits, numbered from 0.\n")
}

/// A turn after so many digits of the pieces before, said at the first digit of its word.
fn say(telling: &mut Telling, before: u64, turn: Turn) -> Result<(), Failure> {
    let (event, digits, why) = match turn {
        Turn::Found { digits } => {
            ("found", digits, "the second good word, after a second digit of 1")
        }
        Turn::Lost { digits } => ("lost", digits, "the third wrong word in a row"),
    };
    let digit = before.saturating_add(digits as u64).saturating_sub(WORD);
    let time = time(KILOBITS, digit);
    telling.text(&format!("{event} at digit {digit} ({time}): {why}\n"))?;
    telling.item(&Event { event, digit, microseconds: microseconds(KILOBITS, digit) })
}

/// Where the multiframe begins, of the sixteen frames from this digit on.
fn say_start(telling: &mut Telling, input: &Input, first: u64) -> Result<(), Failure> {
    match start(input, first)? {
        Start::Cut => Ok(()),
        Start::None => {
            telling.text("no multiframe begins in the sixteen frames from there on\n")?;
            telling.item(&Event {
                event: "no multiframe begins",
                digit: first,
                microseconds: microseconds(KILOBITS, first),
            })
        }
        Start::At(digit) => {
            let time = time(KILOBITS, digit);
            telling
                .text(&format!("multiframe begins at digit {digit} ({time}): 0000 in byte 16\n"))?;
            telling.item(&Event {
                event: "multiframe begins",
                digit,
                microseconds: microseconds(KILOBITS, digit),
            })
        }
    }
}

/// What there is of a multiframe's start in sixteen frames.
pub enum Start {
    /// At this digit of the recording.
    At(u64),
    None,
    /// The recording ends before the sixteenth.
    Cut,
}

/// The start among the sixteen frames from this digit on.
pub fn start(input: &Input, first: u64) -> Result<Start, Failure> {
    let Some(frames) = multiframe_at(input, first)? else { return Ok(Start::Cut) };
    let begin = |frame: usize| first.saturating_add((frame as u64).saturating_mul(FRAME));
    Ok(Multiframe::start(&frames).map_or(Start::None, |frame| Start::At(begin(frame))))
}

/// A frame's digits.
pub const FRAME: u64 = 256;

/// The digits of sixteen frames from this one of the recording on, where it has so many.
pub fn multiframe_at(input: &Input, first: u64) -> Result<Option<[u8; MULTIFRAME_BYTES]>, Failure> {
    let count = digits_in(MULTIFRAME_BYTES as u64);
    let wanted = span(first, count);
    if wanted.bytes.end > input.bytes() {
        return Ok(None);
    }
    let bytes = wanted.bytes.end.saturating_sub(wanted.bytes.start);
    let mut held = vec![0; usize::try_from(bytes).unwrap_or(0)];
    input.read_at(wanted.bytes.start, &mut held)?;
    let mut frames = [0; MULTIFRAME_BYTES];
    let number = |digits: u64| usize::try_from(digits).unwrap_or(0);
    copy_digits(&mut frames, 0, &held, number(wanted.first), number(count))?;
    Ok(Some(frames))
}

fn mode(mode: FinderMode) -> (&'static str, Option<u8>) {
    match mode {
        FinderMode::Hunting => ("hunting", None),
        FinderMode::WordFound => ("one good word found", None),
        FinderMode::SecondSeen => ("one good word and a second digit of 1 found", None),
        FinderMode::Aligned { missed } => ("aligned", Some(missed)),
    }
}

impl Report for Hunted {
    fn text(&self) -> String {
        let mut text = String::new();
        if self.times_found == 0 {
            text += "alignment was not found: two good words 512 digits apart, with a second digit of 1 between them, did \
                     not come\n";
        }
        text += &format!("times found: {}\ntimes lost: {}\n", self.times_found, self.times_lost);
        let missed =
            self.words_missed.map_or(String::new(), |missed| format!(", {missed} words missed"));
        text + &format!("at the end: {}{missed}\n", self.mode)
    }
}

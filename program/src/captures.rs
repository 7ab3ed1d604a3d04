//! A capture: read, refused in words, and said.

use std::path::Path;

use serde::Serialize;
use spritbobbin::{read_capture, Level, Refusal, MOST_FRAMES, MOST_LABEL_BYTES};

use crate::failure::Failure;
use crate::files::Input;
use crate::report::{quoted, shown, Report};

/// Fields in their order have at most 65,577 bytes, so that no byte after these changes what the reader answers.
const MOST: u64 = 65_600;

/// What a capture holds.
#[derive(Clone, Debug)]
pub struct Captured {
    pub level: Level,
    pub line: Vec<u8>,
    pub label: Option<Vec<u8>>,
}

/// Reads the capture of this name.
pub fn open(name: &Path) -> Result<Captured, Failure> {
    let input = Input::open(name)?;
    let file = input.all(MOST)?;
    match read_capture(&file) {
        Ok(capture) => Ok(Captured {
            level: capture.level,
            line: capture.line.into(),
            label: capture.label.map(<[u8]>::to_vec),
        }),
        Err(refusal) => Err(refused(name, refusal, &file, input.bytes())),
    }
}

/// Whether a file is a capture.
pub fn is_one(input: &Input) -> Result<bool, Failure> {
    Ok(read_capture(&input.all(MOST)?).is_ok())
}

/// Why a file is no capture: the byte, what was expected there and what stands there.
pub fn refused(name: &Path, refusal: Refusal, file: &[u8], bytes: u64) -> Failure {
    let (byte, expected, found) = match refusal {
        Refusal::Level { number } => (3, "level 2, 3, 4, 12 or 14".into(), number.to_string()),
        Refusal::Line { level, bytes } => (4, frames_of(level), format!("a line of {bytes} bytes")),
        Refusal::Field { byte } => (byte, field(file, byte).into(), stands(file, byte, bytes)),
        other => return other.into(),
    };
    let name = shown(name);
    let text = format!("{name}, byte {byte}: expected {expected}; found {found}.");
    Failure::refused(refusal.number(), text)
}

/// A line that no capture can have.
pub fn no_line(name: &Path, level: Level, bytes: u64) -> Failure {
    let expected = frames_of(level);
    Failure::refused(2, format!("{}: expected {expected}; found {bytes} bytes.", shown(name)))
}

/// A label that no capture can have.
pub fn long_label(name: &Path, bytes: usize) -> Failure {
    Failure::refused(
        9,
        format!(
            "{}, byte 0: expected a label of at most {MOST_LABEL_BYTES} bytes; found {bytes} bytes.",
            shown(name)
        ),
    )
}

fn frames_of(level: Level) -> String {
    let (number, bytes) = (level.number(), level.frame_bytes());
    format!("0 to {MOST_FRAMES} frames of level {number}, {bytes} bytes each")
}

/// What may stand at the byte that refusal 9 names.
fn field(file: &[u8], byte: usize) -> &'static str {
    let line_end = match file {
        [_, _, _, _, _, high, low, ..] => 7 + usize::from(u16::from_be_bytes([*high, *low])),
        _ => 7,
    };
    match byte {
        0 => "the level, 01 00 01 and a byte",
        4 => "the line, 02, its length in two bytes and so many bytes",
        _ if byte == line_end => {
            "the end, or a label, 03, its length up to 00 20 and so many bytes"
        }
        _ => "the end",
    }
}

/// The first three bytes of what stands there, and how many come after them.
fn stands(file: &[u8], byte: usize, bytes: u64) -> String {
    let rest = file.get(byte..).unwrap_or_default();
    let first: Vec<String> = rest.iter().take(3).map(|byte| format!("{byte:02x}")).collect();
    let (first, more) = (first.join(" "), bytes.saturating_sub(byte as u64).saturating_sub(3));
    match (first.is_empty(), more) {
        (true, _) => "the end".into(),
        (false, 0) => format!("{first} and the end"),
        (false, more) => format!("{first}, {more} bytes more and the end"),
    }
}

/// What a capture holds, as keep and show say it.
#[derive(Clone, Debug, Serialize)]
pub struct Holds {
    pub level: u64,
    pub kilobits: u32,
    pub frames: usize,
    /// The label, with U+FFFD for what is no UTF-8; nothing where there is none.
    pub label: Option<String>,
    /// As it is shown: between quotation marks, what cannot be printed as numbers; or none.
    pub label_shown: String,
    pub written: Vec<String>,
}

impl Holds {
    pub fn of(level: Level, line: usize, label: Option<&[u8]>) -> Holds {
        Holds {
            level: level.number(),
            kilobits: level.kilobits(),
            frames: line / level.frame_bytes(),
            label: label.map(|label| String::from_utf8_lossy(label).into_owned()),
            label_shown: label.map_or_else(|| "none".into(), quoted),
            written: Vec::new(),
        }
    }

    pub fn head(&self) -> String {
        let Holds { level, kilobits, frames, label_shown, .. } = self;
        format!("Level {level}, {kilobits} kbit/s\nframes: {frames}\nlabel: {label_shown}\n")
    }
}

impl Report for Holds {
    fn text(&self) -> String {
        self.head() + &crate::report::written(&self.written)
    }
}

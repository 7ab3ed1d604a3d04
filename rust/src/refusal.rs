//! Why a call was refused.

use core::fmt;

use crate::capture::MOST_LABEL_BYTES;
use crate::level::{Level, MOST_BYTES, MOST_FRAMES};
use crate::rack::MOST_LINES;

/// Why a call was refused. A refused call has written nothing that it was lent.
///
/// Printed, it says what is wrong, where, and what to do:
///
/// ```
/// use spritbobbin::{multiplex, Level};
///
/// let mut line = [0; 3 * 106];
/// let refusal = multiplex(Level::Two, 0, &mut line, &[0x20, 0x20, 0x60], &[0; 312]).unwrap_err();
/// assert_eq!(refusal.number(), 5);
/// assert_eq!(
///     refusal.to_string(),
///     "the note of frame 2 (counted from 0) has bit 6 or 7 set: clear both, \
///      since level 2 has only one national digit, bit 5"
/// );
/// ```
#[derive(Clone, Copy, Debug, PartialEq, Eq, Hash)]
#[non_exhaustive]
pub enum Refusal {
    /// There is no level of this number.
    Level {
        /// The number given.
        number: u64,
    },
    /// The line is not a whole number of frames, or has over 64.
    Line {
        /// The level asked for.
        level: Level,
        /// The line's bytes.
        bytes: usize,
    },
    /// A piece's slice is over 65,536 bytes.
    Slice {
        /// The slice's bytes.
        bytes: usize,
    },
    /// The notes are not one byte for each frame.
    Notes {
        /// The notes' bytes.
        bytes: usize,
        /// The frames of the line.
        frames: usize,
    },
    /// The buffer is not four equal quarters, or they are too short.
    Buffer {
        /// The level asked for.
        level: Level,
        /// The buffer's bytes.
        bytes: usize,
        /// The frames of the line.
        frames: usize,
    },
    /// A buffer for one tributary is too short.
    OneBuffer {
        /// The level asked for.
        level: Level,
        /// The buffer's bytes.
        bytes: usize,
        /// The frames of the line.
        frames: usize,
    },
    /// What was sent is not four equal quarters.
    Quarters {
        /// Its bytes.
        bytes: usize,
    },
    /// The earlier vote is over 15.
    Earlier {
        /// The level asked for.
        level: Level,
        /// The vote given.
        earlier: u8,
    },
    /// The vote of the frame that comes next is over 15.
    Next {
        /// The vote given.
        next: u8,
    },
    /// A note has a bit that notes of its level have not.
    NoteBits {
        /// The level asked for.
        level: Level,
        /// The first such frame, counted from 0.
        frame: usize,
    },
    /// A note to be sent at level 2, 3 or 4 has a national digit of 0.
    National {
        /// The level asked for.
        level: Level,
        /// The first such frame, counted from 0.
        frame: usize,
    },
    /// A receiver state is not valid.
    State,
    /// A piece asks for digits past the end of its slice.
    Digits {
        /// The first digit asked for.
        first: usize,
        /// How many digits were asked for.
        count: usize,
        /// The slice's bytes.
        bytes: usize,
    },
    /// A frame, or a multiframe, has no place of this number.
    Place {
        /// The place asked for, counted from 0.
        place: usize,
        /// How many places it has.
        places: usize,
    },
    /// A rack has no line of this number.
    RackLine {
        /// The line asked for, counted from 0.
        line: usize,
        /// How many lines the rack has.
        lines: usize,
    },
    /// A rack is to have over 64 lines.
    Rack {
        /// How many were asked for.
        lines: usize,
    },
    /// A capture's label is over 32 bytes.
    Label {
        /// The label's bytes.
        bytes: usize,
    },
    /// A buffer is shorter than the file that is to be written into it.
    File {
        /// The buffer's bytes.
        bytes: usize,
        /// The file's bytes.
        needed: usize,
    },
    /// What is read is no run of a capture's fields.
    Field {
        /// Where the field at fault begins or should begin, counted from 0.
        byte: usize,
    },
    /// The signalling of one of channels 1 to 15 of a multiframe is 0000.
    Signalling {
        /// The first such channel.
        channel: usize,
    },
    /// There is no tributary of this number.
    Tributary {
        /// The number given.
        number: usize,
    },
    /// A number that this crate does not know: the library is of another version.
    Unknown {
        /// The number that the library returned.
        number: u64,
    },
}

impl Refusal {
    /// The refusal's number in the specification and in the C header.
    pub fn number(&self) -> u64 {
        match self {
            Refusal::Level { .. } => 1,
            Refusal::Line { .. } | Refusal::Slice { .. } | Refusal::Rack { .. } => 2,
            Refusal::Notes { .. } => 3,
            Refusal::Buffer { .. } | Refusal::OneBuffer { .. } => 4,
            Refusal::Quarters { .. } | Refusal::File { .. } => 4,
            Refusal::Earlier { .. } | Refusal::Next { .. } | Refusal::NoteBits { .. } => 5,
            Refusal::State => 6,
            Refusal::Digits { .. } | Refusal::Place { .. } => 7,
            Refusal::RackLine { .. } => 8,
            Refusal::Label { .. } | Refusal::Field { .. } => 9,
            Refusal::National { .. } => 10,
            Refusal::Signalling { .. } => 11,
            Refusal::Tributary { .. } => 12,
            Refusal::Unknown { number } => *number,
        }
    }
}

#[cfg(feature = "std")]
impl std::error::Error for Refusal {}

impl fmt::Display for Refusal {
    fn fmt(&self, out: &mut fmt::Formatter<'_>) -> fmt::Result {
        match *self {
            Refusal::Level { number } => wrong_level(out, number),
            Refusal::Line { level, bytes } => wrong_line(out, level, bytes),
            Refusal::Slice { bytes } => write!(
                out,
                "a piece of {bytes} bytes is too long: feed at most {MOST_BYTES} bytes at a time"
            ),
            Refusal::Notes { bytes, frames } => write!(
                out,
                "the notes have {} and the line has {}: give each frame one byte",
                counted(bytes, "byte"),
                counted(frames, "frame")
            ),
            Refusal::Buffer { level, bytes, frames } => wrong_buffer(out, level, bytes, frames),
            Refusal::OneBuffer { level, bytes, frames } => write!(
                out,
                "a buffer of {bytes} bytes is too short for a tributary: for {} of {level} give \
                 {} or more",
                counted(frames, "frame"),
                level.quarter_bytes(frames)
            ),
            Refusal::Quarters { bytes } => write!(
                out,
                "what was sent has {}, which are not four equal quarters: give a multiple of 4",
                counted(bytes, "byte")
            ),
            Refusal::Next { next } => write!(
                out,
                "the vote of the next frame is {next}: give 0 to 15, a bit to each tributary, or none \
                 where it is not known"
            ),
            Refusal::Earlier { level, earlier } => write!(
                out,
                "the earlier vote is {earlier}: give 0 to 15, a bit to each tributary, \
                 since frame 0 of {level} acts on it too"
            ),
            Refusal::NoteBits { level, frame } => wrong_note(out, level, frame),
            Refusal::National { level, frame } => no_national(out, level, frame),
            Refusal::State => write!(
                out,
                "the receiver state is not valid: resume from one that a receiver gave, \
                 or begin with a new receiver"
            ),
            Refusal::Digits { first, count, bytes } => write!(
                out,
                "{count} digits from digit {first} on do not fit in a slice of {bytes} bytes: \
                 ask for no digit past the slice's end"
            ),
            Refusal::Place { place, places } => {
                write!(out, "there is no place {place}: ask for one of {places}, counted from 0")
            }
            Refusal::RackLine { line, lines } => write!(
                out,
                "there is no line {line} (counted from 0): the rack has {}",
                counted(lines, "line")
            ),
            Refusal::Rack { lines } => {
                write!(out, "a rack of {lines} lines is too large: give it at most {MOST_LINES}")
            }
            Refusal::Label { bytes } => write!(
                out,
                "a label of {bytes} bytes is too long: give at most {MOST_LABEL_BYTES} bytes"
            ),
            Refusal::File { bytes, needed } => write!(
                out,
                "the file has {} and there is room for {bytes}: give a buffer of {needed}",
                counted(needed, "byte")
            ),
            Refusal::Field { byte } => write!(
                out,
                "this is no capture: a field is wrong, missing or cut off at byte {byte} \
                 (counted from 0), or bytes follow there"
            ),
            Refusal::Signalling { channel } => write!(
                out,
                "the signalling of channel {channel} is 0000: give channels 1 to 15 another, \
                 since 0000 marks frame 0"
            ),
            Refusal::Tributary { number } => {
                write!(out, "there is no tributary {number}: give 1, 2, 3 or 4")
            }
            Refusal::Unknown { number } => write!(
                out,
                "refused with {number}, which this crate does not know: \
                 use the crate and the library of one version"
            ),
        }
    }
}

fn wrong_level(out: &mut fmt::Formatter<'_>, number: u64) -> fmt::Result {
    let [a, b, c, d, e] = Level::ALL.map(Offered);
    write!(
        out,
        "there is no level {number}: use {a}, {b}, {c}, or with positive/zero/negative \
         justification {d} or {e}"
    )
}

fn wrong_note(out: &mut fmt::Formatter<'_>, level: Level, frame: usize) -> fmt::Result {
    write!(out, "the note of frame {frame} (counted from 0) has ")?;
    if level.looks_at_earlier() {
        write!(out, "one of bits 4 to 7 set: clear them, since a note of {level} has only votes")
    } else {
        write!(out, "bit 6 or 7 set: clear both, since {level} has only one national digit, bit 5")
    }
}

fn no_national(out: &mut fmt::Formatter<'_>, level: Level, frame: usize) -> fmt::Result {
    let bits = if level.national_bits() == 0x20 { "bit 5" } else { "bits 5, 6 and 7" };
    write!(
        out,
        "the note of frame {frame} (counted from 0) has a national digit of 0: set {bits}, \
         since {level} sends national digits as 1"
    )
}

fn wrong_line(out: &mut fmt::Formatter<'_>, level: Level, bytes: usize) -> fmt::Result {
    let frame = level.frame_bytes();
    if bytes % frame == 0 {
        let frames = bytes / frame;
        write!(out, "a line of {frames} frames is too long: give at most {MOST_FRAMES} at a time")
    } else {
        write!(
            out,
            "a line of {bytes} bytes is not a whole number of frames: \
             at {level} a frame has {frame} bytes"
        )
    }
}

fn wrong_buffer(
    out: &mut fmt::Formatter<'_>,
    level: Level,
    bytes: usize,
    frames: usize,
) -> fmt::Result {
    let fault = if bytes % 4 == 0 { "is too short" } else { "is not four equal quarters" };
    write!(
        out,
        "a buffer of {bytes} bytes {fault}: for {} of {level} give {} bytes, \
         or a larger multiple of 4",
        counted(frames, "frame"),
        level.buffer_bytes(frames)
    )
}

/// A level as it is offered: its number and its rate.
struct Offered(Level);

impl fmt::Display for Offered {
    fn fmt(&self, out: &mut fmt::Formatter<'_>) -> fmt::Result {
        write!(out, "{} ({} kbit/s)", self.0.number(), self.0.kilobits())
    }
}

/// So many of something, as it is said.
struct Counted(usize, &'static str);

fn counted(number: usize, what: &'static str) -> Counted {
    Counted(number, what)
}

impl fmt::Display for Counted {
    fn fmt(&self, out: &mut fmt::Formatter<'_>) -> fmt::Result {
        let Counted(number, what) = *self;
        write!(out, "{number} {what}{}", if number == 1 { "" } else { "s" })
    }
}

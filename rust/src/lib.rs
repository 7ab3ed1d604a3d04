//! Frames of 8448, 34368 and 139264 kbit/s (G.742, G.751), and the older frames of 8448 and 139264
//! kbit/s with positive/zero/negative justification: built, taken apart, and found in a stream of
//! digits.
//!
//! This crate is a thin, safe face of a library whose every answer is proved. It adds Rust's
//! habits (slices, `Result`, iterators) and decides nothing itself.
//!
//! It allocates nothing and needs no standard library: without the feature `std`, which is on unless
//! it is turned off, only [`FrameStream`] and `std::error::Error` of the errors are missing.
//!
//! - [`multiplex`] builds the frames of a line out of four tributaries; [`read_notes`] reads the
//!   notes of a line, and [`extract`] takes the tributaries out again by notes. [`plain`] has the
//!   same three by a second engine, digit by digit.
//! - [`swap`] rewrites one tributary of a line in place; [`repair`] sets right what is known of a worn
//!   line, and [`repair_capture`] that of a capture.
//! - [`late_multiplex`] builds the line of a multiplexer that acts a frame late, for demonstrations.
//! - [`begins`] finds where a recording begins in what was sent.
//! - [`judge`] reads a line by the decision of its own frame, of the frame before and of the frame
//!   after, and says by which it is what was sent.
//! - A [`VerdictState`] does so over a recording of any length, worn and slipped as recordings are: it
//!   explains each reading as cheaply as possible by wrong digits and slips.
//! - A [`Receiver`] finds frames in a stream that comes in pieces of any size; a [`FrameStream`]
//!   reads the stream too.
//! - A [`Rack`] keeps the receivers of up to 64 lines.
//! - A [`Finder`] finds the frames of a 2048 kbit/s line.
//! - [`digits`] walks over the digits of a line; [`copy_digits`] carries digits from slice to slice.
//! - [`write_capture`] keeps a line in a file, [`read_capture`] reads it back.
//! - [`compare`] says where two captures differ, by the kind of place and the tributary;
//!   [`compare_lines`] and [`compare_stretch`] say it of two lines and of a stretch of them.
//! - [`Multiframe::build`] builds a multiframe of 2048 kbit/s, [`Multiframe::apart`] takes one apart,
//!   [`Multiframe::start`] finds where one begins.
//! - [`place`](place()) and [`multiframe_place`] say what a place of a frame is, and of a multiframe.
//! - [`version`] is that of the library.
//!
//! # Digits, quarters, notes
//!
//! Digits are packed eight to a byte, the first in the most significant bit. A line is 0 to 64
//! whole frames. The digits of the four tributaries stand in one buffer of four equal quarters,
//! quarter j for tributary j; [`Level::buffer_bytes`] says how long it must be.
//!
//! Each frame has a note, one byte:
//!
//! | bit | value | 1 means | levels |
//! |---|---|---|---|
//! | 0 to 3 | 1, 2, 4, 8 | tributary 1 to 4 is stuffed in this frame | 2 to 4 |
//! | 0 to 3 | 1, 2, 4, 8 | the vote of tributary 1 to 4 is 1 | 12, 14 |
//! | 4 | 16 | the remote alarm digit is 1 | 2 to 4 |
//! | 5 | 32 | the first national digit is 1 | 2 to 4 |
//! | 6, 7 | 64, 128 | the second, third national digit is 1 | 4 |
//!
//! A stuffed tributary sends one digit fewer in that frame. National digits are retired: a note that
//! is sent has them all 1, which are its level's [`Level::national_bits`]. A note that is read has them
//! as they came.
//!
//! # Levels 12 and 14
//!
//! With positive/zero/negative justification a frame acts on its own vote and on that of the frame
//! before it. Both 1: the tributary is stuffed. Both 0: its negative place carries a digit too, and
//! it sends one more. Otherwise neither.
//!
//! The vote before the first frame of a line is given as `earlier`, a number from 0 to 15, to
//! [`multiplex`] and [`extract`]; levels 2 to 4 do not look at it. Where a run of frames goes on in
//! the next line, [`vote_after`] is that line's earlier vote.
//!
//! # Example
//!
//! ```
//! use spritbobbin::{extract, multiplex, read_notes, Level, Receiver};
//!
//! # fn main() -> Result<(), spritbobbin::Refusal> {
//! let level = Level::Two;
//! // Tributary 1 is stuffed in the first of three frames; the national digit is 1 in each.
//! let notes = [0b0010_0001, 0b0010_0000, 0b0010_0000];
//! let buffer = vec![0b1010_1010; level.buffer_bytes(notes.len())];
//! let mut line = vec![0; notes.len() * level.frame_bytes()];
//!
//! let sent = multiplex(level, 0, &mut line, &notes, &buffer)?;
//! assert_eq!(sent.digits, [3 * 206 - 1, 3 * 206, 3 * 206, 3 * 206]);
//!
//! let (mut notes_back, mut buffer_back) = ([0; 3], vec![0; buffer.len()]);
//! read_notes(level, &line, &mut notes_back)?;
//! assert_eq!(notes_back, notes);
//! let extracted = extract(level, 0, &line, &notes_back, &mut buffer_back)?;
//! assert_eq!(extracted.digits, sent.digits);
//!
//! // A receiver hands over the frame that begins with the third good word in a row.
//! let mut receiver = Receiver::new(level);
//! let frames: Vec<_> = receiver.feed(&line).collect();
//! assert_eq!(frames.len(), 1);
//! assert_eq!(frames[0].bytes(), &line[2 * level.frame_bytes()..]);
//! # Ok(())
//! # }
//! ```

#![cfg_attr(not(feature = "std"), no_std)]
#![warn(missing_docs)]

mod beginning;
mod capture;
mod comparison;
mod copying;
mod finder;
mod judging;
mod level;
mod line;
mod multiframe;
mod multiplexing;
mod note;
mod place;
pub mod plain;
mod rack;
mod raw;
mod receiver;
mod refusal;
mod repairing;
mod span;
#[cfg(feature = "std")]
mod stream;
mod swapping;
mod verdict;
mod version;

pub use beginning::{begins, Beginning};
pub use capture::{capture_bytes, read_capture, write_capture, Capture, MOST_LABEL_BYTES};
pub use comparison::{
    compare, compare_lines, compare_stretch, Differences, FileOf, LinePlace, Listed, NotCompared,
    OfTributary, MOST_LISTED,
};
pub use copying::copy_digits;
pub use finder::{Finder, FinderMode, FinderState, FinderTaken, Turn, Turns};
pub use judging::{judge, Pattern, Reading, SentInto, Verdict};
pub use level::{Level, MOST_BYTES, MOST_FRAMES};
pub use line::{digits, line_digit, Digits};
pub use multiframe::{Multiframe, MULTIFRAME_BYTES};
pub use multiplexing::{
    extract, late_multiplex, multiplex, read_notes, vote_after, Extracted, Noted, Sent,
};
pub use note::Note;
pub use place::{multiframe_place, place, Kind, MultiframePlace, Place};
pub use rack::{Rack, RackFrames, MOST_LINES};
pub use receiver::{Frame, Frames, Mode, Receiver, State, Taken};
pub use refusal::Refusal;
pub use repairing::{repair, repair_capture, Repaired};
pub use span::{digits_in, span, whole_bytes, Span};
#[cfg(feature = "std")]
pub use stream::FrameStream;
pub use swapping::swap;
pub use verdict::{Explanation, TributaryVerdict, VerdictState};
pub use version::{version, Version};

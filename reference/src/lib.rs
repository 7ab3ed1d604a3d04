//! A second implementation of the three multiplex levels with positive justification and of
//! the two with positive, zero and negative, written from the specification alone, to compare
//! the product with.
//!
//! It works on lists of digits, one digit to an element: a frame is first laid out as a
//! list of named places and then filled place by place. It is meant to be plainly right,
//! not fast. All numbers are `u64` and are judged as they are: nothing wraps, and no
//! input makes a call panic.

#![forbid(unsafe_code)]

pub mod alarm;
mod beginning;
mod captures;
mod comparison;
mod copying;
pub mod digits;
mod finder;
pub mod frame;
pub mod history;
pub mod judging;
pub mod level;
mod multiframe;
mod multiplexing;
mod rack;
pub mod random;
mod receiver;
mod repairing;
mod swapping;
pub mod verdict;

pub use beginning::{begins, begins_refusal, multiframe_start};
pub use captures::{read_capture, write_capture, Read, Written};
pub use comparison::{compare, compare_lines, compare_stretch, lines_refusal};
pub use comparison::{sum, Differences, MOST_LISTED};
pub use copying::{copy_digits, copy_refusal};
pub use finder::{finder_feed, finder_refusal, FinderState, Found};
pub use finder::{FRAME_DIGITS, SECOND_PLACE, WORD, WORD_PLACE};
pub use judging::{judge, judge_refusal, Judged, Reading, Verdict};
pub use multiframe::{
    build_multiframe, multiframe_place, multiframe_refusal, take_multiframe_apart,
};
pub use multiplexing::{
    extract, frames_refusal, late_multiplex, length_refusal, multiplex, read_notes, Counted, Noted,
};
pub use rack::{rack_aligned, rack_feed, rack_refusal, rack_reset, Told, MOST_RECORDS};
pub use receiver::{feed, feed_refusal, fresh, line_digit, Fed, State};
pub use repairing::{repair, repair_refusal, Repaired};
pub use swapping::{swap, swap_refusal, Swapped};

//! One tributary of a line swapped for another: request 12.

use crate::digits::{pack, unpack};
use crate::frame::{self, Waiting};
use crate::level::row;
use crate::multiplexing::{frames_refusal, with_before, wrong_earlier};

/// What swapping answers.
#[derive(Clone, Debug, Default, PartialEq, Eq)]
pub struct Swapped {
    pub refusal: u64,
    /// The digits taken from the buffer.
    pub taken: u64,
}

/// The refusals of swapping, in their order. It takes lengths and not slices, so that it also
/// answers for lengths that no memory holds.
pub fn swap_refusal(
    level: u64,
    earlier: u64,
    tributary: u64,
    [line_bytes, notes_bytes, buffer_bytes]: [u64; 3],
) -> u64 {
    let row = match row(level) {
        Some(row) => row,
        None => return 1,
    };
    if !(1..=4).contains(&tributary) {
        return 12;
    }
    let refusal = frames_refusal(level, line_bytes, notes_bytes);
    if refusal != 0 {
        return refusal;
    }
    // Wider numbers: eight times the buffer need not fit in 64 bits.
    let needed = u128::from(notes_bytes) * row.most_digits() as u128;
    if u128::from(buffer_bytes) * 8 < needed {
        return 4;
    }
    if wrong_earlier(row, earlier) {
        return 5;
    }
    0
}

/// Writes the tributary's own places of the line from the buffer's digits, by its own bit of the
/// notes and of the vote before frame 0. No other bit is looked at and no other digit touched.
pub fn swap(
    level: u64,
    earlier: u64,
    tributary: u64,
    line: &mut [u8],
    notes: &[u8],
    buffer: &[u8],
) -> Swapped {
    let lengths = [line.len(), notes.len(), buffer.len()].map(|n| n as u64);
    let refusal = swap_refusal(level, earlier, tributary, lengths);
    let row = match row(level).filter(|_| refusal == 0) {
        Some(row) => row,
        None => return Swapped { refusal, taken: 0 },
    };
    let most = notes.len() * row.most_digits();
    let mut waiting = Waiting::from(unpack(buffer, most));
    let held = waiting.len();
    let j = tributary as usize - 1;
    let frames = line.chunks_mut(row.frame_bytes());
    for ((before, note), bytes) in with_before(earlier, notes).zip(frames) {
        let mut digits = unpack(bytes, row.frame_digits);
        frame::put(row, before, note, j, &mut waiting, &mut digits);
        bytes.copy_from_slice(&pack(&digits));
    }
    Swapped { refusal: 0, taken: (held - waiting.len()) as u64 }
}

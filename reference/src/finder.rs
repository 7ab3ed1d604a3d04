//! Finding the frames of a 2048 kbit/s line, by request 3's rule: a good word, a second digit
//! of 1 one frame later, a good word after that; lost after three wrong words in a row. It
//! answers for any given state, also for states that no stream leads to.

use crate::digits::{number, of_number};
use crate::level::MOST_BYTES;
use crate::receiver::line_digit;

/// Byte 0 of even frames ends in these digits.
pub const WORD: [u8; 7] = [0, 0, 1, 1, 0, 1, 1];

/// A frame has 32 bytes.
pub const FRAME_DIGITS: u64 = 256;

/// Where a word's last digit stands in byte 0, and the second digit, counted from 0.
const WORD_ENDS: u64 = 7;
const SECOND_DIGIT: u64 = 1;

/// The place of the next frame's second digit, counted from the word's last digit.
pub const SECOND_PLACE: u64 = FRAME_DIGITS + SECOND_DIGIT - WORD_ENDS;

/// The place of the next word's last digit: words stand in every second frame.
pub const WORD_PLACE: u64 = 2 * FRAME_DIGITS;

/// The finder's state as numbers. The window's newest digit is worth 1; the mode is 0
/// hunting, 1 word found, 2 second digit seen, 3 + m aligned with m words missed.
#[derive(Clone, Copy, Debug, Default, PartialEq, Eq)]
pub struct FinderState {
    pub window: u64,
    pub seen: u64,
    pub mode: u64,
    pub place: u64,
}

#[derive(Clone, Debug, PartialEq, Eq)]
pub struct Found {
    pub refusal: u64,
    pub taken: u64,
    pub aligned: bool,
    pub state: FinderState,
}

/// Feeds the digits `first` to `first + count - 1` of the slice, up to the digit at which
/// alignment is found or lost. A fresh state is the default one.
pub fn finder_feed(state: &FinderState, piece: &[u8], first: u64, count: u64) -> Found {
    let refusal = finder_refusal(state, piece.len() as u64, first, count);
    if refusal != 0 {
        return Found { refusal, taken: 0, aligned: false, state: *state };
    }
    let (mut state, mut taken) = (*state, 0);
    while taken < count {
        let before = is_aligned(&state);
        state = after(&state, line_digit(piece, first + taken) as u8);
        taken += 1;
        if is_aligned(&state) != before {
            break;
        }
    }
    Found { refusal: 0, taken, aligned: is_aligned(&state), state }
}

/// The refusals of a piece, in their order, by the slice's length only.
pub fn finder_refusal(state: &FinderState, slice_bytes: u64, first: u64, count: u64) -> u64 {
    if !valid(state) {
        6
    } else if slice_bytes > MOST_BYTES {
        2
    } else if u128::from(first) + u128::from(count) > u128::from(slice_bytes) * 8 {
        7
    } else {
        0
    }
}

fn is_aligned(state: &FinderState) -> bool {
    state.mode >= 3
}

fn valid(state: &FinderState) -> bool {
    let seven = WORD.len() as u64;
    let placed = match state.mode {
        0 => state.place == 0,
        1 => state.place < SECOND_PLACE,
        2 => (SECOND_PLACE..WORD_PLACE).contains(&state.place),
        3..=5 => state.place < WORD_PLACE,
        _ => false,
    };
    let came = state.seen <= seven && (state.mode == 0 || state.seen == seven);
    state.window < 1 << seven && came && placed
}

/// One digit: the window first, then the rule of the mode.
fn after(state: &FinderState, digit: u8) -> FinderState {
    let mut window = of_number(state.window, WORD.len());
    window.remove(0);
    window.push(digit);
    let good = window == WORD;
    let seen = (state.seen + 1).min(WORD.len() as u64);
    let place = state.place + 1;
    let (mode, place) = match state.mode {
        0 if good && seen == WORD.len() as u64 => (1, 0),
        0 => (0, 0),
        1 if place == SECOND_PLACE => {
            if digit == 1 {
                (2, place)
            } else {
                (0, 0)
            }
        }
        2 if place == WORD_PLACE => (if good { 3 } else { 0 }, 0),
        aligned if place == WORD_PLACE => match aligned - 3 {
            _ if good => (3, 0),
            2 => (0, 0),
            missed => (3 + missed + 1, 0),
        },
        mode => (mode, place),
    };
    FinderState { window: number(&window), seen, mode, place }
}

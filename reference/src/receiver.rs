//! Finding frames in a stream: the table of modes, word for word, on a plain struct, and
//! alarm indication. It answers for any given state, also for states that no stream leads
//! to.

use crate::alarm::Stretches;
use crate::digits::{number, of_number, pack, unpack};
use crate::level::{row, Row, MOST_BYTES, STORE_BYTES};

/// The receiver's state as numbers. The window's newest digit is worth 1; the mode is 0
/// hunting, 1 one found, 2 two found, 3 + m aligned with m missed. Then the stretch: its
/// digits and zeros so far, 1 if the stretch before it had few zeros, 1 if the alarm stands.
#[derive(Clone, Debug, PartialEq, Eq)]
pub struct State {
    pub level: u64,
    pub window: u64,
    pub seen: u64,
    pub mode: u64,
    pub place: u64,
    pub stretch_digits: u64,
    pub stretch_zeros: u64,
    pub few_before: u64,
    pub alarm: u64,
    pub frame: [u8; STORE_BYTES],
}

#[derive(Clone, Debug, PartialEq, Eq)]
pub struct Fed {
    pub refusal: u64,
    pub taken: u64,
    pub ready: bool,
    /// Whether the alarm stands at the end.
    pub alarm: bool,
    /// At how many of the digits the rule asked for a good word.
    pub words: u64,
    pub state: State,
}

/// A fresh state of the level, or refusal 1 and a state that is zero throughout.
pub fn fresh(level: u64) -> (u64, State) {
    let (refusal, level) = if row(level).is_some() { (0, level) } else { (1, 0) };
    let state = State {
        level,
        window: 0,
        seen: 0,
        mode: 0,
        place: 0,
        stretch_digits: 0,
        stretch_zeros: 0,
        few_before: 0,
        alarm: 0,
        frame: [0; STORE_BYTES],
    };
    (refusal, state)
}

/// Feeds the digits `first` to `first + count - 1` of the slice, up to the digit that
/// completes a frame.
pub fn feed(state: &State, piece: &[u8], first: u64, count: u64) -> Fed {
    let refusal = feed_refusal(state, piece.len() as u64, first, count);
    let row = match row(state.level).filter(|_| refusal == 0) {
        Some(row) => row,
        None => {
            let state = state.clone();
            return Fed { refusal, taken: 0, ready: false, alarm: false, words: 0, state };
        }
    };
    let mut receiver = Receiver::of(row, state);
    let (mut taken, mut words, mut ready) = (0, 0, false);
    while taken < count && !ready {
        words += u64::from(receiver.digit(line_digit(piece, first + taken) as u8));
        taken += 1;
        ready = receiver.hands_over();
    }
    let (alarm, state) = (receiver.stretches.alarm, receiver.state());
    Fed { refusal: 0, taken, ready, alarm, words, state }
}

/// The digit at a place of the line, or 2 where the line has ended.
pub fn line_digit(line: &[u8], place: u64) -> u64 {
    let bytes = line.len() as u64;
    if bytes > MOST_BYTES || place / 8 >= bytes {
        return 2;
    }
    let byte = line[(place / 8) as usize];
    u64::from(unpack(&[byte], 8)[(place % 8) as usize])
}

/// The refusals of a piece, in their order. It takes the slice's length only, so that it
/// also answers for lengths that no memory holds.
pub fn feed_refusal(state: &State, slice_bytes: u64, first: u64, count: u64) -> u64 {
    if !valid(state) {
        return 6;
    }
    if slice_bytes > MOST_BYTES {
        return 2;
    }
    // Wider numbers: the sum is the exact one, even where it does not fit in 64 bits.
    if u128::from(first) + u128::from(count) > u128::from(slice_bytes) * 8 {
        return 7;
    }
    0
}

fn valid(state: &State) -> bool {
    let row = match row(state.level) {
        Some(row) => row,
        None => return false,
    };
    let length = row.word_length() as u64;
    let hunting = state.mode == 0;
    state.window < 1 << length
        && state.seen <= length
        && state.mode <= 3 + 3
        && state.place < row.frame_digits as u64
        && (!hunting || state.place == 0)
        && (hunting || state.seen >= length)
        && state.stretch_digits < row.frame_digits as u64
        && state.stretch_zeros <= state.stretch_digits
        && state.few_before <= 1
        && state.alarm <= 1
}

#[derive(Clone, Copy, PartialEq)]
enum Mode {
    Hunting,
    OneFound,
    TwoFound,
    Aligned(u64),
}

/// The state with all digits in lists.
struct Receiver<'a> {
    row: &'a Row,
    word: Vec<u8>,
    window: Vec<u8>,
    seen: usize,
    mode: Mode,
    place: usize,
    store: Vec<u8>,
    stretches: Stretches,
}

impl Receiver<'_> {
    fn of<'a>(row: &'a Row, state: &State) -> Receiver<'a> {
        Receiver {
            row,
            word: row.word_digits(),
            window: of_number(state.window, row.word_length()),
            seen: state.seen as usize,
            mode: match state.mode {
                0 => Mode::Hunting,
                1 => Mode::OneFound,
                2 => Mode::TwoFound,
                more => Mode::Aligned(more - 3),
            },
            place: state.place as usize,
            store: unpack(&state.frame, STORE_BYTES * 8),
            stretches: Stretches {
                digits: state.stretch_digits as usize,
                zeros: state.stretch_zeros as usize,
                few_before: state.few_before == 1,
                alarm: state.alarm == 1,
            },
        }
    }

    fn state(&self) -> State {
        let mut frame = [0; STORE_BYTES];
        frame.copy_from_slice(&pack(&self.store));
        State {
            level: self.row.level,
            window: number(&self.window),
            seen: self.seen as u64,
            mode: match self.mode {
                Mode::Hunting => 0,
                Mode::OneFound => 1,
                Mode::TwoFound => 2,
                Mode::Aligned(missed) => 3 + missed,
            },
            place: self.place as u64,
            stretch_digits: self.stretches.digits as u64,
            stretch_zeros: self.stretches.zeros as u64,
            few_before: u64::from(self.stretches.few_before),
            alarm: u64::from(self.stretches.alarm),
            frame,
        }
    }

    /// One digit: the window first, then the row of the table, then the frame in hand. Answers
    /// whether the rule of the mode asked for a good word: in hunting from the L-th digit since
    /// reset on, else where the place comes to N.
    fn digit(&mut self, digit: u8) -> bool {
        self.stretches.digit(self.row, digit);
        let length = self.row.word_length();
        self.window.remove(0);
        self.window.push(digit);
        self.seen = length.min(self.seen + 1);
        let good = self.window == self.word;
        match self.mode {
            Mode::Hunting if self.seen < length => false,
            Mode::Hunting => {
                if good {
                    self.go(Mode::OneFound);
                }
                true
            }
            _ => {
                self.place += 1;
                if self.place == self.row.frame_digits {
                    self.go(self.next_mode(good));
                    return true;
                }
                if self.place <= self.last_place() {
                    self.store[length - 1 + self.place] = digit;
                }
                false
            }
        }
    }

    /// The mode after the check at place N.
    fn next_mode(&self, good: bool) -> Mode {
        match (self.mode, good) {
            (Mode::OneFound, true) => Mode::TwoFound,
            (Mode::TwoFound | Mode::Aligned(_), true) => Mode::Aligned(0),
            (Mode::Aligned(missed), false) if missed + 1 < 4 => Mode::Aligned(missed + 1),
            _ => Mode::Hunting,
        }
    }

    /// Takes a mode at place 0. Outside hunting a frame begins there; in hunting the store
    /// stays as it is, and so do the window and the digits seen: a word that is half
    /// received when a check fails must still be found.
    fn go(&mut self, mode: Mode) {
        self.mode = mode;
        self.place = 0;
        if mode != Mode::Hunting {
            self.store.fill(0);
            self.store[..self.window.len()].copy_from_slice(&self.window);
        }
    }

    /// The place of a frame's last digit, counted from its word's last digit.
    fn last_place(&self) -> usize {
        self.row.frame_digits - self.row.word_length()
    }

    fn hands_over(&self) -> bool {
        matches!(self.mode, Mode::Aligned(_)) && self.place == self.last_place()
    }
}

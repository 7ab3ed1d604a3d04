//! The receiver once more, for a stream that began with a fresh state: no step by step
//! state, but a search through the list of all digits received. It says in another way
//! what `feed` says, so that the two can be compared.

use crate::digits::{number, pack};
use crate::level::{row, Row, STORE_BYTES};
use crate::receiver::{fresh, State};

/// A frame that was handed over.
#[derive(Clone, Debug, PartialEq, Eq)]
pub struct HandedOver {
    /// How many digits of the stream had come when it was handed over.
    pub after: usize,
    /// Its bytes, with zeros up to the end of the store.
    pub bytes: [u8; STORE_BYTES],
}

/// All frames that the stream hands over, how many words it tests, and the state that it
/// leaves. A level that there is not takes no digits.
pub fn whole(level: u64, stream: &[u8]) -> (Vec<HandedOver>, usize, State) {
    let (_, mut state) = fresh(level);
    let (mut frames, mut words) = (Vec::new(), 0);
    let row = match row(level) {
        Some(row) => row,
        None => return (frames, words, state),
    };
    let length = row.word_length();
    state.seen = stream.len().min(length) as u64;
    state.window = number(&stream[stream.len().saturating_sub(length)..]);
    stretches(row, stream, &mut state);
    let mut from = length;
    while let Some(found) = next_word(row, stream, from) {
        let run = follow(row, stream, found);
        // The search compared at each digit up to this one, and the run at each of its checks.
        words += found + 1 - from + run.modes.len() - 1 + usize::from(run.lost.is_some());
        frames.extend(run.handed_over(row, stream));
        state.frame = run.in_hand(row, stream);
        let lost = match run.lost {
            Some(lost) => lost,
            None => {
                state.mode = *run.modes.last().unwrap_or(&0);
                state.place = (stream.len() - run.last_word(row)) as u64;
                return (frames, words, state);
            }
        };
        // The digit of the failed check is not looked at again, the digits before it are.
        from = lost + 1;
    }
    (frames, words + (stream.len() + 1).saturating_sub(from), state)
}

/// The stretches of the stream: the alarm is what the last two neighbours that were alike
/// say, where the stretch before the first had not few.
fn stretches(row: &Row, stream: &[u8], state: &mut State) {
    let zeros = |digits: &[u8]| digits.iter().filter(|digit| **digit == 0).count();
    let cut = stream.chunks_exact(row.frame_digits);
    let rest = cut.remainder();
    state.stretch_digits = rest.len() as u64;
    state.stretch_zeros = zeros(rest) as u64;
    let few: Vec<bool> =
        std::iter::once(false).chain(cut.map(|digits| zeros(digits) <= row.few_zeros)).collect();
    let alike = few.windows(2).rev().find(|pair| pair[0] == pair[1]);
    state.few_before = u64::from(few[few.len() - 1]);
    state.alarm = u64::from(alike.map_or(false, |pair| pair[0]));
}

/// Where a word ends, at `from` digits or later.
fn next_word(row: &Row, stream: &[u8], from: usize) -> Option<usize> {
    (from..=stream.len()).find(|&end| word_ends(row, stream, end))
}

fn word_ends(row: &Row, stream: &[u8], end: usize) -> bool {
    stream[end - row.word_length()..end] == row.word_digits()
}

/// A run of words a frame apart, from the first one found to the check that loses it.
struct Run {
    /// Where the first word ends.
    first: usize,
    /// The mode from each of the words on.
    modes: Vec<u64>,
    /// Where the check failed that ended the run, if it has ended.
    lost: Option<usize>,
}

fn follow(row: &Row, stream: &[u8], first: usize) -> Run {
    let mut run = Run { first, modes: vec![1], lost: None };
    let mut words = vec![true];
    for end in (first + row.frame_digits..=stream.len()).step_by(row.frame_digits) {
        words.push(word_ends(row, stream, end));
        let missed = words.iter().rev().take_while(|good| !**good).count();
        // Of the first three words none may be wrong, later no four in a row.
        if missed == 4 || missed > 0 && words.len() <= 3 {
            run.lost = Some(end);
            break;
        }
        run.modes.push(if words.len() == 2 { 2 } else { 3 + missed as u64 });
    }
    run
}

impl Run {
    /// Where the frame's word ends from which on the run's k-th mode holds.
    fn word(&self, row: &Row, k: usize) -> usize {
        self.first + k * row.frame_digits
    }

    fn last_word(&self, row: &Row) -> usize {
        self.word(row, self.modes.len() - 1)
    }

    /// The frames that begin with the third word and later ones, if they are whole.
    fn handed_over(&self, row: &Row, stream: &[u8]) -> Vec<HandedOver> {
        let mut frames = Vec::new();
        for k in 2..self.modes.len() {
            let start = self.word(row, k) - row.word_length();
            let after = start + row.frame_digits;
            if after <= stream.len() {
                frames.push(HandedOver { after, bytes: store(&stream[start..after]) });
            }
        }
        frames
    }

    /// The frame store as the run leaves it: the last frame begun, as far as it came.
    fn in_hand(&self, row: &Row, stream: &[u8]) -> [u8; STORE_BYTES] {
        let start = self.last_word(row) - row.word_length();
        store(&stream[start..stream.len().min(start + row.frame_digits)])
    }
}

fn store(digits: &[u8]) -> [u8; STORE_BYTES] {
    let mut bytes = [0; STORE_BYTES];
    let packed = pack(digits);
    bytes[..packed.len()].copy_from_slice(&packed);
    bytes
}

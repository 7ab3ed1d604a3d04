//! Cases worked by hand of calls on streams: pieces fed to the receiver and to the finder of 2048 kbit/s frames, each refusal at its border and in
//! its order, stretches of the alarm, lines read digit by digit to their end, and streams from fresh, whole and in pieces.
//!
//! The bytes of a piece, and of the frame store of a given state, are 0; but the piece of a given stretch is one byte, `fill`, and its state
//! hunts with no digits seen.

use crate::call::{Call, Hunt, Piece};
use crate::receiver::state_of;
use crate::worked::{case_1, count_up};
use crate::Run;
use reference::{fresh, FinderState, State};

const MAX: u64 = u64::MAX;

/// level, window, seen, mode, place, slice bytes, first, count
type Feeding = (u64, u64, u64, u64, u64, usize, u64, u64);
/// level, digits, zeros, few before, alarm, fill, first, count
type Stretched = (u64, u64, u64, u64, u64, u8, u64, u64);
/// window, seen, mode, place, slice bytes, first, count
type Hunting = (u64, u64, u64, u64, usize, u64, u64);

const FEEDINGS: [Feeding; 18] = [
    (2, 1023, 10, 6, 847, 1, 0, 8),
    (2, 1024, 10, 6, 847, 1, 0, 8),
    (2, 1023, 11, 6, 847, 1, 0, 8),
    (2, 1023, 10, 7, 847, 1, 0, 8),
    (2, 1023, 10, 6, 848, 1, 0, 8),
    (2, 1023, 9, 6, 847, 1, 0, 8),
    (2, 0, 0, 0, 1, 1, 0, 8),
    (4, 2000, 11, 0, 0, 1, 0, 5),
    (2, 0, 10, 3, 837, 1, 7, 1),
    (2, 0, 0, 0, 0, 65_537, 0, 0),
    (2, 0, 0, 0, 0, 1, 1, 8),
    (2, 0, 0, 0, 0, 1, MAX, 2),
    // Words tested: from the L-th digit since reset on.
    (2, 0, 0, 0, 0, 2, 0, 9),
    (2, 0, 0, 0, 0, 2, 0, 10),
    (2, 0, 0, 0, 0, 2, 0, 11),
    (2, 0, 10, 0, 0, 1, 0, 8),
    // The order 6, 2, 7.
    (2, 0, 0, 7, 0, 65_537, MAX, 1),
    (2, 0, 0, 0, 0, 65_537, MAX, 1),
];

const STRETCHES: [Stretched; 23] = [
    // The limit of each level, with a 1 and with a 0 as the last digit.
    (2, 847, 4, 1, 0, 255, 0, 1),
    (2, 847, 4, 1, 0, 0, 0, 1),
    (2, 847, 5, 1, 0, 255, 0, 1),
    (3, 1535, 4, 1, 0, 255, 0, 1),
    (3, 1535, 4, 1, 0, 0, 0, 1),
    (4, 2927, 5, 1, 0, 255, 0, 1),
    (4, 2927, 5, 1, 0, 0, 0, 1),
    // Begun by two in a row, ended by two in a row, and else as it was.
    (2, 847, 0, 0, 0, 255, 0, 1),
    (2, 847, 5, 0, 1, 255, 0, 1),
    (2, 847, 5, 1, 1, 255, 0, 1),
    (2, 847, 0, 0, 1, 255, 0, 1),
    // A digit before the end, and digits after it.
    (2, 846, 4, 1, 0, 255, 0, 1),
    (2, 846, 4, 1, 0, 255, 0, 8),
    // An empty piece says the alarm, and a refused one does not.
    (2, 0, 0, 0, 1, 0, 0, 0),
    (2, 0, 0, 0, 1, 0, 9, 0),
    // Refused with 6.
    (2, 848, 0, 0, 0, 0, 0, 1),
    (3, 1536, 0, 0, 0, 0, 0, 1),
    (4, 2928, 0, 0, 0, 0, 0, 1),
    (2, 847, 847, 0, 0, 0, 0, 1),
    (2, 3, 4, 0, 1, 0, 0, 1),
    (2, 0, 0, 2, 0, 0, 0, 1),
    (2, 0, 0, 0, 2, 0, 0, 1),
    (2, 0, 0, MAX, 1, 0, 0, 1),
];

/// Line bytes, and the place that is read from.
const READINGS: [(usize, u64); 10] = [
    (14, 93),
    (2, 0),
    (2, 15),
    (2, 16),
    (2, 17),
    (0, 0),
    (1, MAX),
    // The longest line, and one that is longer.
    (65_536, 524_277),
    (65_537, 0),
    (65_537, 524_287),
];

const HUNTINGS: [Hunting; 18] = [
    (127, 7, 5, 511, 1, 0, 8),
    (128, 7, 5, 511, 1, 0, 8),
    (127, 8, 5, 511, 1, 0, 8),
    (127, 7, 6, 511, 1, 0, 8),
    (127, 7, 5, 512, 1, 0, 8),
    (127, 6, 5, 511, 1, 0, 8),
    (127, 7, 0, 1, 1, 0, 8),
    (127, 3, 0, 0, 1, 0, 8),
    (27, 7, 1, 249, 1, 0, 8),
    (27, 7, 1, 250, 1, 0, 8),
    (27, 7, 2, 249, 1, 0, 8),
    (27, 7, 2, 250, 1, 0, 8),
    (27, 7, 2, 512, 1, 0, 8),
    (0, 0, 0, 0, 65536, 0, 524_288),
    (0, 0, 0, 0, 65537, 0, 0),
    (0, 0, 0, 0, 1, 1, 8),
    (0, 0, 0, 0, 1, MAX, 2),
    (128, 0, 0, 0, 65537, MAX, 1),
];

pub fn part(run: &mut Run) {
    FEEDINGS.into_iter().for_each(|case| feeding(run, case));
    STRETCHES.into_iter().for_each(|case| stretched(run, case));
    [3392, 1, 7, 1000].into_iter().for_each(|size| case_11(run, size));
    READINGS.into_iter().for_each(|case| read_on(run, case));
    HUNTINGS.into_iter().for_each(|case| hunting(run, case));
    [5120, 1, 7, 1000].into_iter().for_each(|size| frames(run, size));
}

fn feeding(run: &mut Run, (level, window, seen, mode, place, slice, first, count): Feeding) {
    let state = State { level, window, seen, mode, place, ..fresh(2).1 };
    run.compare(&Call::Feed(Box::new(Piece { state, slice: vec![0; slice], first, count })));
}

fn stretched(
    run: &mut Run,
    (level, digits, zeros, few_before, alarm, fill, first, count): Stretched,
) {
    let (stretch_digits, stretch_zeros) = (digits, zeros);
    let state = State { level, stretch_digits, stretch_zeros, few_before, alarm, ..fresh(2).1 };
    run.compare(&Call::Feed(Box::new(Piece { state, slice: vec![fill], first, count })));
}

/// Case 11 in pieces of at most `size` digits.
fn case_11(run: &mut Run, size: u64) {
    let four = case_1(run).repeat(4);
    run.compare(&Call::Fresh(2));
    let (mut state, mut first) = (fresh(2).1, 0);
    while first < 3392 {
        let (slice, count) = (four.clone(), size.min(3392 - first));
        let fed = run.compare(&Call::Feed(Box::new(Piece { state, slice, first, count })));
        first += fed.numbers[0];
        state = state_of(&fed);
    }
}

/// A line's digits from a place on, until the line has ended.
fn read_on(run: &mut Run, (line, from): (usize, u64)) {
    let bytes = count_up(line);
    let mut place = from;
    while run.compare(&Call::LineDigit(bytes.clone(), place)).returned < 2 {
        place += 1;
    }
}

fn hunting(run: &mut Run, (window, seen, mode, place, slice, first, count): Hunting) {
    let state = FinderState { window, seen, mode, place };
    run.compare(&Call::FinderFeed(Hunt { state, slice: vec![0; slice], first, count }));
}

/// Frames found, lost and found again, in pieces of at most `size` digits. The line has ten pairs of
/// frames of ones; byte 0 of a pair is 155, the word, but not in pairs 3, 4 and 5.
fn frames(run: &mut Run, size: u64) {
    let mut line = vec![255; 640];
    for pair in [0, 1, 2, 6, 7, 8, 9] {
        line[64 * pair] = 155;
    }
    run.compare(&Call::FinderFresh);
    let (mut state, mut first) = (FinderState::default(), 0);
    while first < 5120 {
        let (slice, count) = (line.clone(), size.min(5120 - first));
        let fed = run.compare(&Call::FinderFeed(Hunt { state, slice, first, count }));
        first += fed.numbers[0];
        let [window, seen, mode, place] = [2, 3, 4, 5].map(|number| fed.numbers[number]);
        state = FinderState { window, seen, mode, place };
    }
}

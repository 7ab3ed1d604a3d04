//! Calls of the receiver and of the reader: any state, streams from fresh, any place; and, since many digits are taken at a time, pieces
//! of every length and offset, states at every place of a frame, and words that end at every place of some turns.

use crate::call::{Call, Outcome, Piece};
use crate::levels::{any_level, any_row, sendable};
use crate::Run;
use reference::digits::{of_number, pack};
use reference::history::{self, HandedOver};
use reference::level::{row, Row, LEVELS};
use reference::random::Random;
use reference::{fresh, multiplex, State};

pub fn part(run: &mut Run) {
    for _ in 0..run.often(5_000) {
        let level = any_level(&mut run.random);
        run.compare(&Call::Fresh(level));
    }
    for _ in 0..run.often(70_000) {
        any_digit(run);
    }
    for _ in 0..run.often(40_000) {
        any_piece(run);
    }
    for _ in 0..run.often(120) {
        stream_from_fresh(run);
    }
    for level in LEVELS {
        let row = row(level).expect("a level");
        every_length(run, row);
        every_place(run, row);
        words_everywhere(run, row);
    }
}

/// Pieces of every length, begun at every digit of a byte.
fn every_length(run: &mut Run, row: &Row) {
    for count in 0..=130 {
        for before in 0..8 {
            let state = any_state(&mut run.random, row);
            let digits = run.random.digits(count);
            let piece = begun_at(&mut run.random, &digits, before, state);
            run.compare(&Call::Feed(Box::new(piece)));
        }
    }
}

/// States in the middle of a frame, at each of its places, in each mode that has one.
fn every_place(run: &mut Run, row: &Row) {
    for place in 0..row.frame_digits as u64 {
        let random = &mut run.random;
        let mut state = any_state(random, row);
        (state.mode, state.seen) = (1 + random.below(6), row.word_length() as u64);
        state.place = place;
        let count = match random.below(4) {
            0 => row.frame_digits - place as usize + random.index(3),
            _ => random.index(100),
        };
        let mut digits = random.digits(count);
        put(&mut digits, &row.word_digits(), row.frame_digits - place as usize);
        let before = random.index(70);
        let piece = begun_at(random, &digits, before, state);
        run.compare(&Call::Feed(Box::new(piece)));
    }
}

/// A word that ends after each number of digits up to some turns, where nothing or anything stands before it, begun at every digit of a byte.
fn words_everywhere(run: &mut Run, row: &Row) {
    for end in 1..=200 {
        for before in 0..8 {
            let random = &mut run.random;
            let mut state = fresh(row.level).1;
            (state.window, state.seen) = (window(random, row), row.word_length() as u64);
            let count = end + random.index(60);
            let mut digits = if random.once_in(3) { random.digits(count) } else { vec![0; count] };
            put(&mut digits, &row.word_digits(), end);
            let piece = begun_at(random, &digits, before, state);
            run.compare(&Call::Feed(Box::new(piece)));
        }
    }
}

/// These digits after so many others, which often look like a word that is begun.
fn begun_at(random: &mut Random, digits: &[u8], before: usize, state: State) -> Piece {
    let (first, count) = (before as u64, digits.len() as u64);
    let after = random.index(80);
    let (mut front, back) = (random.digits(before), random.digits(after));
    if random.once_in(2) {
        front.fill(1);
    }
    Piece { state, slice: pack(&[&front, digits, &back].concat()), first, count }
}

fn any_digit(run: &mut Run) {
    let random = &mut run.random;
    let length = if random.once_in(200) { 65_535 + random.index(3) } else { random.index(12) };
    let line = random.filled(length);
    let place = random.near(8 * length as u64);
    run.compare(&Call::LineDigit(line, place));
}

/// One piece to a state that need not come from any stream, and may be wrong.
fn any_piece(run: &mut Run) {
    let random = &mut run.random;
    let row = any_row(random);
    let mut state = any_state(random, row);
    let digits = digits_for(random, row, &state);
    let count = digits.len() as u64;
    let mut piece = cut(random, &digits, 0, digits.len(), &state);
    if random.once_in(8) {
        wrong_number(random, row, &mut state);
        piece.state = state;
    }
    if random.once_in(8) {
        let held = 8 * piece.slice.len() as u64;
        piece.count = random.near(held.saturating_sub(piece.first));
    }
    if random.once_in(16) {
        piece.first = random.near(8 * piece.slice.len() as u64);
        piece.count = random.pick(&[0, 1, count, u64::MAX, piece.count]);
    }
    if random.once_in(150) {
        piece.slice.resize(65_535 + random.index(3), 0xAA);
        piece.count = piece.count.min(3_000);
    }
    run.compare(&Call::Feed(Box::new(piece)));
}

/// A valid state, whether or not a stream leads to it.
pub fn any_state(random: &mut Random, row: &Row) -> State {
    let length = row.word_length() as u64;
    let mode = random.below(7);
    let seen = if mode == 0 { length - random.pick(&[0, 0, 1, 2, length]) } else { length };
    let last = row.frame_digits as u64 - length;
    let place = match random.below(4) {
        _ if mode == 0 => 0,
        0 => random.pick(&[0, 1, last - 1, last, last + 1]),
        1 | 2 => row.frame_digits as u64 - 1 - random.below(2 * length),
        _ => random.below(row.frame_digits as u64),
    };
    let mut state = fresh(row.level).1;
    (state.window, state.seen, state.mode, state.place) = (window(random, row), seen, mode, place);
    state.frame.copy_from_slice(&random.filled(366));
    any_stretch(random, row, &mut state);
    state
}

/// A stretch that ends soon or not, with zeros near the limit or not.
fn any_stretch(random: &mut Random, row: &Row, state: &mut State) {
    let whole = row.frame_digits as u64;
    state.stretch_digits = match random.below(3) {
        0 => whole - 1 - random.below(3),
        1 => whole - 1 - random.below(60),
        _ => random.below(whole),
    };
    let limit = row.few_zeros as u64;
    state.stretch_zeros = match random.below(3) {
        0 => random.below(state.stretch_digits + 1),
        _ => random.pick(&[0, limit - 1, limit, limit + 1]).min(state.stretch_digits),
    };
    (state.few_before, state.alarm) = (random.below(2), random.below(2));
}

/// A window that is the word, its first digits, the word with a digit wrong, or any.
fn window(random: &mut Random, row: &Row) -> u64 {
    let word = reference::digits::number(&row.word_digits());
    let top = 1 << row.word_length();
    match random.below(5) {
        0 => word,
        1 | 2 => word >> random.below(row.word_length() as u64),
        3 => word ^ 1 << random.below(row.word_length() as u64),
        _ => random.below(top),
    }
}

/// One number of the state wrong, or just at its border.
pub fn wrong_number(random: &mut Random, row: &Row, state: &mut State) {
    let length = row.word_length() as u64;
    match random.below(10) {
        0 => state.level = any_level(random),
        1 => state.window = random.near(1 << length),
        2 => state.seen = random.near(length),
        3 => state.mode = random.near(7),
        4 => state.place = random.near(row.frame_digits as u64),
        5 => state.stretch_digits = random.near(row.frame_digits as u64),
        6 => state.stretch_zeros = random.near(state.stretch_digits),
        7 => state.few_before = random.near(1),
        8 => state.alarm = random.near(1),
        _ => {
            state.seen = random.near(length);
            state.mode = random.near(6);
            state.place = random.near(1);
        }
    }
}

/// Digits for a state: often the rest of a word that the window has begun, and often a word
/// that ends at the coming check or some digits after it.
pub fn digits_for(random: &mut Random, row: &Row, state: &State) -> Vec<u8> {
    let count = match random.below(5) {
        0 => random.index(3),
        1 | 2 => random.index(60),
        3 => row.frame_digits - state.place as usize + random.index(30),
        _ => random.index(2 * row.frame_digits + 20),
    };
    let mut digits = match random.below(4) {
        0 => vec![1; count],
        1 => vec![0; count],
        _ => (0..count).map(|_| random.below(2) as u8).collect(),
    };
    let word = row.word_digits();
    let check = row.frame_digits - state.place as usize;
    for end in [check, check + row.frame_digits] {
        if random.once_in(2) {
            let late = if random.once_in(3) { random.index(word.len()) } else { 0 };
            put(&mut digits, &word, end + late);
        }
    }
    if random.once_in(4) {
        let rest = &word[begun(row, state.window)..];
        put(&mut digits, rest, rest.len());
    }
    digits
}

/// How many digits of a word the window ends with.
fn begun(row: &Row, window: u64) -> usize {
    let (word, window) = (row.word_digits(), of_number(window, row.word_length()));
    (0..=word.len()).rev().find(|count| window.ends_with(&word[..*count])).unwrap_or(0)
}

/// Puts a list into the digits so that it ends after `end` digits, as far as there is room.
fn put(digits: &mut [u8], list: &[u8], end: usize) {
    for (back, digit) in list.iter().rev().enumerate() {
        if let Some(at) = end.checked_sub(back + 1).filter(|at| *at < digits.len()) {
            digits[at] = *digit;
        }
    }
}

/// The piece of digits `from` to `to`, in a slice that may begin and end elsewhere.
fn cut(random: &mut Random, digits: &[u8], from: usize, to: usize, state: &State) -> Piece {
    let (before, after) = (random.index(20), random.index(20));
    let noise = of_number(random.number(), 40);
    let list = [&noise[..before], &digits[from..to], &noise[20..20 + after]].concat();
    let (first, count) = (before as u64, (to - from) as u64);
    Piece { state: state.clone(), slice: pack(&list), first, count }
}

/// A stream from a fresh state, in pieces cut anywhere. At its end the search through the
/// whole stream must have found the same frames, words and state.
fn stream_from_fresh(run: &mut Run) {
    let row = any_row(&mut run.random);
    let level = row.level;
    let digits = stream(&mut run.random, row);
    run.compare(&Call::Fresh(level));
    let (mut state, mut at, mut frames, mut words) = (fresh(level).1, 0, Vec::new(), 0);
    let most = run.random.pick(&[9, 300, 3_000, digits.len()]);
    while at < digits.len() {
        let to = digits.len().min(at + run.random.index(most + 1));
        let piece = cut(&mut run.random, &digits, at, to, &state);
        let agreed = run.compare(&Call::Feed(Box::new(piece)));
        at += agreed.numbers[0] as usize;
        words += agreed.numbers[3] as usize;
        state = state_of(&agreed);
        if agreed.numbers[1] == 1 {
            frames.push(HandedOver { after: at, bytes: state.frame });
        }
    }
    if history::whole(level, &digits) != (frames, words, state) {
        println!("DISAGREEMENT of the reference with itself on a stream of level {level}");
        run.end_with_disagreement();
    }
}

/// The state that a feed leaves.
pub fn state_of(fed: &Outcome) -> State {
    let numbers = &fed.numbers[4..];
    let mut state = fresh(0).1;
    (state.level, state.window, state.seen) = (numbers[0], numbers[1], numbers[2]);
    (state.mode, state.place) = (numbers[3], numbers[4]);
    (state.stretch_digits, state.stretch_zeros) = (numbers[5], numbers[6]);
    (state.few_before, state.alarm) = (numbers[7], numbers[8]);
    state.frame.copy_from_slice(&fed.lent[0].1);
    state
}

/// Frames in a row, with missed words, slips of some digits, noise, framed ones, and ones
/// without frames, with zeros among them.
fn stream(random: &mut Random, row: &Row) -> Vec<u8> {
    let mut digits: Vec<u8> = (0..random.index(40)).map(|_| random.below(2) as u8).collect();
    let quietness = random.pick(&[2, 6, 1_000]);
    for _ in 0..4 + random.index(14) {
        let mut frame = one_frame(random, row);
        if random.once_in(quietness) {
            frame[random.index(row.word_length())] ^= 1;
        }
        digits.extend(frame);
        if random.once_in(5) {
            digits.extend(ones(random, row));
        }
        if random.once_in(4 * quietness) {
            // Lost digits may leave a word half received at the next check.
            digits.truncate(digits.len() - random.index(2 * row.word_length()));
        }
        if random.once_in(4 * quietness) {
            digits.extend((0..random.index(30)).map(|_| random.below(2) as u8));
        }
    }
    digits
}

/// Ones for some stretches, with so few or so many zeros that either may be judged.
fn ones(random: &mut Random, row: &Row) -> Vec<u8> {
    let mut digits = vec![1; random.index(5 * row.frame_digits)];
    for _ in 0..random.index(3 * row.few_zeros * (1 + digits.len() / row.frame_digits)) {
        let at = random.index(digits.len());
        if let Some(digit) = digits.get_mut(at) {
            *digit = 0;
        }
    }
    digits
}

fn one_frame(random: &mut Random, row: &Row) -> Vec<u8> {
    let mut line = vec![0; row.frame_bytes()];
    let note = sendable(row, random.number() as u8);
    let buffer = random.filled(4 * ((row.most_digits() + 7) / 8));
    let earlier = random.below(16);
    multiplex(row.level, earlier, &mut line, &[note], &buffer);
    let mut digits = reference::digits::unpack(&line, row.frame_digits);
    if random.once_in(5) {
        digits[row.word_length()..].fill(1);
    }
    digits
}

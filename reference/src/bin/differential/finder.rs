//! Calls of the finder of 2048 kbit/s frames: any state, streams cut anywhere, hostile numbers; and, since many digits are taken at a time,
//! pieces of every length and offset, states at every place, and words that end at every place of some turns.

use crate::call::{Call, Hunt};
use crate::Run;
use reference::digits::{number, pack};
use reference::random::Random;
use reference::{FinderState, FRAME_DIGITS, SECOND_PLACE, WORD, WORD_PLACE};

pub fn part(run: &mut Run) {
    for _ in 0..run.often(100) {
        run.compare(&Call::FinderFresh);
    }
    for _ in 0..run.often(55_000) {
        any_piece(run);
    }
    for _ in 0..run.often(200) {
        stream(run);
    }
    every_length(run);
    every_place(run);
    words_everywhere(run);
}

/// Pieces of every length, begun at every digit of a byte.
fn every_length(run: &mut Run) {
    for count in 0..=130 {
        for before in 0..8 {
            let state = any_state(&mut run.random);
            let digits = run.random.digits(count);
            let hunt = begun_at(&mut run.random, &digits, before, state);
            run.compare(&Call::FinderFeed(hunt));
        }
    }
}

/// States at each place of each mode that has one.
fn every_place(run: &mut Run) {
    for mode in 1..6 {
        let (low, high) = places(mode);
        for place in low..high {
            let random = &mut run.random;
            let state = FinderState { mode, place, seen: 7, ..any_state(random) };
            let digits = digits_for(random, &state);
            let before = random.index(70);
            let hunt = begun_at(random, &digits, before, state);
            run.compare(&Call::FinderFeed(hunt));
        }
    }
}

/// A word that ends after each number of digits up to some turns, where nothing or anything stands before it, begun at every digit of a byte.
fn words_everywhere(run: &mut Run) {
    for end in 1..=200 {
        for before in 0..8 {
            let random = &mut run.random;
            let state = FinderState { mode: 0, place: 0, seen: 7, ..any_state(random) };
            let count = end + random.index(60);
            let mut digits = if random.once_in(3) { random.digits(count) } else { vec![1; count] };
            put(&mut digits, &WORD, end);
            let hunt = begun_at(random, &digits, before, state);
            run.compare(&Call::FinderFeed(hunt));
        }
    }
}

/// These digits after so many others, which often look like a word that is begun.
fn begun_at(random: &mut Random, digits: &[u8], before: usize, state: FinderState) -> Hunt {
    let (first, count) = (before as u64, digits.len() as u64);
    let after = random.index(80);
    let (mut front, back) = (random.digits(before), random.digits(after));
    if random.once_in(2) {
        front.fill(0);
    }
    Hunt { state, slice: pack(&[&front, digits, &back].concat()), first, count }
}

/// The places that go with a mode: from one on and before another.
fn places(mode: u64) -> (u64, u64) {
    match mode {
        0 => (0, 1),
        1 => (0, SECOND_PLACE),
        2 => (SECOND_PLACE, WORD_PLACE),
        _ => (0, WORD_PLACE),
    }
}

/// One piece to a state that need not come from any stream, and may be wrong.
fn any_piece(run: &mut Run) {
    let random = &mut run.random;
    let mut state = any_state(random);
    let digits = digits_for(random, &state);
    if random.once_in(8) {
        wrong_number(random, &mut state);
    }
    let mut hunt = cut(random, &digits, state);
    if random.once_in(8) {
        let held = 8 * hunt.slice.len() as u64;
        hunt.count = random.near(held.saturating_sub(hunt.first));
    }
    if random.once_in(16) {
        hunt.first = random.near(8 * hunt.slice.len() as u64);
        hunt.count = random.pick(&[0, 1, digits.len() as u64, u64::MAX, hunt.count]);
    }
    if random.once_in(150) {
        hunt.slice.resize(65_535 + random.index(3), 0xAA);
        hunt.count = hunt.count.min(3_000);
    }
    run.compare(&Call::FinderFeed(hunt));
}

/// A valid state, whether or not a stream leads to it.
fn any_state(random: &mut Random) -> FinderState {
    let mode = random.below(6);
    let seen = if mode == 0 { 7 - random.pick(&[0, 0, 0, 1, 2, 7]) } else { 7 };
    let (low, high) = places(mode);
    let place = match random.below(4) {
        0 => random.pick(&[low, low + 1, high - 2, high - 1]).clamp(low, high - 1),
        1 | 2 => high - 1 - random.below(14).min(high - 1 - low),
        _ => low + random.below(high - low),
    };
    let word = number(&WORD);
    let window = match random.below(5) {
        0 => word,
        1 | 2 => word >> random.below(7),
        3 => word ^ 1 << random.below(7),
        _ => random.below(128),
    };
    FinderState { window, seen, mode, place }
}

/// One number of the state wrong, or just at its border.
fn wrong_number(random: &mut Random, state: &mut FinderState) {
    match random.below(5) {
        0 => state.window = random.near(128),
        1 => state.seen = random.near(7),
        2 => state.mode = random.near(6),
        3 => state.place = random.near(WORD_PLACE),
        _ => {
            state.seen = random.near(7);
            state.mode = random.below(7);
            state.place = random.near(SECOND_PLACE);
        }
    }
}

/// Digits for a state: often what the coming checks look for, at their places or a few late.
fn digits_for(random: &mut Random, state: &FinderState) -> Vec<u8> {
    let count = match random.below(5) {
        0 => random.index(3),
        1 | 2 => random.index(60),
        _ => random.index(1_700),
    };
    let mut digits = match random.below(4) {
        0 => vec![1; count],
        1 => vec![0; count],
        _ => random.digits(count),
    };
    let check = (WORD_PLACE - state.place.min(WORD_PLACE)) as usize;
    for end in [check, check + WORD_PLACE as usize, check + 2 * WORD_PLACE as usize] {
        if random.once_in(2) {
            let late = if random.once_in(3) { random.index(7) } else { 0 };
            put(&mut digits, &WORD, end + late);
        }
    }
    if random.once_in(2) {
        let second = SECOND_PLACE.saturating_sub(state.place) as usize;
        let digit = random.digit();
        put(&mut digits, &[digit], second);
    }
    digits
}

/// Puts these digits so that they end after so many, where there is room.
fn put(digits: &mut [u8], what: &[u8], end: usize) {
    if end >= what.len() && end <= digits.len() {
        digits[end - what.len()..end].copy_from_slice(what);
    }
}

/// The digits in a slice, begun anywhere in a byte, with other digits around them.
fn cut(random: &mut Random, digits: &[u8], state: FinderState) -> Hunt {
    let (before, after) = (random.index(20), random.index(20));
    let (before, after) = (random.digits(before), random.digits(after));
    let (first, count) = (before.len() as u64, digits.len() as u64);
    Hunt { state, slice: pack(&[&before, digits, &after].concat()), first, count }
}

/// A line with frames in it, some words and second digits wrong, fed from fresh in pieces of any
/// size, each with its rest.
fn stream(run: &mut Run) {
    let random = &mut run.random;
    let digits = line(random);
    let size = random.pick(&[1, 7, 64, 250, 256, 1_000, 5_000]);
    let (mut state, mut taken) = (FinderState::default(), 0);
    while taken < digits.len() {
        let count = (1 + run.random.index(size)).min(digits.len() - taken);
        let hunt = cut(&mut run.random, &digits[taken..taken + count], state);
        let fed = run.compare(&Call::FinderFeed(hunt));
        let numbers = &fed.numbers;
        let [window, seen, mode, place] = [numbers[2], numbers[3], numbers[4], numbers[5]];
        state = FinderState { window, seen, mode, place };
        taken += numbers[0] as usize;
        if numbers[0] == 0 {
            println!("DISAGREEMENT: the finder takes no digit of {count}");
            run.end_with_disagreement();
        }
    }
}

/// Pairs of frames with digits between the words of one value, of any, or with few zeros.
fn line(random: &mut Random) -> Vec<u8> {
    let (kind, rate) = (random.below(3), random.pick(&[2, 3, 8, 1_000]));
    let (before, pairs) = (random.index(600), 2 + random.index(14));
    let mut digits = random.digits(before);
    for _ in 0..pairs {
        let mut pair = match kind {
            0 => vec![1; 2 * FRAME_DIGITS as usize],
            1 => random.digits(2 * FRAME_DIGITS as usize),
            _ => (0..2 * FRAME_DIGITS).map(|_| u8::from(!random.once_in(9))).collect(),
        };
        put(&mut pair, &WORD, 8);
        pair[FRAME_DIGITS as usize + 1] = u8::from(!random.once_in(rate));
        if random.once_in(rate) {
            pair[1 + random.index(7)] ^= 1;
        }
        digits.extend(pair);
    }
    digits
}

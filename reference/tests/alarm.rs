//! Alarm indication, by the words of request 4, at its borders.

use reference::digits::pack;
use reference::history;
use reference::level::row;
use reference::random::Random;
use reference::{feed, fresh, State};

const LEVELS: [(u64, usize, usize); 5] =
    [(2, 848, 4), (3, 1536, 4), (4, 2928, 5), (12, 1056, 2), (14, 2176, 4)];

/// A stretch of ones with so many zeros, the last digit among them.
fn stretch(digits: usize, zeros: usize) -> Vec<u8> {
    [vec![1; digits - zeros], vec![0; zeros]].concat()
}

/// The alarm and the state after each of these lists, fed whole.
fn after(state: &State, lists: &[Vec<u8>]) -> (Vec<bool>, State) {
    let (mut state, mut alarms) = (state.clone(), Vec::new());
    for list in lists {
        let (slice, mut at) = (pack(list), 0);
        while at < list.len() as u64 {
            let fed = feed(&state, &slice, at, list.len() as u64 - at);
            assert_eq!((fed.refusal, fed.alarm), (0, fed.state.alarm == 1));
            at += fed.taken;
            state = fed.state;
        }
        alarms.push(state.alarm == 1);
    }
    (alarms, state)
}

fn alarms(level: u64, digits: usize, zeros: &[usize]) -> Vec<bool> {
    let lists: Vec<_> = zeros.iter().map(|zeros| stretch(digits, *zeros)).collect();
    after(&fresh(level).1, &lists).0
}

#[test]
fn it_begins_and_ends_with_the_second_in_a_row() {
    for (level, digits, limit) in LEVELS {
        let (few, many) = (limit, limit + 1);
        assert_eq!(alarms(level, digits, &[few, few]), [false, true]);
        assert_eq!(alarms(level, digits, &[many, few, few]), [false, false, true]);
        assert_eq!(alarms(level, digits, &[few, many, few, many]), [false; 4]);
        let stands = [false, true, true, true, true];
        assert_eq!(alarms(level, digits, &[few, 0, many, few, many]), stands);
        let ends = [false, true, true, false, false];
        assert_eq!(alarms(level, digits, &[0, few, many, digits, 0]), ends);
    }
}

#[test]
fn the_moment_is_the_last_digit() {
    let mut state = fresh(2).1;
    (state.stretch_digits, state.stretch_zeros, state.few_before) = (847, 4, 1);
    let (alarm, next) = after(&state, &[vec![1]]);
    assert_eq!(
        (alarm[0], next.stretch_digits, next.stretch_zeros, next.few_before),
        (true, 0, 0, 1)
    );
    let (alarm, next) = after(&state, &[vec![0]]);
    assert_eq!(
        (alarm[0], next.stretch_digits, next.stretch_zeros, next.few_before),
        (false, 0, 0, 0)
    );
    state.stretch_digits = 846;
    assert_eq!(after(&state, &[vec![1]]).0, [false]);
}

#[test]
fn reports_and_refusals() {
    let mut state = fresh(2).1;
    state.alarm = 1;
    let empty = feed(&state, &[], 0, 0);
    assert_eq!((empty.refusal, empty.taken, empty.alarm), (0, 0, true));
    let refused = feed(&state, &[], 1, 0);
    assert_eq!((refused.refusal, refused.alarm, refused.state), (7, false, state.clone()));
    for (level, digits, _) in LEVELS {
        let whole = digits as u64;
        let with = |digits, zeros, few_before, alarm| {
            let mut state = fresh(level).1;
            (state.stretch_digits, state.stretch_zeros) = (digits, zeros);
            (state.few_before, state.alarm) = (few_before, alarm);
            feed(&state, &[], 0, 0).refusal
        };
        assert_eq!(with(whole - 1, whole - 1, 1, 1), 0);
        assert_eq!([with(whole, 0, 0, 0), with(3, 4, 0, 0)], [6, 6]);
        assert_eq!([with(0, 0, 2, 0), with(0, 0, 0, 2)], [6, 6]);
    }
}

/// A framed signal of ones is none, wherever the stretches are cut.
#[test]
fn framed_ones_are_no_alarm() {
    for (level, digits, _) in LEVELS {
        let row = row(level).unwrap();
        let frame = [row.word_digits(), vec![1; digits - row.word_length()]].concat();
        for first in 0..=row.word_length() {
            let line = frame.repeat(6)[first..].to_vec();
            assert_eq!(after(&fresh(level).1, &[line]).0, [false]);
        }
    }
}

/// The search through the whole stream says the same, on ones with zeros here and there.
#[test]
fn the_search_agrees() {
    let mut random = Random::new(4);
    for round in 0..30 {
        let (level, digits, limit) = LEVELS[round % 5];
        let zeros = (0..12).map(|_| random.index(2 * limit + 2));
        let stream: Vec<u8> = zeros.flat_map(|zeros| stretch(digits, zeros)).collect();
        let (_, state) = after(&fresh(level).1, std::slice::from_ref(&stream));
        assert_eq!(history::whole(level, &stream).2, state);
    }
}

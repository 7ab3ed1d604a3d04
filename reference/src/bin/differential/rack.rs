//! Calls on a rack of lines: lists of any length up to and over 64, valid records and wrong ones, lines of
//! the list and beyond it, in any order. A record is laid out here by hand, number by number, as the
//! header says, so that a record that moved in the library is seen.

use crate::call::state_numbers;
use crate::face::{bytes, numbers, Lent, UNWRITTEN};
use crate::face::{spritbobbin_rack_aligned, spritbobbin_rack_feed, spritbobbin_rack_reset};
use crate::levels::{any_level, any_row};
use crate::receiver::{any_state, digits_for, wrong_number};
use crate::Run;
use reference::digits::pack;
use reference::level::row;
use reference::random::Random;
use reference::{fresh, rack_aligned, rack_feed, rack_refusal, rack_reset, State};

/// The names of the three calls.
const FEED: &str = "rack_feed";
const RESET: &str = "rack_reset";
const ALIGNED: &str = "rack_aligned";

/// A record in words of eight bytes: nine numbers, then 366 bytes of frame and two that are nobody's.
const WORDS: usize = 9 + 46;

pub fn part(run: &mut Run) {
    for _ in 0..run.often(1_500) {
        let mut records = any_records(&mut run.random);
        for _ in 0..8 {
            any_call(run, &mut records);
        }
        count(run, &records);
    }
}

fn any_records(random: &mut Random) -> Vec<State> {
    let number = random.pick(&[0, 1, 1, 2, 3, 5, 8, 63, 64, 65, 66]);
    (0..number).map(|_| any_record(random)).collect()
}

/// A valid record, one with a number that may be wrong, or bytes of no meaning.
fn any_record(random: &mut Random) -> State {
    let mut state = fresh(any_row(random).level).1;
    if let Some(row) = row(state.level).filter(|_| !random.once_in(6)) {
        state = any_state(random, row);
        if random.once_in(4) {
            wrong_number(random, row, &mut state);
        }
    } else {
        state.mode = random.hostile();
        state.place = random.hostile();
        state.level = any_level(random);
    }
    state
}

/// A line of the list, mostly; else one at its end or beyond.
fn any_line(random: &mut Random, records: &[State]) -> u64 {
    let number = records.len() as u64;
    if number == 0 || random.once_in(5) {
        return random.near(number);
    }
    random.below(number)
}

fn any_call(run: &mut Run, records: &mut [State]) {
    let line = any_line(&mut run.random, records);
    if run.random.once_in(3) {
        reset(run, records, line);
    } else {
        feed(run, records, line);
    }
}

fn feed(run: &mut Run, records: &mut [State], line: u64) {
    let random = &mut run.random;
    let state = records.get(line as usize).cloned().unwrap_or_else(|| fresh(2).1);
    let digits = match row(state.level).filter(|row| state.place < row.frame_digits as u64) {
        Some(row) if state.window < 1 << row.word_length() => digits_for(random, row, &state),
        _ => random.digits(20),
    };
    let mut piece = pack(&digits);
    let (mut first, mut count) = (0, digits.len() as u64);
    if random.once_in(10) {
        first = random.near(8 * piece.len() as u64);
        count = random.pick(&[0, 1, count, u64::MAX]);
    }
    if random.once_in(200) {
        piece.resize(65_535 + random.index(3), 0xAA);
        count = count.min(3_000);
    }
    let mut lent = laid(records);
    let (mut slice, mut answer) = (bytes("slice", &piece), numbers("answer", &[UNWRITTEN; 4]));
    // Sound if the face keeps to what it is lent: every pointer comes with its own count.
    let returned = unsafe {
        let (r, p, a) = (lent.pointer(), slice.pointer(), answer.pointer());
        spritbobbin_rack_feed(r, records.len(), line, p, slice.count(), first, count, a)
    };
    let inputs = format!(
        "{} records; line {line}; its state {:?}; slice of {} bytes; first {first} count {count}",
        records.len(),
        state_numbers(&state),
        piece.len()
    );
    let told = rack_feed(records, line, &piece, first, count);
    let reference = [&[told.refusal][..], &told.answer, laid(records).inner()].concat();
    let face = [&[returned][..], answer.inner(), &seen(&lent)].concat();
    run.expect(FEED, &inputs, &reference, &face);
    unbroken(run, FEED, [lent.broken(), answer.broken(), slice.broken()]);
}

fn reset(run: &mut Run, records: &mut [State], line: u64) {
    let level = any_level(&mut run.random);
    let mut lent = laid(records);
    // Sound as above.
    let returned = unsafe { spritbobbin_rack_reset(lent.pointer(), records.len(), line, level) };
    let inputs = format!("{} records; line {line}; level {level}", records.len());
    let refusal = rack_reset(records, line, level);
    let reference = [&[refusal], laid(records).inner()].concat();
    run.expect(RESET, &inputs, &reference, &[&[returned][..], &seen(&lent)].concat());
    unbroken(run, RESET, [lent.broken(), None, None]);
}

fn count(run: &mut Run, records: &[State]) {
    let (mut lent, mut answer) = (laid(records), numbers("answer", &[UNWRITTEN]));
    // Sound as above.
    let returned =
        unsafe { spritbobbin_rack_aligned(lent.pointer(), records.len(), answer.pointer()) };
    let modes: Vec<u64> = records.iter().map(|record| record.mode).collect();
    let (refusal, lines) = rack_aligned(records);
    let reference = [&[refusal, lines], laid(records).inner()].concat();
    let face = [&[returned, answer.inner()[0]][..], &seen(&lent)].concat();
    run.expect(ALIGNED, &format!("modes {modes:?}"), &reference, &face);
    unbroken(run, ALIGNED, [lent.broken(), answer.broken(), None]);
}

/// A rack of no records, at a null pointer.
pub fn no_records(run: &mut Run) {
    refused_by_number(run, 0, std::ptr::null_mut());
}

/// So many records, over 64, that nobody lends: refused for their number alone, so a face that judges
/// it first never reads or writes there.
pub fn false_number(run: &mut Run, number: u64) {
    let mut one = [0; WORDS];
    refused_by_number(run, number, one.as_mut_ptr());
}

fn refused_by_number(run: &mut Run, number: u64, records: *mut u64) {
    for line in [0, 63, 64, number.wrapping_sub(1), number, number + 1, u64::MAX] {
        let (mut answer, inputs) = ([UNWRITTEN; 4], format!("{number} records; line {line}"));
        // Sound: nothing is read or written at the records where the call is refused for their number.
        let (fed, reset) = unsafe {
            let (piece, a) = ([0; 1], answer.as_mut_ptr());
            let fed =
                spritbobbin_rack_feed(records, number as usize, line, piece.as_ptr(), 1, 0, 9, a);
            (fed, spritbobbin_rack_reset(records, number as usize, line, 9))
        };
        let refusal = rack_refusal(number, line);
        run.expect(FEED, &inputs, &[refusal, 0, 0, 0, 0], &[&[fed][..], &answer].concat());
        run.expect(RESET, &inputs, &[refusal], &[reset]);
    }
    let mut answer = [UNWRITTEN];
    // Sound as above.
    let returned =
        unsafe { spritbobbin_rack_aligned(records, number as usize, answer.as_mut_ptr()) };
    let refusal = if number == 0 { 0 } else { 2 };
    let inputs = format!("{number} records");
    run.expect(ALIGNED, &inputs, &[refusal, 0], &[returned, answer[0]]);
}

fn unbroken(run: &Run, call: &str, broken: [Option<&'static str>; 3]) {
    if let Some(name) = broken.into_iter().flatten().next() {
        println!("{call}: face wrote beside the {name}");
        run.end_with_disagreement();
    }
}

/// The records as they lie in memory, with guards. The bytes that are nobody's are zero.
fn laid(records: &[State]) -> Lent<u64> {
    let mut words = Vec::with_capacity(WORDS * records.len());
    for record in records {
        words.extend(state_numbers(record));
        let frame = [&record.frame[..], &[0, 0]].concat();
        words.extend(frame.chunks(8).map(|eight| {
            let mut word = [0; 8];
            word.copy_from_slice(eight);
            u64::from_ne_bytes(word)
        }));
    }
    numbers("records", &words)
}

/// The records as the call left them, but for the bytes that are nobody's.
fn seen(records: &Lent<u64>) -> Vec<u64> {
    let mut words = records.inner().to_vec();
    for last in words.iter_mut().skip(WORDS - 1).step_by(WORDS) {
        let mut eight = last.to_ne_bytes();
        eight[6..].fill(0);
        *last = u64::from_ne_bytes(eight);
    }
    words
}

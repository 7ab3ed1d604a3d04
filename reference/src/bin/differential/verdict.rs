//! Recordings fed to the verdict in runs cut anywhere: of right, late and early multiplexers, worn, faded and
//! slipped, with what was sent, with part of it, with patterns and with anything; wrong numbers in every
//! order; states that no feed leaves.
//!
//! A state's layout is the library's own: two states are held to each other by all that they answer
//! afterwards.

use crate::face::{bytes, numbers, spritbobbin_verdict_feed, spritbobbin_verdict_fresh};
use crate::face::{Lent, UNWRITTEN, VERDICT_STATE};
use crate::levels::any_row;
use crate::multiplexing::{any_earlier, decisions, wrong_level, wrong_line};
use crate::Run;
use reference::digits::pack;
use reference::judging::{line_of, pattern_digits, votes, READINGS};
use reference::level::{row, Row, LEVELS};
use reference::random::Random;
use reference::verdict::{self, State, ANSWER, UNKNOWN};
use reference::Reading;

/// The calls' names.
const FRESH: &str = "verdict_fresh";
const FEED: &str = "verdict_feed";

const PATTERNS: [u64; 3] = [0, 15, 23];

/// Faults of a fresh state and then of a feed, in the order of their refusals, from the lowest bit on.
const FRESH_FAULTS: u64 = 1 << 3;
const FEED_FAULTS: u64 = 1 << 4;

pub fn part(run: &mut Run) {
    for row in LEVELS.into_iter().filter_map(row) {
        for pattern in PATTERNS {
            for reading in READINGS {
                one_recording(run, row, 3, pattern, reading);
            }
        }
        for (frames, pattern) in [(64, 0), (70, 15), (9, 23)] {
            let reading = run.random.pick(&READINGS);
            one_recording(run, row, frames, pattern, reading);
        }
        every_border(run, row);
        for faults in 0..FRESH_FAULTS {
            fresh_with_faults(run, row, faults);
        }
        for faults in (0..FEED_FAULTS).chain(0..FEED_FAULTS) {
            feed_with_faults(run, row, faults);
        }
    }
    for _ in 0..run.often(100) {
        let row = any_row(&mut run.random);
        let (frames, pattern) = (run.random.index(9), run.random.pick(&PATTERNS));
        let reading = run.random.pick(&READINGS);
        one_recording(run, row, frames, pattern, reading);
    }
    for _ in 0..run.often(250) {
        damaged_state(run);
    }
}

/// A recording: its line, and the digits sent into each tributary, as many to each.
struct Recording {
    row: &'static Row,
    earlier: u64,
    pattern: u64,
    line: Vec<u8>,
    sent: [Vec<u8>; 4],
}

/// The two states of one recording.
struct Pair {
    ours: State,
    theirs: Lent<u64>,
}

/// What a feed is lent besides the state.
struct Lending<'a> {
    line: &'a [u8],
    next: u64,
    sent: &'a [u8],
    first: u64,
}

// ---- the two calls both ways

fn fresh(run: &mut Run, level: u64, earlier: u64, pattern: u64) -> Pair {
    let (refusal, ours) = verdict::fresh(level, earlier, pattern);
    let mut theirs = numbers("state", &[UNWRITTEN; VERDICT_STATE]);
    // Sound if the face keeps to the state, which has the length that it asks for.
    let returned = unsafe { spritbobbin_verdict_fresh(level, earlier, pattern, theirs.pointer()) };
    let inputs = format!("level {level}; earlier {earlier}; pattern {pattern}");
    run.expect(FRESH, &inputs, &[refusal], &[returned]);
    if refusal != 0 {
        run.expect(FRESH, &inputs, &[0; VERDICT_STATE], theirs.inner());
    }
    unbroken(run, FRESH, theirs.broken());
    Pair { ours, theirs }
}

fn feed(run: &mut Run, pair: &mut Pair, with: &Lending) {
    let fed = verdict::feed(&pair.ours, with.line, with.next, with.sent, with.first);
    let before = pair.theirs.inner().to_vec();
    let (returned, answer) = feed_face(run, &mut pair.theirs, with);
    let inputs = format!(
        "level {}; pattern {}; {} frames so far; line of {} bytes; next {}; sent {} bytes from {}",
        pair.ours.level,
        pair.ours.pattern,
        pair.ours.frames,
        with.line.len(),
        with.next,
        with.sent.len(),
        with.first
    );
    let ours = [&[fed.refusal], &fed.answer[..]].concat();
    run.expect(FEED, &inputs, &ours, &[&[returned], &answer[..]].concat());
    if fed.refusal != 0 {
        run.expect(FEED, &format!("{inputs}: the state"), &before, pair.theirs.inner());
    }
    pair.ours = fed.state;
}

/// The library's feed, with guards around all that is lent. What is only to be read must be as it was.
fn feed_face(run: &Run, state: &mut Lent<u64>, with: &Lending) -> (u64, Vec<u64>) {
    let (mut line, mut sent) = (bytes("line", with.line), bytes("sent", with.sent));
    let mut answer = numbers("answer", &[UNWRITTEN; ANSWER]);
    // Sound if the face keeps to what it is lent: every pointer comes with its own count.
    let returned = unsafe {
        let (s, l, t, a) = (state.pointer(), line.pointer(), sent.pointer(), answer.pointer());
        let (lc, tc) = (line.count(), sent.count());
        spritbobbin_verdict_feed(s, l, lc, with.next, t, tc, with.first, a)
    };
    for broken in [state.broken(), line.broken(), sent.broken(), answer.broken()] {
        unbroken(run, FEED, broken);
    }
    let written = [("line", line.inner() != with.line), ("sent", sent.inner() != with.sent)];
    for (name, written) in written {
        unbroken(run, FEED, Some(name).filter(|_| written));
    }
    (returned, answer.inner().to_vec())
}

fn unbroken(run: &Run, call: &str, broken: Option<&'static str>) {
    if let Some(name) = broken {
        println!("{call}: face wrote over or beside the {name}");
        run.end_with_disagreement();
    }
}

// ---- recordings

/// The line of a multiplexer fed as it is and then worn; then judged by another pattern, or by anything.
fn one_recording(run: &mut Run, row: &'static Row, frames: usize, pattern: u64, reading: Reading) {
    let mut recording = recording(&mut run.random, row, frames, pattern, reading);
    fed_in_runs(run, &recording);
    wear(&mut run.random, &mut recording);
    fed_in_runs(run, &recording);
    if frames <= 8 {
        recording.pattern = run.random.pick(&PATTERNS);
        if run.random.once_in(2) {
            recording.line = run.random.filled(recording.line.len());
        }
        fed_in_runs(run, &recording);
    }
}

fn recording(
    random: &mut Random,
    row: &'static Row,
    frames: usize,
    pattern: u64,
    reading: Reading,
) -> Recording {
    let (notes, earlier) = (decisions(random, row, frames), random.number() as u8 & 15);
    let digits = 8 * (frames * row.most_digits() / 8 + 12);
    let sent = [0, 1, 2, 3].map(|_| match pattern {
        0 if random.once_in(6) => vec![random.digit(); digits],
        0 => random.digits(digits),
        stages => pattern_digits(stages, &random.digits(23), digits),
    });
    let went_in = [0, 1, 2, 3].map(|j| slipped(random, &sent[j]));
    let unknown = random.number() as u8 & 15;
    let line = line_of(row, earlier, &notes, &went_in, reading, unknown);
    Recording { row, earlier: u64::from(earlier), pattern, line, sent }
}

/// The digits that go into the multiplexer: those sent, or with some lost and doubled on the way, or those
/// of a clock that is off.
fn slipped(random: &mut Random, sent: &[u8]) -> Vec<u8> {
    let mut digits = sent.to_vec();
    match random.below(4) {
        0 => {
            for _ in 0..1 + random.index(4) {
                let (at, count) = (random.index(digits.len() - 20), 1 + random.index(9));
                if random.once_in(2) {
                    digits.drain(at..at + count);
                } else {
                    let again = digits[at..at + count].to_vec();
                    digits.splice(at..at, again);
                }
            }
        }
        1 => {
            let every = 90 + random.index(400);
            let mut number = 0;
            digits.retain(|_| {
                number += 1;
                number % every != 0
            });
        }
        _ => {}
    }
    digits
}

/// Digits turned over at random: few, many, or half of them for some frames.
fn wear(random: &mut Random, recording: &mut Recording) {
    let one_in = random.pick(&[1000, 1000, 100, 20, 2]);
    let frame = recording.row.frame_bytes();
    let fade = random.index(recording.line.len() / frame + 1) * frame;
    for (at, byte) in recording.line.iter_mut().enumerate() {
        if one_in == 2 && at / frame != fade / frame {
            continue;
        }
        (0..8).for_each(|bit| *byte ^= u8::from(random.once_in(one_in)) << bit);
    }
}

/// Feeds a recording from fresh in runs of any length, each with the vote that comes next, now and then with
/// another or with none.
fn fed_in_runs(run: &mut Run, recording: &Recording) {
    let row = recording.row;
    let mut pair = fresh(run, row.level, recording.earlier, recording.pattern);
    let (frame, votes) = (row.frame_bytes(), votes(row, &recording.line));
    let frames = votes.len();
    let mut at = 0;
    loop {
        let random = &mut run.random;
        let most = (frames - at).min(64);
        let count = if random.once_in(3) { most } else { random.index(most + 1) };
        let next = match votes.get(at + count) {
            Some(&vote) if !random.once_in(8) => u64::from(vote),
            _ => random.below(UNKNOWN + 1),
        };
        let line = &recording.line[at * frame..(at + count) * frame];
        let (first, sent) = lent(random, recording, at, at + count);
        feed(run, &mut pair, &Lending { line, next, sent: &sent, first });
        at += count;
        if at == frames {
            break;
        }
    }
    // No more frames: the answer is the state's.
    feed(run, &mut pair, &Lending { line: &[], next: UNKNOWN, sent: &[], first: 0 });
}

/// What was sent, for these frames: all of it, from before their first digit to after their last, short of
/// that at either end, nothing, or not what was sent; with a pattern anything.
fn lent(random: &mut Random, recording: &Recording, from: usize, to: usize) -> (u64, Vec<u8>) {
    if recording.pattern != 0 {
        let bytes = random.index(9);
        return (random.hostile(), random.bytes(bytes));
    }
    let row = recording.row;
    let all = recording.sent[0].len();
    let [first, last] = match random.below(8) {
        0 | 1 => [0, all],
        2 => [from * row.tributary_digits, to * row.tributary_digits],
        3 => [from * row.tributary_digits + random.index(60), to * row.tributary_digits],
        4 if random.once_in(6) => [0, 0],
        _ => [(from * (row.tributary_digits - 1)).saturating_sub(24), to * row.most_digits() + 40],
    };
    let [first, last] = [first.min(all), last.min(all)].map(|at| at / 8 * 8);
    let quarter = |sent: &Vec<u8>| pack(&sent[first..last.max(first)]);
    let mut bytes: Vec<u8> = recording.sent.iter().flat_map(quarter).collect();
    if random.once_in(30) {
        bytes = random.filled(bytes.len());
    }
    let first = if random.once_in(30) { random.hostile() } else { first as u64 };
    (first, bytes)
}

/// Every vote of the frame after a line of one frame and of two, and every earlier vote.
fn every_border(run: &mut Run, row: &'static Row) {
    for frames in [1, 2] {
        for vote in 0..=UNKNOWN {
            let (pattern, reading) = (run.random.pick(&PATTERNS), run.random.pick(&READINGS));
            let recording = recording(&mut run.random, row, frames, pattern, reading);
            let earlier = vote.min(15);
            let mut pair = fresh(run, row.level, earlier, pattern);
            let sent: Vec<u8> = recording.sent.iter().flat_map(|sent| pack(sent)).collect();
            let with = Lending { line: &recording.line, next: vote, sent: &sent, first: 0 };
            feed(run, &mut pair, &with);
        }
    }
}

// ---- wrong numbers

fn fresh_with_faults(run: &mut Run, row: &Row, faults: u64) {
    let random = &mut run.random;
    let has = |bit: u64| faults >> bit & 1 == 1;
    let level = if has(0) { wrong_level(random) } else { row.level };
    let pattern = match has(1) {
        true => random.pick(&[1, 14, 16, 22, 24, 255, (1 << 32) + 15, 1 << 63, u64::MAX]),
        false => random.pick(&PATTERNS),
    };
    let earlier = match (has(2), row.negative_places) {
        (true, _) => 16 + random.pick(&[0, 0, 1, 15, 239, 240, (1 << 32) - 16, u64::MAX - 16]),
        (false, true) => random.below(16),
        (false, false) => any_earlier(random),
    };
    let mut pair = fresh(run, level, earlier, pattern);
    // A state that was refused is one that no feed takes.
    feed(run, &mut pair, &Lending { line: &[], next: 16, sent: &[], first: 0 });
}

fn feed_with_faults(run: &mut Run, row: &Row, faults: u64) {
    let has = |bit: u64| faults >> bit & 1 == 1;
    let pattern = run.random.pick(&PATTERNS);
    let level = if has(0) { 1 } else { row.level };
    let mut pair = fresh(run, level, 0, pattern);
    let random = &mut run.random;
    let frames = random.index(3);
    let line = match has(1) {
        true if random.once_in(2) => (65 + random.index(2)) * row.frame_bytes(),
        true => wrong_line(random, row, frames * row.frame_bytes()),
        false => frames * row.frame_bytes(),
    };
    let quarters = 4 * random.index(120);
    let sent = if has(2) { quarters + 1 + random.index(3) } else { quarters };
    let next = match has(3) {
        true => random.pick(&[17, 18, 255, 256, (1 << 32) + 1, 1 << 63, u64::MAX]),
        false => random.below(UNKNOWN + 1),
    };
    let (line, sent, first) = (random.filled(line), random.filled(sent), random.hostile());
    feed(run, &mut pair, &Lending { line: &line, next, sent: &sent, first });
    // And what was refused has left the state as it was.
    feed(run, &mut pair, &Lending { line: &[], next: 0, sent: &[], first: 0 });
}

/// A state with some numbers changed, which the separate program cannot read: if it is refused, nothing has
/// moved and the answer is zeros; if it is not, the feed comes back, with everything beside it as it was.
fn damaged_state(run: &mut Run) {
    let row = any_row(&mut run.random);
    let (pattern, reading) = (run.random.pick(&PATTERNS), run.random.pick(&READINGS));
    let frames = run.random.index(3);
    let recording = recording(&mut run.random, row, frames, pattern, reading);
    let mut pair = fresh(run, row.level, recording.earlier, pattern);
    let (first, sent) = lent(&mut run.random, &recording, 0, frames);
    let with = Lending { line: &recording.line, next: UNKNOWN, sent: &sent, first };
    feed(run, &mut pair, &with);
    let random = &mut run.random;
    let mut state = pair.theirs.inner().to_vec();
    for _ in 0..1 + random.index(3) {
        let end = random.pick(&[40, VERDICT_STATE]);
        let at = random.index(end);
        state[at] = match random.below(3) {
            0 => random.hostile(),
            1 => state[at].wrapping_add(1),
            _ => state[at] ^ 1 << random.below(64),
        };
    }
    let mut lent = numbers("state", &state);
    let (returned, answer) = feed_face(run, &mut lent, &with);
    let inputs = format!("level {}; pattern {pattern}; a state changed", row.level);
    if returned != 0 {
        // The level or the pattern may be the one of another state, for which the lengths are wrong.
        let refusal = if [2, 4].contains(&returned) { returned } else { 6 };
        let refused = [&[refusal], &[0; ANSWER][..]].concat();
        run.expect(FEED, &inputs, &refused, &[&[returned], &answer[..]].concat());
        run.expect(FEED, &format!("{inputs}: the state"), &state, lent.inner());
    }
}

/// Lengths for which a feed is refused, or that lend nothing at all; with a pattern the length of what was
/// sent is not looked at.
pub fn by_lengths(run: &mut Run, level: u64, pattern: u64, next: u64, lengths: [u64; 2]) {
    let [line, sent] = lengths;
    let mut pair = fresh(run, level, 0, pattern);
    let refusal = verdict::feed_refusal(&pair.ours, line, next, sent);
    // A length that no slice can have, and that is not refused, is not asked.
    if refusal == 0 && (line != 0 || sent != 0) || refusal == 5 && sent > i64::MAX as u64 {
        return;
    }
    let (memory, mut answer) = ([0_u8; 4096], [UNWRITTEN; ANSWER]);
    let at = |length| if length == 0 { std::ptr::null() } else { memory.as_ptr() };
    // Sound if the face judges lengths before it reads, and makes no slice of a null pointer.
    let returned = unsafe {
        let (s, l, t, a) = (pair.theirs.pointer(), at(line), at(sent), answer.as_mut_ptr());
        spritbobbin_verdict_feed(s, l, line as usize, next, t, sent as usize, 0, a)
    };
    let inputs =
        format!("level {level}, pattern {pattern}, next {next}, line {line}, sent {sent} bytes");
    let ours = match refusal {
        0 => pair.ours.told(),
        _ => [0; ANSWER],
    };
    let ours = [&[refusal], &ours[..]].concat();
    run.expect(FEED, &inputs, &ours, &[&[returned], &answer[..]].concat());
}

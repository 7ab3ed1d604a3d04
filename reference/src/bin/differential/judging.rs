//! Calls that judge a line: of right, late and early multiplexers, damaged or not, with what was sent,
//! with a digit of it changed and with something else; lines of any digits; every set of faults, and
//! lengths that no memory holds.

use crate::call::{Call, Outcome, Trace};
use crate::face::{spritbobbin_judge, UNWRITTEN};
use crate::levels::any_row;
use crate::multiplexing::{any_earlier, damage_line, decisions};
use crate::multiplexing::{wrong_buffer, wrong_level, wrong_line};
use crate::Run;
use reference::digits::pack;
use reference::judge_refusal;
use reference::judging::{line_of, pattern_digits, READINGS};
use reference::level::{row, Row, LEVELS};
use reference::random::Random;

/// The call's name.
const JUDGE: &str = "judge";

const PATTERNS: [u64; 3] = [0, 15, 23];

/// Faults in the order of their refusals, 1, 13, 2, 4, 5, from the lowest bit on.
type Faults = u64;
const ALL_FAULTS: Faults = 1 << 5;

pub fn part(run: &mut Run) {
    for row in LEVELS.into_iter().filter_map(row) {
        for frames in 0..=64 {
            let pattern = PATTERNS[frames % 3];
            one_line(run, row, frames, pattern);
        }
        for frames in 0..6 {
            for pattern in PATTERNS {
                one_line(run, row, frames, pattern);
            }
        }
        every_border(run, row);
    }
    for _ in 0..run.often(600) {
        let row = any_row(&mut run.random);
        let (frames, pattern) = (run.random.index(7), run.random.pick(&PATTERNS));
        one_line(run, row, frames, pattern);
        any_digits(run, row, frames, pattern);
    }
    for _ in 0..6 {
        for faults in 0..ALL_FAULTS {
            for row in LEVELS.into_iter().filter_map(row) {
                with_faults(run, row, faults);
            }
        }
    }
}

/// What is sent into the four tributaries: any digits, or a pattern from any phase, in quarters with
/// bytes to spare.
fn sent(random: &mut Random, row: &Row, frames: usize, pattern: u64) -> [Vec<u8>; 4] {
    let digits = 8 * ((frames * row.most_digits() + 7) / 8 + random.pick(&[0, 0, 1, 17]));
    [0, 1, 2, 3].map(|_| match pattern {
        0 if random.once_in(4) => vec![random.digit(); digits],
        0 => random.digits(digits),
        stages => pattern_digits(stages, &random.digits(23), digits),
    })
}

/// The line of each multiplexer, as it is and damaged, judged by what was sent into it, by the other
/// patterns, and by what was sent with one digit turned over.
fn one_line(run: &mut Run, row: &Row, frames: usize, pattern: u64) {
    for (bit, reading) in READINGS.into_iter().enumerate() {
        // Of long lines one multiplexer's is enough.
        if frames > 8 && bit != run.random.index(3) {
            continue;
        }
        let random = &mut run.random;
        let (notes, earlier) = (decisions(random, row, frames), random.number() as u8 & 15);
        let digits = sent(random, row, frames, pattern);
        let unknown = random.number() as u8 & 15;
        let line = line_of(row, earlier, &notes, &digits, reading, unknown);
        let buffer: Vec<u8> = digits.iter().flat_map(|digits| pack(digits)).collect();
        let (level, earlier) = (row.level, u64::from(earlier));
        let trace = Trace { level, earlier, line, pattern, buffer };
        let judged = run.compare(&Call::Judge(trace.clone()));
        must_fit(run, &judged, bit);
        more_of(run, row, trace);
    }
}

fn must_fit(run: &Run, judged: &Outcome, bit: usize) {
    if (0..4).any(|j| judged.numbers[5 * j] >> bit & 1 == 0) {
        println!("DISAGREEMENT: a line does not fit by the reading of its multiplexer");
        run.end_with_disagreement();
    }
}

fn more_of(run: &mut Run, row: &Row, trace: Trace) {
    let mut other = trace.clone();
    other.pattern = run.random.pick(&PATTERNS);
    run.compare(&Call::Judge(other));
    if trace.line.is_empty() {
        return;
    }
    let mut damaged = trace.clone();
    damage_line(&mut run.random, row, &mut damaged.line);
    if run.random.once_in(3) {
        damaged.earlier = any_earlier(&mut run.random);
    }
    run.compare(&Call::Judge(damaged));
    let mut turned = trace;
    let digit = run.random.index(8 * turned.line.len());
    turned.line[digit / 8] ^= 0x80 >> (digit % 8);
    let digit = run.random.index(8 * turned.buffer.len());
    turned.buffer[digit / 8] ^= 0x80 >> (digit % 8);
    run.compare(&Call::Judge(turned));
}

/// Every vote in the first and in the last frame of short lines, after every earlier vote: what is read at
/// the border, and which of the two ways of the unknown decision has fewer wrong digits.
fn every_border(run: &mut Run, row: &Row) {
    for frames in [1, 2, 3] {
        for votes in 0..16 {
            let random = &mut run.random;
            let mut notes = decisions(random, row, frames);
            let pattern = random.pick(&PATTERNS);
            let digits = sent(random, row, frames, pattern);
            for at in [0, frames - 1] {
                notes[at] = notes[at] & 0xF0 | votes;
            }
            let (earlier, unknown) = (random.number() as u8 & 15, random.number() as u8 & 15);
            let reading = random.pick(&READINGS);
            let line = line_of(row, earlier, &notes, &digits, reading, unknown);
            let quarter = (frames * row.most_digits() + 7) / 8;
            let buffer: Vec<u8> =
                digits.iter().flat_map(|digits| pack(&digits[..8 * quarter])).collect();
            for earlier in 0..16 {
                let (level, line, buffer) = (row.level, line.clone(), buffer.clone());
                run.compare(&Call::Judge(Trace { level, earlier, line, pattern, buffer }));
            }
        }
    }
}

fn any_digits(run: &mut Run, row: &Row, frames: usize, pattern: u64) {
    let random = &mut run.random;
    let line = random.filled(frames * row.frame_bytes());
    let quarter = (frames * row.most_digits() + 7) / 8;
    let buffer = match pattern {
        0 => random.filled(4 * quarter),
        _ => {
            let bytes = random.index(40);
            random.filled(bytes)
        }
    };
    let (level, earlier) = (row.level, any_earlier(random));
    run.compare(&Call::Judge(Trace { level, earlier, line, pattern, buffer }));
}

fn with_faults(run: &mut Run, row: &Row, faults: Faults) {
    let random = &mut run.random;
    let has = |bit: u64| faults >> bit & 1 == 1;
    let mut frames = random.index(4);
    let mut line = frames * row.frame_bytes();
    if has(2) && random.once_in(2) {
        frames = 65 + random.index(2);
        line = frames * row.frame_bytes();
    } else if has(2) {
        line = wrong_line(random, row, line);
    }
    let least = (frames * row.most_digits() + 7) / 8;
    let buffer = match has(3) {
        true => wrong_buffer(random, least),
        false => 4 * (least + random.pick(&[0, 0, 1, 17])),
    };
    let pattern = match has(1) {
        true => random.pick(&[1, 14, 16, 22, 24, 255, 256, (1 << 32) + 15, 1 << 63, u64::MAX]),
        false => random.pick(&PATTERNS),
    };
    let earlier = match (has(4), row.negative_places) {
        (true, _) => 16 + random.pick(&[0, 0, 1, 15, 239, 240, (1 << 32) - 16, u64::MAX - 16]),
        (false, true) => random.below(16),
        (false, false) => any_earlier(random),
    };
    let level = if has(0) { wrong_level(random) } else { row.level };
    let (line, buffer) = (random.filled(line), random.filled(buffer));
    run.compare(&Call::Judge(Trace { level, earlier, line, pattern, buffer }));
}

/// Pointers and lengths for which the call is refused, or that lend nothing at all; with a pattern the
/// buffer's length is not looked at.
pub fn by_lengths(run: &mut Run, level: u64, earlier: u64, pattern: u64, lengths: [u64; 2]) {
    let [line, buffer] = lengths;
    let refusal = judge_refusal(level, earlier, pattern, lengths);
    if refusal == 0 && line != 0 {
        return;
    }
    // Nor a buffer with room that is longer than any slice can be: what is asked here is that
    // lengths are refused, and this one is not.
    if refusal == 5 && pattern == 0 && buffer > i64::MAX as u64 {
        return;
    }
    let (memory, mut answer) = ([0_u8; 4096], [UNWRITTEN; 20]);
    let at = |length| if length == 0 { std::ptr::null() } else { memory.as_ptr() };
    // Sound if the face judges lengths before it reads, and makes no slice of a null pointer.
    let returned = unsafe {
        let (l, b, a) = (at(line), at(buffer), answer.as_mut_ptr());
        spritbobbin_judge(level, earlier, l, line as usize, pattern, b, buffer as usize, a)
    };
    let inputs = format!(
        "level {level}, earlier {earlier}, pattern {pattern}, line {line}, buffer {buffer} bytes"
    );
    let fits = if refusal == 0 { 7 } else { 0 };
    let four = [fits, 0, 0, 0, 0].repeat(4);
    run.expect(
        JUDGE,
        &inputs,
        &[&[refusal], &four[..]].concat(),
        &[&[returned], &answer[..]].concat(),
    );
}

//! Comparisons of two captures and of two lines: each place of a frame alone, lines that differ in a
//! few digits, in all, and in as many as the list has room for and one more or less, every pair of
//! faults, files of any fields, and stretches of every kind of length.

use crate::call::{Call, Pair};
use crate::captures::{any_file, levels};
use crate::Run;
use reference::level::Row;
use reference::random::Random;
use reference::write_capture;

pub fn part(run: &mut Run) {
    for row in levels() {
        each_place(run, row);
        for frames in [0, 1, 2, 3, 63, 64] {
            for differing in [0, 1, 2, 63, 64, 65, 66, 500] {
                some_places(run, row, frames, differing);
            }
            all_places(run, row, frames);
        }
    }
    for _ in 0..run.often(4_000) {
        any_pair(run);
        any_lines(run);
    }
    for _ in 0..run.often(20_000) {
        let (one, other) = (any_file(&mut run.random), any_file(&mut run.random));
        run.compare(&Call::Compare(one, other));
    }
}

/// A good capture of this line, with a label of its own or none.
fn capture(random: &mut Random, level: u64, line: &[u8]) -> Vec<u8> {
    let label = random.pick(&[None, None, Some(0), Some(1), Some(32)]);
    let label = label.map(|bytes| random.filled(bytes));
    let mut file = vec![0; 7 + line.len() + label.as_ref().map_or(0, |label| 3 + label.len())];
    write_capture(level, line, label.as_deref(), &mut file);
    file
}

/// Compares two lines both ways, each in a capture of its own.
fn captures(run: &mut Run, level: u64, one: &[u8], other: &[u8]) {
    let (one, other) =
        (capture(&mut run.random, level, one), capture(&mut run.random, level, other));
    run.compare(&Call::Compare(one.clone(), other.clone()));
    run.compare(&Call::Compare(other, one));
}

/// Two lines both ways, as captures and alone, and stretches of them.
fn lines(run: &mut Run, level: u64, one: &[u8], other: &[u8]) {
    captures(run, level, one, other);
    let pair = Pair { level, one: one.to_vec(), other: other.to_vec() };
    run.compare(&Call::CompareLines(Pair { level, one: other.to_vec(), other: one.to_vec() }));
    let digits = 8 * one.len();
    for _ in 0..2 {
        let first = run.random.index(digits + 1);
        let room = digits - first;
        let count =
            run.random.pick(&[0, 1, room.min(7), room.min(64), room.min(900), room, room + 1]);
        run.compare(&Call::CompareStretch(pair.clone(), first as u64, count as u64));
    }
    run.compare(&Call::CompareStretch(pair.clone(), 0, digits as u64));
    run.compare(&Call::CompareLines(pair));
}

/// Lines of any level number and length, and stretches of any numbers.
fn any_lines(run: &mut Run) {
    let level = run.random.pick(&[2, 2, 3, 4, 12, 14, 0, 1, 5, 13, 258, u64::MAX]);
    let bytes = levels().find(|row| row.level == level).map_or(106, Row::frame_bytes);
    let long = [0, 1, bytes - 1, bytes, bytes + 1, 2 * bytes, 64 * bytes, 65 * bytes, 66 * bytes];
    let one = run.random.pick(&long);
    let one = run.random.filled(one);
    let other = if run.random.below(3) == 0 { run.random.pick(&long) } else { one.len() };
    let other = run.random.filled(other);
    let wide = [0, 1, 7, 8 * one.len() as u64, u64::MAX, 1 << 63, 1 << 32];
    let (first, count) = (run.random.pick(&wide), run.random.pick(&wide));
    let pair = Pair { level, one, other };
    run.compare(&Call::CompareStretch(pair.clone(), first, count));
    run.compare(&Call::CompareLines(pair));
}

fn turn(line: &mut [u8], place: usize) {
    line[place / 8] ^= 0x80 >> (place % 8);
}

/// Each place of a frame, in a frame of its own choice.
fn each_place(run: &mut Run, row: &Row) {
    let frames = 3;
    let line = run.random.filled(frames * row.frame_bytes());
    for place in 0..row.frame_digits {
        let mut other = line.clone();
        turn(&mut other, run.random.index(frames) * row.frame_digits + place);
        lines(run, row.level, &line, &other);
    }
}

/// So many digits, or fewer if one is turned twice; near the beginning, near the end or anywhere.
fn some_places(run: &mut Run, row: &Row, frames: usize, differing: usize) {
    let line = run.random.filled(frames * row.frame_bytes());
    let digits = 8 * line.len();
    if digits == 0 {
        return lines(run, row.level, &line, &line);
    }
    for span in [digits, digits.min(200), digits.min(70)] {
        for from in [0, digits - span] {
            let mut other = line.clone();
            for _ in 0..differing {
                turn(&mut other, from + run.random.index(span));
            }
            lines(run, row.level, &line, &other);
        }
    }
}

fn all_places(run: &mut Run, row: &Row, frames: usize) {
    let line = run.random.filled(frames * row.frame_bytes());
    let other: Vec<u8> = line.iter().map(|byte| !byte).collect();
    lines(run, row.level, &line, &other);
    let other = run.random.filled(line.len());
    lines(run, row.level, &line, &other);
}

/// Two captures of any level and length, each changed in any byte, cut or with bytes after it.
fn any_pair(run: &mut Run) {
    let mut files = Vec::new();
    for _ in 0..2 {
        let level = run.random.pick(&[2, 2, 2, 3, 4, 12, 12, 14]);
        let frames = run.random.pick(&[0, 0, 1, 1, 2]);
        let frame_bytes = levels().find(|row| row.level == level).map_or(0, Row::frame_bytes);
        let line = run.random.filled(frames * frame_bytes);
        let mut file = capture(&mut run.random, level, &line);
        match run.random.below(5) {
            0 => {
                let at = run.random.index(file.len().min(12));
                file[at] = run.random.pick(&[0, 1, 2, 3, 4, 5, 9, 12, 13, 14, 106, 132, 192, 255]);
            }
            1 => file.truncate(run.random.index(file.len())),
            2 => file.push(run.random.number() as u8),
            _ => {}
        }
        files.push(file);
    }
    let (other, one) = (files.pop().unwrap_or_default(), files.pop().unwrap_or_default());
    run.compare(&Call::Compare(one, other));
}

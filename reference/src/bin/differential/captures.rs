//! Calls of the writer and of the reader of captures: every border and pair of faults, files
//! with a byte changed, cut or added, and files of any fields.

use crate::call::{Call, Writing};
use crate::levels::any_row;
use crate::Run;
use reference::level::{row, Row, LEVELS};
use reference::random::Random;

/// Numbers that say that there is a label.
const YES: [u64; 5] = [1, 2, 256, 1 << 32, u64::MAX];

/// How many bytes a label has, or that there is none.
const LABELS: [Option<usize>; 6] = [None, Some(0), Some(1), Some(31), Some(32), Some(33)];

pub fn part(run: &mut Run) {
    borders(run);
    for _ in 0..run.often(20_000) {
        any_write(run);
    }
    for frames in [0, 1] {
        for label in [None, Some(0), Some(1), Some(32)] {
            hostile_files(run, frames, label);
        }
    }
    for _ in 0..run.often(60_000) {
        let file = any_file(&mut run.random);
        run.compare(&Call::CaptureRead(file));
    }
}

pub fn levels() -> impl Iterator<Item = &'static Row> {
    LEVELS.into_iter().filter_map(row)
}

/// What a writer is lent; without a label there is a slice all the same.
fn writing(random: &mut Random, level: u64, line: usize, label: Option<usize>) -> Writing {
    let labelled = label.map_or(0, |_| random.pick(&YES));
    let label = label.unwrap_or_else(|| random.pick(&[0, 1, 33, 300]));
    let (line, label) = (random.filled(line), random.filled(label));
    Writing { level, line, label, labelled, file: vec![] }
}

/// The bytes of the file, if nothing is refused.
fn file_bytes(line: usize, label: Option<usize>) -> usize {
    7 + line + label.map_or(0, |bytes| 3 + bytes)
}

/// Every level, label and number of frames at its border, into buffers that are just long
/// enough, a byte short, and longer; then what was written is read.
fn borders(run: &mut Run) {
    for row in levels() {
        for frames in [0, 1, 2, 63, 64, 65] {
            for label in LABELS {
                for off in [0, 1, row.frame_bytes() - 1] {
                    let line = frames * row.frame_bytes() + off;
                    let size = file_bytes(line, label);
                    for room in [0, size - 1, size, size + 1, size + 300] {
                        let mut with = writing(&mut run.random, row.level, line, label);
                        with.file = run.random.filled(room);
                        write_and_read(run, with);
                    }
                }
            }
        }
    }
}

/// Writes, and reads the file back: the same level, line and label must come.
fn write_and_read(run: &mut Run, with: Writing) {
    let label = (with.labelled != 0).then_some(with.label.clone());
    let (level, line) = (with.level, with.line.clone());
    let wrote = run.compare(&Call::CaptureWrite(with));
    if wrote.returned != 0 {
        return;
    }
    let file = wrote.lent[2].1[..wrote.numbers[0] as usize].to_vec();
    let read = run.compare(&Call::CaptureRead(file.clone()));
    let at = |place: usize| read.numbers[place] as usize;
    let part = |start: usize| file[at(start)..][..at(start + 1)].to_vec();
    let back = (read.returned, read.numbers[0], part(1), (at(3) == 1).then(|| part(4)));
    if back != (0, level, line, label) {
        println!("DISAGREEMENT: a capture of level {level} is not read as it was written");
        run.end_with_disagreement();
    }
}

/// Any of the four faults, each alone and with any others.
fn any_write(run: &mut Run) {
    let random = &mut run.random;
    let faults = random.below(16);
    let has = |fault: u64| faults >> fault & 1 == 1;
    let row = any_row(random);
    let frames = random.pick(&[0, 1, 1, 2, 3]);
    let line = frames * row.frame_bytes() + if has(1) { 1 + random.index(105) } else { 0 };
    let label = if has(2) {
        Some(33 + random.pick(&[0, 0, 1, 223, 65_503, 65_504]))
    } else {
        random.pick(&[None, Some(0), Some(1), Some(7), Some(32)])
    };
    let level = if has(0) { random.hostile() } else { row.level };
    let size = file_bytes(line, label);
    let room = if has(3) { random.index(size) } else { size + random.pick(&[0, 0, 1, 50]) };
    let mut with = writing(random, level, line, label);
    with.file = random.filled(room);
    write_and_read(run, with);
}

/// A good file with each byte changed in every way, cut after each byte, and with bytes after it.
fn hostile_files(run: &mut Run, frames: usize, label: Option<usize>) {
    for row in levels() {
        let with = writing(&mut run.random, row.level, frames * row.frame_bytes(), label);
        let size = file_bytes(with.line.len(), label);
        let file = vec![0; size];
        let wrote = run.compare(&Call::CaptureWrite(Writing { file, ..with }));
        let good = &wrote.lent[2].1;
        for at in 0..size {
            let heads = at < 7 || at >= size - label.map_or(0, |bytes| 3 + bytes);
            let changes = if heads { 255 } else { 2 };
            for change in 1..=changes {
                let mut file = good.clone();
                file[at] ^= change;
                run.compare(&Call::CaptureRead(file));
            }
            run.compare(&Call::CaptureRead(good[..at].to_vec()));
        }
        for more in 1..40 {
            let after = run.random.filled(more);
            run.compare(&Call::CaptureRead([&good[..], &after].concat()));
        }
    }
}

/// A file of fields whose tags and lengths are often right, cut or not, or of random bytes.
pub fn any_file(random: &mut Random) -> Vec<u8> {
    if random.once_in(8) {
        let bytes = random.index(30);
        return (0..bytes).map(|_| random.pick(&[0, 0, 1, 1, 2, 2, 3, 4, 33, 106, 255])).collect();
    }
    let mut file = Vec::new();
    for tag in 1..=random.pick(&[1, 2, 2, 3, 3, 3, 4]) {
        let tag = if random.once_in(16) { random.number() as u8 } else { tag };
        let length = match tag {
            1 => random.pick(&[1, 1, 1, 1, 1, 1, 0, 2, 256, 257]),
            2 => random
                .pick(&[0, 0, 106, 106, 192, 366, 732, 132, 264, 272, 105, 1, 255, 256, 65_535]),
            _ => random.pick(&[0, 1, 31, 32, 33, 256, 8_192]),
        };
        let body = if tag == 1 {
            (0..length)
                .map(|_| random.pick(&[2, 2, 3, 4, 4, 12, 14, 0, 1, 5, 9, 13, 255]))
                .collect()
        } else {
            random.filled(length)
        };
        file.push(tag);
        file.extend((length as u16).to_be_bytes());
        file.extend(body);
    }
    if random.once_in(8) {
        file.truncate(file.len().saturating_sub(random.pick(&[1, 1, 2, 3, 40])));
    }
    if random.once_in(8) {
        let more = random.pick(&[1, 2, 3]);
        file.extend(random.bytes(more));
    }
    file
}

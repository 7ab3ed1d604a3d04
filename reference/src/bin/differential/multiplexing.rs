//! Multiplex, read_notes and extract calls: sound ones, damaged lines, notes of any kind, and every set of faults.

use crate::call::{Call, Lending};
use crate::levels::{any_row, sendable};
use crate::Run;
use reference::frame::{action, Action};
use reference::level::{row, Row, LEVELS};
use reference::random::Random;

/// Faults by refusal number, 1 to 5 from the lowest bit on, then 10.
type Faults = u64;
const ALL_FAULTS: Faults = 1 << 6;
/// The bit of refusal 10.
const NATIONAL: Faults = 1 << 5;

pub fn part(run: &mut Run) {
    every_frame_count(run);
    every_way_of_a_run(run);
    every_earlier_vote(run);
    every_note(run);
    every_pair_of_notes(run);
    every_set_of_faults(run);
    anything(run);
}

/// Every level with every number of frames, there and back.
fn every_frame_count(run: &mut Run) {
    for level in LEVELS {
        for frames in 0..=64 {
            there_and_back(run, level, frames);
        }
    }
}

/// Every vote of the four over nine frames, the same in all or the opposite in every second,
/// from every place in a byte on: of eight frames ahead of the nine so many are stuffed for
/// all, and each moves all that follows by one digit. The quarters have no byte to spare, one,
/// or eight. Sent, and read back.
fn every_way_of_a_run(run: &mut Run) {
    for row in LEVELS.into_iter().filter_map(row) {
        for pattern in 0..16 {
            for in_turn in [0, 0x0F] {
                let mut met = [[false; 8]; 4];
                for stuffed in 0..8 {
                    let mut notes = ahead(row, stuffed);
                    notes.extend((0..9).map(|k| pattern ^ if k % 2 == 1 { in_turn } else { 0 }));
                    places_in_a_byte(row, &notes, &mut met);
                    for spare in [0, 1, 8] {
                        there_and_back_by(run, row, 0x0F, &notes, spare);
                    }
                }
                assert_eq!(met, [[true; 8]; 4], "a place in a byte is not met");
            }
        }
    }
}

/// The notes of eight frames after the votes 1111, so many of them stuffed for all and the
/// others plain.
fn ahead(row: &Row, stuffed: usize) -> Vec<u8> {
    let mut notes = vec![0x0F; stuffed];
    while notes.len() < 8 {
        let before = notes.last().copied().unwrap_or(0x0F);
        notes.push(if row.negative_places { !before & 0x0F } else { 0 });
    }
    notes
}

/// Where in a byte each tributary's digits begin, in the frames after the first eight.
fn places_in_a_byte(row: &Row, notes: &[u8], met: &mut [[bool; 8]; 4]) {
    for (j, places) in met.iter_mut().enumerate() {
        let (mut next, mut before) = (0, 0x0F);
        for (k, &note) in notes.iter().enumerate() {
            places[next % 8] |= k >= 8;
            next += match action(row, before, note, j) {
                Action::Stuffed => row.tributary_digits - 1,
                Action::Plain => row.tributary_digits,
                Action::Negative => row.tributary_digits + 1,
            };
            before = note;
        }
    }
}

/// Every earlier vote before every vote, in lines of one frame and of three, and earlier votes
/// that are refused or not looked at.
fn every_earlier_vote(run: &mut Run) {
    for row in LEVELS.into_iter().filter_map(row) {
        for earlier in (0..20).chain([255, 256, (1 << 32) + 5, 1 << 63, u64::MAX]) {
            for note in 0..16 {
                there_and_back_by(run, row, earlier, &[note], 0);
                let next = run.random.bytes(2).into_iter().map(|note| note & 0x0F);
                let notes: Vec<u8> = [note].into_iter().chain(next).collect();
                there_and_back_by(run, row, earlier, &notes, 1);
            }
            there_and_back_by(run, row, earlier, &[], 0);
        }
    }
}

/// Every note at all, alone, after one that can be sent and before one; so every one that lacks a
/// national digit, or says one that the level lacks.
fn every_note(run: &mut Run) {
    for row in LEVELS.into_iter().filter_map(row) {
        for note in 0..=0xFF {
            let right = sendable(row, run.random.number() as u8);
            for notes in [vec![note], vec![right, note], vec![note, right]] {
                by_notes(run, row, notes);
            }
        }
    }
}

/// Two notes of any sort in a line of one to four frames and of 64: of two faults of one sort the
/// first is named, and of a bit that the level lacks and a national digit of 0 the bit is refused,
/// wherever in the line they are.
fn every_pair_of_notes(run: &mut Run) {
    for row in LEVELS.into_iter().filter_map(row) {
        for frames in [1, 2, 3, 4, 64] {
            for one in 0..frames.min(4) {
                for two in [0, 1, 2, 3, frames - 1].into_iter().filter(|&two| two < frames) {
                    for (set, clear) in
                        [(0, 0x20), (0x40, 0x20), (0x80, 0x20), (0, 0x40), (0, 0x80), (0x40, 0)]
                    {
                        let mut notes = decisions(&mut run.random, row, frames);
                        notes[one] &= !clear;
                        notes[two] |= set;
                        by_notes(run, row, notes.clone());
                        notes[two] &= !run.random.pick(&[0x20, 0x40, 0x80, 0xE0]);
                        by_notes(run, row, notes);
                    }
                }
            }
        }
    }
}

/// All three calls on any line with these notes.
fn by_notes(run: &mut Run, row: &Row, notes: Vec<u8>) {
    let quarter = (notes.len() * row.most_digits() + 7) / 8;
    let with = Lending {
        level: row.level,
        earlier: run.random.below(16),
        line: run.random.filled(notes.len() * row.frame_bytes()),
        notes,
        buffer: run.random.filled(4 * quarter),
    };
    all_three(run, with);
}

fn all_three(run: &mut Run, with: Lending) {
    run.compare(&Call::Multiplex(with.clone()));
    run.compare(&Call::ReadNotes(with.clone()));
    run.compare(&Call::Extract(with));
}

/// The notes are sent with national digits of 1.
fn there_and_back_by(run: &mut Run, row: &Row, earlier: u64, notes: &[u8], spare: usize) {
    let quarter = (notes.len() * row.most_digits() + 7) / 8 + spare;
    let mut with = Lending {
        level: row.level,
        earlier,
        line: run.random.filled(notes.len() * row.frame_bytes()),
        notes: notes.iter().map(|note| note | row.national_bits()).collect(),
        buffer: run.random.bytes(4 * quarter),
    };
    let sent = run.compare(&Call::Multiplex(with.clone()));
    with.line.clone_from(&sent.lent[0].1);
    with.notes = run.random.bytes(notes.len());
    with.buffer = run.random.filled(4 * quarter);
    read_and_extract(run, with);
}

fn every_set_of_faults(run: &mut Run) {
    for _ in 0..20 {
        for faults in 0..ALL_FAULTS {
            for level in LEVELS {
                let frames = run.random.index(4);
                let with = lending(&mut run.random, level, frames, faults);
                all_three(run, with);
            }
        }
    }
}

fn anything(run: &mut Run) {
    for _ in 0..run.often(8_000) {
        let level = any_row(&mut run.random).level;
        let most = run.random.pick(&[2, 4, 8, 65]);
        let frames = run.random.index(most);
        if run.random.once_in(4) {
            let faults = run.random.below(ALL_FAULTS);
            let with = lending(&mut run.random, level, frames, faults);
            all_three(run, with);
        } else {
            there_and_back(run, level, frames);
        }
    }
}

/// A sound send, its line damaged in some way or replaced, and the line read back.
fn there_and_back(run: &mut Run, level: u64, frames: usize) {
    let mut with = lending(&mut run.random, level, frames, 0);
    let sent = run.compare(&Call::Multiplex(with.clone()));
    with.line.clone_from(&sent.lent[0].1);
    damage(&mut run.random, &mut with);
    with.notes = run.random.bytes(with.notes.len());
    with.buffer = run.random.filled(with.buffer.len());
    read_and_extract(run, with);
}

/// The notes of a line are read, and the line is extracted by them, by the same after another
/// earlier vote, by the same shifted by a frame, and by notes that have nothing to do with it.
fn read_and_extract(run: &mut Run, mut with: Lending) {
    let read = run.compare(&Call::ReadNotes(with.clone()));
    with.notes.clone_from(&read.lent[1].1);
    run.compare(&Call::Extract(with.clone()));
    if run.random.once_in(2) {
        with.earlier = any_earlier(&mut run.random);
        run.compare(&Call::Extract(with.clone()));
    }
    if !with.notes.is_empty() {
        with.notes.rotate_right(1);
        run.compare(&Call::Extract(with.clone()));
    }
    with.notes = match run.random.below(3) {
        0 => run.random.bytes(with.notes.len()),
        _ => {
            row(with.level).map_or(vec![], |row| decisions(&mut run.random, row, with.notes.len()))
        }
    };
    run.compare(&Call::Extract(with));
}

/// Changes some digits of a line: any, or only control digits, so that groups split.
pub fn damage(random: &mut Random, with: &mut Lending) {
    if let Some(row) = row(with.level) {
        damage_line(random, row, &mut with.line);
    }
}

pub fn damage_line(random: &mut Random, row: &Row, line: &mut [u8]) {
    let digits = line.len() * 8;
    let changes = digits.min(random.index(60));
    match random.below(5) {
        0 => {}
        1 => line.copy_from_slice(&random.filled(line.len())),
        2 => (0..changes).for_each(|_| flip(line, random.index(digits))),
        _ => (0..changes * 4).for_each(|_| flip(line, control_place(random, row, digits))),
    }
}

fn flip(line: &mut [u8], place: usize) {
    line[place / 8] ^= 0x80 >> (place % 8);
}

fn control_place(random: &mut Random, row: &Row, digits: usize) -> usize {
    let frame = random.index(digits / row.frame_digits);
    let set = 1 + random.index(row.sets - 1);
    frame * row.frame_digits + set * row.set_digits + random.index(4)
}

/// What a call is lent, with the given faults. The length of everything fits everything
/// else but for the faults, so that each fault can be the only one.
pub fn lending(random: &mut Random, level: u64, frames: usize, faults: Faults) -> Lending {
    let has = |number: u64| faults >> (number - 1) & 1 == 1;
    let row = match row(level) {
        Some(row) => row,
        None => unreachable!("sound levels only"),
    };
    let frames = if has(2) && random.once_in(2) { 65 + random.index(2) } else { frames };
    let mut line = frames * row.frame_bytes();
    if has(2) && frames <= 64 {
        line = wrong_line(random, row, line);
    }
    let mut notes = decisions(random, row, frames);
    let mut earlier = if row.negative_places { random.below(16) } else { any_earlier(random) };
    // The earlier vote, a note, or both.
    let which = random.below(3);
    if has(5) && which != 1 {
        earlier = 16 + random.pick(&[0, 0, 1, 15, 239, 240, (1 << 32) - 16, u64::MAX - 16]);
    }
    if has(5) && which != 0 && frames > 0 {
        // More than one wrong note, at times, so that the first can be told from the last.
        for _ in 0..random.pick(&[1, 1, 2, 5]) {
            notes[random.index(frames)] |= random.pick(&[0x10, 0x20, 0x40, 0x80, 0xC0, 0xF0]);
        }
    }
    if faults & NATIONAL != 0 && frames > 0 {
        for _ in 0..random.pick(&[1, 1, 2, 5]) {
            notes[random.index(frames)] &=
                !(random.pick(&[0x20, 0x20, 0x40, 0x80, 0xE0]) & row.national_bits());
        }
    }
    if has(3) {
        wrong_notes(random, &mut notes);
    }
    let least = (frames * row.most_digits() + 7) / 8;
    let quarter = least + random.pick(&[0, 0, 1, 2, 17]);
    let buffer = if has(4) { wrong_buffer(random, least) } else { 4 * quarter };
    Lending {
        level: if has(1) { wrong_level(random) } else { level },
        earlier,
        line: random.filled(line),
        notes,
        buffer: random.filled(buffer),
    }
}

/// An earlier vote that is accepted everywhere, mostly; else any number.
pub fn any_earlier(random: &mut Random) -> u64 {
    if random.once_in(4) {
        return random.near(16);
    }
    random.below(16)
}

pub fn wrong_level(random: &mut Random) -> u64 {
    loop {
        let level = random.hostile();
        if row(level).is_none() {
            return level;
        }
    }
}

pub fn wrong_line(random: &mut Random, row: &Row, right: usize) -> usize {
    let off = random.pick(&[1, 2, row.frame_bytes() - 1, row.frame_bytes() / 2]);
    if random.once_in(2) && right >= off {
        right - off
    } else {
        right + off
    }
}

fn wrong_notes(random: &mut Random, notes: &mut Vec<u8>) {
    if random.once_in(2) && !notes.is_empty() {
        notes.truncate(notes.len() - random.pick(&[1, 1, notes.len()]));
    } else {
        notes.resize(notes.len() + random.pick(&[1, 1, 64, 256]), random.pick(&[0, 0x20, 0xE0]));
    }
}

/// A length that is not a multiple of 4, or one byte short in each quarter.
pub fn wrong_buffer(random: &mut Random, least: usize) -> usize {
    match random.below(4) {
        0 if least > 0 => 4 * (least - 1),
        1 if least > 0 => 4 * least - 1 - random.index(3),
        2 if least > 0 => 4 * random.index(least),
        _ => 4 * least + 1 + random.index(3),
    }
}

/// Notes that can be sent, whose decisions are random, alternate at a pace of their own for each tributary,
/// stay, or stay but for one frame. Decisions that stay hide a decision used late.
pub fn decisions(random: &mut Random, row: &Row, frames: usize) -> Vec<u8> {
    let mut notes = match random.below(4) {
        0 | 1 => random.bytes(frames),
        2 => {
            let (paces, phase) = (random.bytes(4), random.index(8));
            let bit = |k: usize, j: usize| ((k + phase) / (1 + paces[j] as usize % 3) % 2) << j;
            (0..frames).map(|k| (0..4).map(|j| bit(k, j)).sum::<usize>() as u8).collect()
        }
        _ => vec![random.number() as u8; frames],
    };
    if frames > 0 && random.once_in(4) {
        notes[random.index(frames)] ^= 1 << random.index(4);
    }
    notes.iter_mut().for_each(|note| *note = sendable(row, *note));
    notes
}

//! Cases of send.

use crate::case::{in_turn, words, Case, OLD};
use crate::inputs::{level, levels, notes, room, tributaries};
use crate::texts::{self, cannot, no_level, no_national, no_room, no_such_digits, written};
use crate::worked;
use reference::level::Row;
use reference::random::Random;

const OUTPUT: [&str; 1] = ["line"];

pub fn cases() -> Vec<Case> {
    let mut cases = accepted();
    cases.extend(in_turn(wrong_lengths(), &OUTPUT));
    cases.extend(in_turn(wrong_notes(), &OUTPUT));
    cases.extend(in_turn(wrong_national(), &OUTPUT));
    cases.extend(in_turn(wrong_levels(), &OUTPUT));
    cases.extend(in_turn(wrong_inputs(), &OUTPUT));
    cases.extend(wrong_outputs());
    cases
}

/// The folder of a case with its inputs.
fn given(name: &str, notes: &[u8], buffer: &[u8]) -> Case {
    Case::new(name).file("notes", notes).file("tributaries", buffer)
}

fn command(row: &Row) -> Vec<String> {
    words(&format!("send -l {} notes tributaries line", row.level))
}

fn sends(name: &str, row: &Row, notes: &[u8], buffer: &[u8]) -> Case {
    let sent = worked::send(row, notes, buffer);
    let text = texts::sent(row, notes.len(), &sent.counts) + &written(&OUTPUT);
    given(name, notes, buffer).accepted(command(row), &text).makes("line", &sent.line)
}

/// Frames of mixed notes and of random quarters that are so many bytes longer than needed.
fn random(name: &str, row: &Row, frames: usize, longer: usize) -> Case {
    let buffer = Random::new(row.level).bytes(4 * (room(row, frames) + longer));
    let name = format!("send-{}-{name}", row.level);
    sends(&name, row, &notes(row, frames, 20 + row.level), &buffer)
}

fn accepted() -> Vec<Case> {
    let mut cases = Vec::new();
    for row in levels() {
        cases.push(random("three-frames", row, 3, 0));
        // At level 4 both files are longer than 65,536 bytes.
        let many = if row.level == 4 { 190 } else { 150 };
        cases.push(random("many-frames-longer-quarters", row, many, 5));
        cases.push(random("no-frames", row, 0, 0));
    }
    cases.push(random("64-frames", level(2), 64, 0));
    cases.push(random("65-frames", level(2), 65, 0));
    cases.push(random("no-frames-longer-quarters", level(2), 0, 2));
    cases.push(random("over-an-older-file", level(3), 2, 1).had("line", OLD));
    for (number, note) in [(2, 0x20), (2, 0x3F), (3, 0x21), (4, 0xFF)] {
        let name = format!("send-{number}-worked-by-hand-{note:02x}");
        let zeros = vec![0; 4 * room(level(number), 1)];
        cases.push(sends(&name, level(number), &[note], &zeros));
    }
    cases.push(long_names());
    cases
}

/// Names with blanks, in folders, and long ones.
fn long_names() -> Case {
    let row = level(2);
    let line = format!("deep/{}", "a-long-name-".repeat(15));
    let (notes, buffer) = (notes(row, 3, 7), vec![0x5A; 4 * room(row, 3)]);
    let sent = worked::send(row, &notes, &buffer);
    let text = texts::sent(row, 3, &sent.counts) + &written(&[&line]);
    let command = ["send", "-l", "2", "notes of a day", "./deep/tributaries", &line];
    Case::new("send-2-long-names")
        .folder("deep")
        .file("notes of a day", &notes)
        .file("deep/tributaries", &buffer)
        .accepted(command.map(String::from).to_vec(), &text)
        .makes(&line, &sent.line)
}

/// Level, notes, bytes of the file of tributaries.
type Lengths = (u64, &'static [u8], usize);
/// Level, frames, and the frames whose notes are wrong, with the wrong bits. The first of them is
/// named.
type WrongNotes = (u64, usize, &'static [(usize, u8)]);

/// No equal quarters, or too short ones.
const LENGTHS: [Lengths; 10] = [
    (2, &[], 3),
    (2, &[0x20], 0),
    (2, &[0x20], 100),
    (2, &[0x20], 105),
    // Room is asked for all digits, even where all frames are stuffed.
    (2, &[0x2F; 8], 4 * 205),
    // Refusal 4 comes before 5, and before 10.
    (2, &[0x60; 2], 4 * 51),
    (2, &[0; 2], 4 * 51),
    (3, &[0; 150], 4 * 7087),
    (4, &[0xFF; 65], 4 * 5874),
    (4, &[0; 3], 4 * 272 + 2),
];

fn wrong_lengths() -> Vec<Case> {
    let refused = |(number, notes, bytes): Lengths| {
        let row = level(number);
        let note = notes.first().copied().unwrap_or(0);
        let name = format!("send-{number}-{}-frames-{note:02x}-of-{bytes}-bytes", notes.len());
        let line = no_room(row, "tributaries", bytes, notes.len());
        given(&name, notes, &vec![0; bytes]).fails(command(row), &line)
    };
    LENGTHS.into_iter().map(refused).collect()
}

/// Bits that only level 4 knows.
const NOTES: [WrongNotes; 4] = [
    (2, 1, &[(0, 0x40)]),
    (2, 150, &[(70, 0x40), (71, 0x80), (149, 0xFF)]),
    (3, 150, &[(70, 0x80), (140, 0x40)]),
    (3, 64, &[(63, 0xC0)]),
];

fn wrong_notes() -> Vec<Case> {
    let refused = |(number, frames, wrong): WrongNotes| {
        let row = level(number);
        let mut list = notes(row, frames, 9);
        let buffer = tributaries(row, &list, 10);
        wrong.iter().for_each(|&(frame, bits)| list[frame] |= bits);
        let first = wrong[0].0;
        let name = format!("send-{number}-wrong-note-{first}-of-{frames}");
        given(&name, &list, &buffer).fails(command(row), &no_such_digits("notes", first))
    };
    NOTES.into_iter().map(refused).collect()
}

/// Bits of national digits that are cleared: bit 5 at levels 2 and 3; at level 4 each of bits 5, 6
/// and 7 alone, and all three.
const NATIONAL: [WrongNotes; 9] = [
    (2, 1, &[(0, 0x20)]),
    (2, 3, &[(1, 0x20), (2, 0x20)]),
    (2, 150, &[(70, 0x20), (149, 0x20)]),
    (3, 64, &[(63, 0x20)]),
    (3, 150, &[(128, 0x20)]),
    (4, 3, &[(0, 0x20), (1, 0xE0)]),
    (4, 3, &[(1, 0x40)]),
    (4, 3, &[(2, 0x80)]),
    (4, 190, &[(100, 0xE0), (130, 0x40)]),
];

fn wrong_national() -> Vec<Case> {
    let given_notes = |(number, frames, wrong): WrongNotes| {
        let row = level(number);
        let mut list = notes(row, frames, 11);
        let buffer = tributaries(row, &list, 12);
        wrong.iter().for_each(|&(frame, bits)| list[frame] &= !bits);
        (row, list, buffer)
    };
    let refused = |with: WrongNotes| {
        let (row, list, buffer) = given_notes(with);
        let first = with.2[0].0;
        let name = format!("send-{}-national-{first}-of-{}", row.level, with.1);
        given(&name, &list, &buffer).fails(command(row), &no_national("notes", row, first))
    };
    let mut cases: Vec<Case> = NATIONAL.into_iter().map(refused).collect();
    // Refusal 5 comes first, in a later note too, however many frames later.
    for with in [(2, 2, &[(0, 0x20)]), (3, 64, &[(0, 0x20)]), (2, 150, &[(3, 0x20)])] {
        let (row, mut list, buffer) = given_notes((with.0, with.1, with.2));
        let last = list.len() - 1;
        list[last] |= 0x40;
        let case = given(&format!("send-{}-national-and-no-such-digit", row.level), &list, &buffer);
        cases.push(case.fails(command(row), &no_such_digits("notes", last)));
    }
    cases
}

fn wrong_levels() -> Vec<Case> {
    let mut cases = Vec::new();
    // The first word twice: without and with older files where the outputs go.
    for word in ["5", "5", "02", "2x", "two", "a-level-that-is-a-word-of-many-letters"] {
        let command = words(&format!("send -l {word} notes tributaries line"));
        let case = given(&format!("send-no-level-{word}"), &[0], &[0; 104]);
        cases.push(case.fails(command, &no_level(word)));
    }
    // Refusal 1 comes before all others.
    let command = words("send -l 5 notes tributaries none/line");
    let case = given("send-no-level-all-wrong", &[0x40], &[0; 3]);
    cases.push(case.fails(command.clone(), &no_level("5")));
    cases.push(Case::new("send-no-level-no-files").fails(command, &no_level("5")));
    cases
}

fn wrong_inputs() -> Vec<Case> {
    let fails = |case: Case, path, be| case.fails(command(level(2)), &cannot(path, be));
    let no_notes = Case::new("send-no-notes").file("tributaries", &[0; 104]);
    let no_tributaries = Case::new("send-no-tributaries").file("notes", &[0]);
    let folder = Case::new("send-notes-folder").folder("notes").file("tributaries", &[0; 104]);
    let other = Case::new("send-tributaries-folder").file("notes", &[0]).folder("tributaries");
    vec![
        fails(no_notes, "notes", "opened"),
        fails(no_tributaries, "tributaries", "opened"),
        fails(folder, "notes", "read"),
        fails(other, "tributaries", "read"),
    ]
}

fn wrong_outputs() -> Vec<Case> {
    let no_folder = words("send -l 2 notes tributaries none/line");
    vec![
        given("send-line-in-no-folder", &[0x20], &[0; 104])
            .fails(no_folder, &cannot("none/line", "written")),
        given("send-line-is-a-folder", &[0x20], &[0; 104])
            .folder("line")
            .fails(command(level(2)), &cannot("line", "written")),
    ]
}

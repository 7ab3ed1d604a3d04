//! Cases of notes and of extract.

use crate::case::{words, Case, OLD};
use crate::inputs::{damaged, level, levels, line, notes, room};
use crate::texts::{self, cannot, no_level, no_such_digits, no_whole_frames, written};
use crate::worked;
use reference::level::Row;
use reference::random::Random;

pub fn cases() -> Vec<Case> {
    [read(), extracted(), shifted(), unread(), unextracted()].concat()
}

/// The notes of a line, with a file for them and without.
fn reads(name: &str, row: &Row, line: &[u8]) -> Vec<Case> {
    let text = texts::noted(row, line);
    let case = |more| Case::new(&format!("notes-{}-{name}{more}", row.level)).file("line", line);
    let command = |more| words(&format!("notes -l {} line{more}", row.level));
    vec![
        case("").accepted(command(""), &text),
        case("-to-a-file")
            .accepted(command(" notes"), &(text.clone() + &written(&["notes"])))
            .makes("notes", &worked::take(row, line).notes),
    ]
}

fn read() -> Vec<Case> {
    let mut cases = Vec::new();
    for row in levels() {
        let list = |frames| notes(row, frames, 130 + row.level);
        let sent = |frames| line(row, &list(frames), 140 + row.level);
        cases.extend(reads("three-frames", row, &sent(3)));
        cases.extend(reads("no-frames", row, &[]));
        cases.extend(reads("damaged", row, &damaged(row, &sent(70), 150)));
        cases.extend(reads(
            "random",
            row,
            &Random::new(160 + row.level).bytes(130 * row.frame_bytes()),
        ));
    }
    let older = reads("over-an-older-file", level(2), &line(level(2), &[5, 0], 170)).remove(1);
    cases.push(older.had("notes", OLD));
    cases
}

fn command(row: &Row) -> Vec<String> {
    words(&format!("extract -l {} line notes tributaries", row.level))
}

/// A line extracted by these notes.
fn extracts(name: &str, row: &Row, line: &[u8], notes: &[u8]) -> Case {
    let taken = worked::take_by(row, line, notes);
    let quarters = worked::quarters(&taken.tributaries, room(row, notes.len()));
    Case::new(&format!("extract-{}-{name}", row.level))
        .file("line", line)
        .file("notes", notes)
        .accepted(command(row), &(texts::extracted(row, &taken) + &written(&["tributaries"])))
        .makes("tributaries", &quarters)
}

fn extracted() -> Vec<Case> {
    let mut cases = Vec::new();
    for row in levels() {
        let list = |frames| notes(row, frames, 230 + row.level);
        let sent = |frames| line(row, &list(frames), 240 + row.level);
        let frames = if row.level == 4 { 190 } else { 150 };
        cases.push(extracts("three-frames", row, &sent(3), &list(3)));
        cases.push(extracts("many-frames", row, &sent(frames), &list(frames)));
        cases.push(extracts("no-frames", row, &[], &[]));
        // Notes that have nothing to do with the line.
        let random = Random::new(260 + row.level).bytes(70 * row.frame_bytes());
        cases.push(extracts("random", row, &random, &list(70)));
    }
    let older = extracts("over-an-older-file", level(2), &line(level(2), &[5, 0], 270), &[5, 0]);
    cases.push(older.had("tributaries", OLD));
    cases
}

/// By the same notes a frame late: those who are stuffed in turn come out otherwise.
fn shifted() -> Vec<Case> {
    let mut cases = Vec::new();
    for row in levels() {
        let list = notes(row, 66, 330 + row.level);
        let sent = line(row, &list, 340 + row.level);
        let late = [&list[..1], &list[..65]].concat();
        let (right, wrong) =
            (worked::take_by(row, &sent, &list), worked::take_by(row, &sent, &late));
        assert!(right.tributaries[0] != wrong.tributaries[0]);
        cases.push(extracts("a-frame-late", row, &sent, &late));
    }
    cases
}

fn unread() -> Vec<Case> {
    let row = level(2);
    let given = |name: &str| Case::new(name).file("line", &line(row, &[0x3F, 0], 180));
    let plain = words("notes -l 2 line");
    let to_a_file = words("notes -l 2 line notes");
    let uneven = Case::new("notes-2-107-bytes").file("line", &[0; 107]);
    let uneven = uneven.fails(to_a_file.clone(), &no_whole_frames(row, "line", 107));
    let missing = Case::new("notes-no-line").fails(plain, &cannot("line", "opened"));
    let wrong = given("notes-no-level").fails(words("notes -l 5 line notes"), &no_level("5"));
    let nowhere = given("notes-in-no-folder");
    let nowhere =
        nowhere.fails(words("notes -l 2 line none/notes"), &cannot("none/notes", "written"));
    let folder = given("notes-are-a-folder").folder("notes");
    let folder = folder.fails(to_a_file, &cannot("notes", "written"));
    [uneven.twice(&["notes"]), wrong.twice(&["notes"]), vec![missing, nowhere, folder]].concat()
}

fn unextracted() -> Vec<Case> {
    let outputs = ["tributaries"];
    let mut cases = Vec::new();
    for (level_number, list, frame) in [(2, vec![0, 0x40, 0x80], 1), (3, vec![0; 70], 69)] {
        let row = level(level_number);
        let mut list = list;
        list[frame] |= 0x80;
        let case = Case::new(&format!("extract-{level_number}-no-such-digits"));
        let case = case.file("line", &vec![0; list.len() * row.frame_bytes()]).file("notes", &list);
        cases.extend(case.fails(command(row), &no_such_digits("notes", frame)).twice(&outputs));
    }
    let row = level(2);
    let frames = line(row, &[0x3F, 0], 280);
    let given =
        |name: &str, notes: &[u8]| Case::new(name).file("line", &frames).file("notes", notes);
    for notes in [&[0; 1][..], &[0; 3], &[]] {
        let case = given(&format!("extract-2-{}-notes", notes.len()), notes);
        let line = texts::no_note_each("notes", notes.len(), "line", 2);
        cases.extend(case.fails(command(row), &line).twice(&outputs));
    }
    let uneven = Case::new("extract-2-107-bytes").file("line", &[0; 107]).file("notes", &[0]);
    cases.extend(uneven.fails(command(row), &no_whole_frames(row, "line", 107)).twice(&outputs));
    let no_notes = Case::new("extract-no-notes").file("line", &frames);
    cases.push(no_notes.fails(command(row), &cannot("notes", "opened")));
    let no_line = Case::new("extract-no-line").file("notes", &[0]);
    cases.push(no_line.fails(command(row), &cannot("line", "opened")));
    let wrong = given("extract-no-level", &[0, 0]);
    cases.push(wrong.fails(words("extract -l 5 line notes tributaries"), &no_level("5")));
    let folder = given("extract-tributaries-are-a-folder", &[0, 0]).folder("tributaries");
    cases.push(folder.fails(command(row), &cannot("tributaries", "written")));
    cases
}

//! Cases of take.

use crate::case::{in_turn, words, Case, OLD};
use crate::inputs::{damaged, level, levels, line, notes, room};
use crate::texts::{self, cannot, no_level, no_whole_frames, written};
use crate::worked;
use reference::level::Row;
use reference::random::Random;

const OUTPUTS: [&str; 2] = ["notes", "tributaries"];

pub fn cases() -> Vec<Case> {
    let mut cases = accepted();
    cases.extend(in_turn(wrong_lengths(), &OUTPUTS));
    cases.extend(in_turn(wrong_levels(), &OUTPUTS));
    cases.extend(wrong_inputs());
    cases.extend(wrong_outputs());
    cases
}

fn command(row: &Row) -> Vec<String> {
    words(&format!("take -l {} line notes tributaries", row.level))
}

fn takes(name: &str, row: &Row, line: &[u8]) -> Case {
    let taken = worked::take(row, line);
    let quarters = worked::quarters(&taken.tributaries, room(row, taken.notes.len()));
    Case::new(&format!("take-{}-{name}", row.level))
        .file("line", line)
        .accepted(command(row), &(texts::taken(row, &taken) + &written(&OUTPUTS)))
        .makes("notes", &taken.notes)
        .makes("tributaries", &quarters)
}

fn accepted() -> Vec<Case> {
    let mut cases = Vec::new();
    for row in levels() {
        let list = |frames| notes(row, frames, 30 + row.level);
        let sent = |frames| line(row, &list(frames), 40 + row.level);
        let bytes = row.frame_bytes();
        cases.push(takes("three-frames", row, &sent(3)));
        // At level 4 both files are longer than 65,536 bytes.
        cases.push(takes("many-frames", row, &sent(if row.level == 4 { 190 } else { 150 })));
        cases.push(takes("no-frames", row, &[]));
        cases.push(takes("damaged", row, &checked_damage(row, &list(20), &sent(20))));
        cases.push(takes("random", row, &Random::new(60 + row.level).bytes(70 * bytes)));
        cases.push(takes("all-ones", row, &vec![0xFF; 2 * bytes]));
    }
    cases.push(takes("all-zeros", level(3), &[0; 2 * 192]));
    let older = takes("over-older-files", level(2), &line(level(2), &[5, 0], 70));
    cases.push(older.had("notes", OLD).had("tributaries", OLD));
    cases
}

/// The line with wrong digits, of both kinds that are counted; the notes are still read.
fn checked_damage(row: &Row, notes: &[u8], line: &[u8]) -> Vec<u8> {
    let wrong = damaged(row, line, 50);
    let taken = worked::take(row, &wrong);
    assert!(taken.notes == notes && taken.alignment > 0);
    assert!(taken.dissent.iter().all(|&digits| digits > 0));
    wrong
}

fn wrong_lengths() -> Vec<Case> {
    let refused = |(number, bytes)| {
        let row = level(number);
        Case::new(&format!("take-{number}-{bytes}-bytes"))
            .file("line", &vec![0; bytes])
            .fails(command(row), &no_whole_frames(row, "line", bytes))
    };
    let capture = |number: u64| {
        let row = level(number);
        let file = crate::keeping::capture(row, &line(row, &notes(row, 3, 7), 8), Some(b"north"));
        Case::new(&format!("take-{number}-a-capture"))
            .file("line", &file)
            .fails(command(row), &texts::no_line_but_a_capture(row, "line", file.len()))
    };
    let lengths = [(2, 1), (2, 105), (2, 107), (2, 7470), (3, 12_289), (4, 365)];
    lengths.into_iter().map(refused).chain([2, 3, 4, 12, 14].map(capture)).collect()
}

fn wrong_levels() -> Vec<Case> {
    let mut cases = Vec::new();
    // The first word twice: without and with older files where the outputs go.
    for word in ["5", "5", "22", "level-2"] {
        let command = words(&format!("take -l {word} line notes tributaries"));
        let case = Case::new(&format!("take-no-level-{word}")).file("line", &[0; 106]);
        cases.push(case.fails(command, &no_level(word)));
    }
    // Refusal 1 comes before all others.
    let command = words("take -l 5 line none/notes none/tributaries");
    let no_file = Case::new("take-no-level-no-file");
    let short = Case::new("take-no-level-all-wrong").file("line", &[0; 105]);
    cases.push(no_file.fails(command.clone(), &no_level("5")));
    cases.push(short.fails(command, &no_level("5")));
    cases
}

fn wrong_inputs() -> Vec<Case> {
    let row = level(2);
    let missing = Case::new("take-no-line").fails(command(row), &cannot("line", "opened"));
    let folder = Case::new("take-line-is-a-folder").folder("line");
    let folder = folder.fails(command(row), &cannot("line", "read"));
    [missing.twice(&OUTPUTS), folder.twice(&OUTPUTS)].concat()
}

/// Neither output is touched if one of the two cannot be written.
fn wrong_outputs() -> Vec<Case> {
    let frames = line(level(2), &[0x3F, 0], 80);
    let given = |name| Case::new(name).file("line", &frames);
    let in_no_folder =
        |case: Case, command, path| case.fails(words(command), &cannot(path, "written"));
    let is_a_folder =
        |case: Case, path| case.folder(path).fails(command(level(2)), &cannot(path, "written"));
    let notes = "take -l 2 line none/notes tributaries";
    let notes = in_no_folder(given("take-notes-in-no-folder"), notes, "none/notes");
    let tributaries = "take -l 2 line notes none/tributaries";
    let case = given("take-tributaries-in-no-folder");
    let tributaries = in_no_folder(case, tributaries, "none/tributaries");
    [
        notes.twice(&["tributaries"]),
        tributaries.twice(&["notes"]),
        is_a_folder(given("take-notes-are-a-folder"), "notes").twice(&["tributaries"]),
        is_a_folder(given("take-tributaries-are-a-folder"), "tributaries").twice(&["notes"]),
    ]
    .concat()
}

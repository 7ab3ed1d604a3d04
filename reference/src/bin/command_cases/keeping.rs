//! Cases of keep, and what other cases need of captures.

use crate::case::{in_turn, words, Case, OLD};
use crate::inputs::{level, levels, line, notes};
use crate::texts::{self, cannot, long_label, no_level, no_line, written};
use reference::level::Row;
use reference::write_capture;

pub fn cases() -> Vec<Case> {
    let mut cases = accepted();
    cases.extend(in_turn(wrong_lines(), &["capture"]));
    cases.extend(in_turn(wrong_labels(), &["capture"]));
    cases.extend(wrong_levels());
    cases.extend(wrong_files());
    cases
}

/// The file of a capture.
pub fn capture(row: &Row, line: &[u8], label: Option<&[u8]>) -> Vec<u8> {
    let mut file = vec![0; 30_000];
    let written = write_capture(row.level, line, label, &mut file);
    assert_eq!(written.refusal, 0);
    file.truncate(written.bytes as usize);
    file
}

/// A line of so many frames.
pub fn frames(row: &Row, frames: usize) -> Vec<u8> {
    line(row, &notes(row, frames, 120 + row.level), 130 + row.level)
}

/// The command, with the label as one word.
fn command(level: impl ToString, label: Option<&str>) -> Vec<String> {
    let mut command = words(&format!("keep -l {} line capture", level.to_string()));
    command.extend(label.map(|label| format!("--label={label}")));
    command
}

fn keeps(name: &str, row: &Row, line: &[u8], label: Option<&str>) -> Case {
    let bytes = label.map(str::as_bytes);
    Case::new(&format!("keep-{}-{name}", row.level))
        .file("line", line)
        .accepted(
            command(row.level, label),
            &(texts::capture(row, line, bytes) + &written(&["capture"])),
        )
        .makes("capture", &capture(row, line, bytes))
}

fn accepted() -> Vec<Case> {
    let mut cases = Vec::new();
    for row in levels() {
        let most = "A label of 32 bytes, no more ...";
        assert_eq!(most.len(), 32);
        cases.push(keeps("three-frames", row, &frames(row, 3), None));
        cases.push(keeps("64-frames", row, &frames(row, 64), Some(most)));
        cases.push(keeps("no-frames", row, &[], Some("")));
    }
    cases.push(keeps("no-frames-no-label", level(2), &[], None));
    cases.push(keeps("all-ones", level(4), &[0xFF; 366], Some("\\ \" \x1B[31m \u{E9} \x7F")));
    let older = keeps("over-an-older-file", level(2), &frames(level(2), 1), Some("hop A"));
    cases.push(older.had("capture", OLD));
    cases
}

/// One byte too few or too many, a frame too many, and a file that is much too long.
fn wrong_lines() -> Vec<Case> {
    let lengths = [(2, 105), (2, 107), (2, 65 * 106), (3, 65 * 192), (4, 65 * 366), (2, 106_000)];
    let refused = |(number, bytes)| {
        let row = level(number);
        Case::new(&format!("keep-{number}-{bytes}-bytes"))
            .file("line", &vec![0; bytes])
            .fails(command(number, Some("a label")), &no_line(row, "line", bytes))
    };
    lengths.into_iter().map(refused).collect()
}

/// A label over 32 bytes, counted in bytes. Refusal 2 comes before 9, and 9 before an output
/// that cannot be written.
fn wrong_labels() -> Vec<Case> {
    let given = |name: &str| Case::new(&format!("keep-label-{name}"));
    let refused = |name: &str, label: &str, bytes| {
        given(name)
            .file("line", &[0; 106])
            .fails(command(2, Some(label)), &long_label("capture", bytes))
    };
    let long = "x".repeat(33);
    let nowhere = [words("keep -l 2 line none/capture"), vec![format!("--label={long}")]].concat();
    vec![
        refused("of-33-bytes", &long, 33),
        refused("of-17-letters", &"\u{E9}".repeat(17), 34),
        refused("of-4096-bytes", &"x".repeat(4096), 4096),
        refused("of-4097-bytes", &"x".repeat(4097), 4097),
        refused("of-70000-bytes", &"x".repeat(70_000), 70_000),
        given("and-line-wrong")
            .file("line", &[0; 105])
            .fails(command(2, Some(&long)), &no_line(level(2), "line", 105)),
        given("and-output-wrong")
            .file("line", &[0; 106])
            .fails(nowhere, &long_label("none/capture", 33)),
    ]
}

fn wrong_levels() -> Vec<Case> {
    let refused = |word: &str| {
        let case = Case::new(&format!("keep-no-level-{word}")).file("line", &[0; 106]);
        case.fails(command(word, None), &no_level(word))
    };
    let mut cases: Vec<Case> = ["0", "5", "02"].into_iter().map(refused).collect();
    // Refusal 1 comes before all others.
    let all_wrong =
        [words("keep -l 5 line none/capture"), vec![format!("--label={}", "x".repeat(33))]]
            .concat();
    let case = Case::new("keep-no-level-all-wrong").file("line", &[0; 105]);
    cases.push(case.fails(all_wrong.clone(), &no_level("5")));
    cases.push(Case::new("keep-no-level-no-file").fails(all_wrong, &no_level("5")));
    cases
}

fn wrong_files() -> Vec<Case> {
    let fails = |case: Case, path, be| case.fails(command(2, None), &cannot(path, be));
    let given = |name| Case::new(name).file("line", &[0; 106]);
    let nowhere = words("keep -l 2 line none/capture");
    [
        fails(Case::new("keep-no-line"), "line", "opened").twice(&["capture"]),
        fails(Case::new("keep-line-is-a-folder").folder("line"), "line", "read")
            .twice(&["capture"]),
        vec![
            given("keep-in-no-folder").fails(nowhere, &cannot("none/capture", "written")),
            fails(given("keep-in-a-folder").folder("capture"), "capture", "written"),
        ],
    ]
    .concat()
}

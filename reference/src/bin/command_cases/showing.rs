//! Cases of show, and of take with a capture.

use crate::case::{at, in_turn, words, Case, OLD};
use crate::inputs::{damaged, level, levels, notes, room, tributaries_after};
use crate::keeping::{capture, frames};
use crate::texts::{self, cannot, no_capture, no_vote, written};
use crate::worked;
use reference::level::Row;
use reference::read_capture;

const OUTPUTS: [&str; 2] = ["notes", "tributaries"];

pub fn cases() -> Vec<Case> {
    let mut cases = accepted();
    cases.extend(in_turn(refused(), &["line"]));
    cases.extend(taken());
    cases.extend(taken_after());
    cases.extend(trips());
    cases.extend(wrong_files());
    cases
}

/// Shown, and shown with the line written out.
fn shows(name: &str, row: &Row, line: &[u8], label: Option<&[u8]>) -> Vec<Case> {
    let said = texts::capture(row, line, label);
    let given = |more: &str| {
        Case::new(&format!("show-{}-{name}{more}", row.level))
            .file("capture", &capture(row, line, label))
    };
    vec![
        given("").accepted(words("show capture"), &said),
        given("-written-out")
            .accepted(words("show capture line"), &(said + &written(&["line"])))
            .makes("line", line),
    ]
}

fn accepted() -> Vec<Case> {
    let mut cases = Vec::new();
    for row in levels() {
        cases.extend(shows("three-frames", row, &frames(row, 3), Some(b"hop A")));
        cases.extend(shows("64-frames", row, &frames(row, 64), None));
        cases.extend(shows("no-frames", row, &[], Some(b"")));
    }
    // Every byte that a label can have.
    for first in (0..=255).step_by(32) {
        let label: Vec<u8> = (first..=255).take(32).collect();
        let name = format!("label-from-{first}");
        cases.push(shows(&name, level(2), &frames(level(2), 1), Some(&label)).swap_remove(0));
    }
    let older = shows("over-an-older-file", level(3), &frames(level(3), 2), None).pop();
    cases.extend(older.map(|case| case.had("line", OLD)));
    cases
}

/// Files that are no captures, with their names: every way in which one can be wrong.
pub fn no_captures() -> Vec<(String, Vec<u8>)> {
    let good = capture(level(2), &frames(level(2), 1), Some(b"hop A"));
    let mut files = Vec::new();
    // Cut at the head and in the body of each field; not where the line ends, or the label.
    for bytes in [0, 1, 2, 3, 4, 5, 6, 7, 8, 112, 114, 115, 116, 120] {
        files.push((format!("cut-at-{bytes}"), good[..bytes].into()));
    }
    // Tag and length of each field, with one too few and one too many of each.
    for byte in [0, 1, 2, 4, 5, 6, 113, 114, 115] {
        for step in [1, 255] {
            let mut file = good.clone();
            file[byte] = file[byte].wrapping_add(step);
            files.push((format!("byte-{byte}-plus-{step}"), file));
        }
    }
    let plain = |level: u8, line: usize, more: &[u8]| {
        let [high, low] = (line as u16).to_be_bytes();
        [&[1, 0, 1, level, 2, high, low][..], &vec![0; line], more].concat()
    };
    let label = |bytes: u8| [&[3, 0, bytes][..], &vec![b'x'; bytes.into()]].concat();
    let list: [(&str, Vec<u8>); 22] = [
        ("label-of-33", plain(2, 106, &label(33))),
        ("label-of-255", plain(2, 106, &label(255))),
        ("byte-after-the-label", plain(2, 106, &[3, 0, 0, 0])),
        ("two-labels", plain(2, 106, &[label(5), label(5)].concat())),
        ("byte-after-the-line", plain(2, 106, &[0])),
        ("two-lines", plain(2, 0, &[2, 0, 0])),
        ("no-level", plain(2, 106, &[])[4..].into()),
        ("level-twice", [&[1, 0, 1, 2][..], &plain(2, 106, &[])].concat()),
        ("level-0", plain(0, 0, &[])),
        ("level-1", plain(1, 106, &[])),
        ("level-5", plain(5, 106, &label(4))),
        ("level-255", plain(255, 1, &[])),
        ("level-9-and-a-byte-after", plain(9, 0, &[0])),
        ("line-of-1", plain(2, 1, &[])),
        ("line-of-107", plain(2, 107, &label(0))),
        ("line-of-65-frames", plain(2, 65 * 106, &[])),
        ("line-of-65-frames-of-4", plain(4, 65 * 366, &label(32))),
        ("longest-line", plain(3, 65_535, &[])),
        ("longest-line-and-label", plain(3, 65_535, &label(32))),
        ("longest-and-a-byte", plain(3, 65_535, &[label(32), vec![0]].concat())),
        ("longest-line-cut", plain(3, 65_535, &[])[..65_541].into()),
        ("much-too-long", plain(4, 366, &[label(32), vec![7; 100_000]].concat())),
    ];
    files.extend(list.map(|(name, file)| (name.into(), file)));
    files
}

fn refused() -> Vec<Case> {
    let mut cases = Vec::new();
    for (k, (name, file)) in no_captures().into_iter().enumerate() {
        assert_ne!(read_capture(&file).refusal, 0, "{name}");
        // Every second one with a file for the line: four kinds in turn, with older outputs.
        let command = if k / 2 % 2 == 0 { "show capture" } else { "show capture line" };
        let case = Case::new(&format!("show-{name}")).file("capture", &file);
        cases.push(case.fails(words(command), &no_capture("capture", &file)));
    }
    cases
}

fn takes(name: &str, row: &Row, line: &[u8], label: Option<&[u8]>) -> Case {
    let taken = worked::take(row, line);
    let quarters = worked::quarters(&taken.tributaries, room(row, taken.notes.len()));
    Case::new(&format!("take-capture-{}-{name}", row.level))
        .file("capture", &capture(row, line, label))
        .accepted(
            words("take capture notes tributaries"),
            &(texts::taken(row, &taken) + &written(&OUTPUTS)),
        )
        .makes("notes", &taken.notes)
        .makes("tributaries", &quarters)
}

fn taken() -> Vec<Case> {
    let mut cases = Vec::new();
    for row in levels() {
        cases.push(takes("three-frames", row, &damaged(row, &frames(row, 3), 140), Some(b"hop A")));
        cases.push(takes("64-frames", row, &frames(row, 64), None));
        cases.push(takes("no-frames", row, &[], Some(b"")));
    }
    let command = "take capture notes tributaries";
    let bad = [("cut", &[1, 0, 1, 2, 2, 0][..]), ("level-9", &[1, 0, 1, 9, 2, 0, 0])];
    for (name, file) in [bad[0], bad[1], ("line-of-1", &[1, 0, 1, 2, 2, 0, 1, 0])] {
        let case = Case::new(&format!("take-capture-{name}")).file("capture", file);
        cases.extend(case.fails(words(command), &no_capture("capture", file)).twice(&OUTPUTS));
    }
    cases
}

/// With the vote of the frame before the first in the level's place.
fn taken_after() -> Vec<Case> {
    let takes = |number: u64, word: &str, before: u8, frames: usize| {
        let row = level(number);
        let list = notes(row, frames, 160 + number);
        let buffer = tributaries_after(row, before, &list, 170 + number);
        let line = worked::send_after(row, before, &list, &buffer).line;
        let taken = worked::take_after(row, before, &line);
        assert!(taken.notes == list);
        Case::new(&format!("take-capture-{number}-after-{word}"))
            .file("capture", &capture(row, &line, Some(b"hop A")))
            .accepted(
                words(&format!("take --earlier {word} capture notes tributaries")),
                &(texts::taken(row, &taken) + &written(&OUTPUTS)),
            )
            .makes("notes", &list)
            .makes("tributaries", &buffer)
    };
    let mut cases = vec![
        takes(12, "5", 5, 1),
        takes(12, "0F", 15, 64),
        takes(14, "a", 10, 7),
        takes(14, "00", 0, 3),
        // Levels 2 to 4 do not look at the vote.
        takes(2, "F", 0, 3),
        takes(4, "ff", 0, 3),
    ];
    // Answered as by the reader, and then the vote is judged.
    let file = |number| capture(level(number), &frames(level(number), 1), None);
    let given = |name: &str, file: &[u8]| Case::new(name).file("capture", file);
    let command = |word: &str| words(&format!("take {} capture notes tributaries", at(word)));
    for (number, word) in [(12, ":16"), (14, ":1F"), (12, ":x"), (12, ":005"), (12, ":5:5")] {
        let name = format!("take-capture-{number}-no-vote{}", word.replace(':', "-"));
        let case = given(&name, &file(number));
        cases.extend(case.fails(command(word), &no_vote(&word[1..])).twice(&OUTPUTS));
    }
    let bad = &file(12)[..9];
    let case = given("take-capture-cut-no-vote", bad);
    cases.push(case.fails(command(":16"), &no_capture("capture", bad)));
    cases
}

/// What keep made, show writes out and take takes apart.
fn trips() -> Vec<Case> {
    let trip = |row: &Row| {
        let line = frames(row, 7);
        let taken = worked::take(row, &line);
        let quarters = worked::quarters(&taken.tributaries, room(row, 7));
        let said = texts::capture(row, &line, Some(b"a site"));
        let keep =
            [words(&format!("keep -l {} line capture", row.level)), vec!["--label=a site".into()]];
        Case::new(&format!("keep-show-take-{}", row.level))
            .file("line", &line)
            .accepted(keep.concat(), &(said.clone() + &written(&["capture"])))
            .accepted(words("show capture again"), &(said + &written(&["again"])))
            .accepted(
                words("take capture notes tributaries"),
                &(texts::taken(row, &taken) + &written(&OUTPUTS)),
            )
            .makes("capture", &capture(row, &line, Some(b"a site")))
            .makes("again", &line)
            .makes("notes", &taken.notes)
            .makes("tributaries", &quarters)
    };
    levels().into_iter().map(trip).collect()
}

fn wrong_files() -> Vec<Case> {
    let file = capture(level(2), &frames(level(2), 2), None);
    let given = |name| Case::new(name).file("capture", &file);
    let fails = |case: Case, command, path, be| case.fails(words(command), &cannot(path, be));
    let (show, take) = ("show capture line", "take capture notes tributaries");
    let folder = |name| Case::new(name).folder("capture");
    let nowhere = "take capture notes none/tributaries";
    [
        fails(Case::new("show-no-capture"), show, "capture", "opened").twice(&["line"]),
        fails(folder("show-a-folder"), show, "capture", "read").twice(&["line"]),
        fails(Case::new("take-no-capture"), take, "capture", "opened").twice(&OUTPUTS),
        fails(folder("take-capture-is-a-folder"), take, "capture", "read").twice(&OUTPUTS),
        vec![fails(given("show-in-no-folder"), "show capture none/line", "none/line", "written")],
        vec![fails(given("show-in-a-folder").folder("line"), show, "line", "written")],
        fails(given("take-capture-in-no-folder"), nowhere, "none/tributaries", "written")
            .twice(&["notes"]),
        fails(given("take-capture-in-a-folder").folder("notes"), take, "notes", "written")
            .twice(&["tributaries"]),
    ]
    .concat()
}

//! Cases of swap, of a line and of a capture. What the line must be is not worked out by a swap: it is the line that is
//! sent of the new four, by the new votes of the one tributary and the old notes of the rest.

use crate::case::{at, in_turn, words, Case, OLD};
use crate::inputs::{level, levels, notes, room, tributaries_after};
use crate::keeping::{capture, frames};
use crate::texts::{
    cannot, no_capture, no_level, no_note_each, no_vote, no_whole_frames, written, written_over,
};
use crate::worked;
use reference::frame::Action;
use reference::level::Row;
use reference::random::Random;

const OUTPUT: [&str; 1] = ["new"];

pub fn cases() -> Vec<Case> {
    let mut cases = accepted();
    cases.extend(in_turn(refused(), &OUTPUT));
    cases.extend(wrong_files());
    cases.extend(captures());
    cases.extend(in_turn(refused_captures(), &OUTPUT));
    cases
}

fn accepted() -> Vec<Case> {
    let mut cases = Vec::new();
    for (k, row) in levels().into_iter().enumerate() {
        for frames in [0, 1, 64, 65, 130] {
            cases.push(swaps(row, 1 + (k + frames) % 4, frames, "", [0, 0]));
        }
    }
    // The swap's vote before the first frame is its own in the tributary's bit.
    cases.push(swaps(level(12), 2, 65, ":F", [0x5, 0xF]));
    cases.push(swaps(level(14), 3, 65, ":a", [0x5, 0xA]));
    cases.push(swaps(level(3), 4, 2, ":ff", [0, 0]));
    cases.push(over_its_own_line());
    cases
}

/// Random digits put into a tributary of a line that was sent after the first of the votes, with
/// the second before the swap. The notes of the swap are random in every bit.
fn swaps(row: &Row, tributary: usize, frames: usize, vote: &str, votes: [u8; 2]) -> Case {
    let one = Swapped::new(row, tributary, frames, votes);
    given(&one.name("swap", vote), &one.line, &one.notes, &one.digits)
        .had("new", OLD)
        .accepted(command(&format!("{}{vote} {tributary}", row.level)), &one.text())
        .makes("new", &one.new)
}

/// A tributary of a line, and the line with new digits in it.
struct Swapped {
    row: &'static Row,
    tributary: usize,
    frames: usize,
    line: Vec<u8>,
    notes: Vec<u8>,
    digits: Vec<u8>,
    new: Vec<u8>,
    taken: usize,
}

impl Swapped {
    fn new(row: &Row, tributary: usize, frames: usize, [old, new]: [u8; 2]) -> Swapped {
        let row = level(row.level);
        let own = 1_u8 << (tributary - 1);
        let mixed = |rest: u8, one: u8| rest & !own | one & own;
        let (sent, swapped) = (notes(row, frames, 500), Random::new(501).bytes(frames));
        let merged: Vec<u8> = sent.iter().zip(&swapped).map(|(&a, &b)| mixed(a, b)).collect();
        let before = mixed(old, new);
        let mut buffer = tributaries_after(row, old, &sent, 502);
        let line = worked::send_after(row, old, &sent, &buffer).line;
        let quarter = room(row, frames);
        let place = (tributary - 1) * quarter..tributary * quarter;
        let digits = tributaries_after(row, before, &merged, 503)[place.clone()].to_vec();
        buffer[place].copy_from_slice(&digits);
        let acts = |action| worked::frames(row, before, &merged, action)[tributary - 1];
        let usual = frames * row.tributary_digits;
        let taken = usual + acts(Action::Negative) - acts(Action::Stuffed);
        let new = worked::send_after(row, before, &merged, &buffer).line;
        Swapped { row, tributary, frames, line, notes: swapped, digits, new, taken }
    }

    fn name(&self, what: &str, vote: &str) -> String {
        let (tributary, frames) = (self.tributary, self.frames);
        let vote = vote.replace(':', "-after-");
        format!("{what}-{}{vote}-{tributary}-of-{frames}", self.row.level)
    }

    fn text(&self) -> String {
        let (level, frames, taken) = (self.row.level, self.frames, self.taken);
        let text = format!("Level {level}: {frames} frames, {taken} digits put into tributary");
        format!("{text} {}.\n{}", self.tributary, written(&OUTPUT))
    }
}

/// The new line must not take the old one's name.
fn over_its_own_line() -> Case {
    given("swap-2-over-its-own-line", &[0; 212], &[0; 2], &[0xFF; 52]).fails(
        words("swap -l 2 --tributary 2 line notes digits line"),
        &written_over("NEW", "line", "LINE"),
    )
}

fn given(name: &str, line: &[u8], notes: &[u8], digits: &[u8]) -> Case {
    Case::new(name).file("line", line).file("notes", notes).file("digits", digits)
}

/// By the level, with the vote, and the tributary, as `12:5 1`.
fn command(level_and_tributary: &str) -> Vec<String> {
    let (level, tributary) = level_and_tributary.split_once(' ').expect("two words");
    words(&format!("swap {} --tributary {tributary} line notes digits new", at(level)))
}

/// Two frames of level 2, which want 52 bytes of digits, and what is wrong beside them.
fn refused() -> Vec<Case> {
    let row = level(2);
    let two = |name: &str| given(name, &[0; 212], &[0; 2], &[0; 52]);
    let mut cases = Vec::new();
    for word in ["0", "5", "02", "x"] {
        let line = format!("refused 12: no tributary {word}; TRIBUTARY is 1, 2, 3 or 4.");
        let name = format!("swap-2-no-tributary-{word}");
        cases.push(two(&name).fails(command(&format!("2 {word}")), &line));
    }
    // 1 before 12, and 12 before all that is wrong with the files.
    cases.push(two("swap-no-level").fails(command("5 5"), &no_level("5")));
    let line = "refused 12: no tributary 5; TRIBUTARY is 1, 2, 3 or 4.";
    cases.push(Case::new("swap-2-no-tributary-no-files").fails(command("2 5"), line));
    let short = given("swap-2-half-a-frame", &[0; 159], &[0; 3], &[]);
    cases.push(short.fails(command("2 1"), &no_whole_frames(row, "line", 159)));
    let notes = given("swap-2-a-note-too-many", &[0; 212], &[0; 3], &[]);
    cases.push(notes.fails(command("2 1"), &no_note_each("notes", 3, "line", 2)));
    let line = "refused 4: digits has 51 bytes, and a tributary of 2 frames of level 2 wants 52 bytes or more.";
    let digits = given("swap-2-digits-too-few", &[0; 212], &[0xFF; 2], &[0; 51]);
    cases.push(digits.fails(command("2 1"), line));
    cases.push(two("swap-12-no-vote").fails(command("12:16 1"), &no_vote("16")));
    cases
}

/// Files that are missing or cannot be read, each after the ones before it, and an output that
/// cannot be written.
fn wrong_files() -> Vec<Case> {
    let fails = |case: Case, path, be| case.fails(command("2 1"), &cannot(path, be));
    let none = |name: &str| Case::new(name);
    let line = |name: &str| Case::new(name).file("line", &[0; 106]);
    let noted = |name: &str| line(name).file("notes", &[0]);
    let all = |name: &str| given(name, &[0; 106], &[0], &[0; 26]);
    let nowhere = words("swap -l 2 --tributary 1 line notes digits none/new");
    [
        fails(none("swap-no-line"), "line", "opened").twice(&OUTPUT),
        fails(none("swap-line-is-a-folder").folder("line"), "line", "read").twice(&OUTPUT),
        fails(line("swap-no-notes"), "notes", "opened").twice(&OUTPUT),
        fails(line("swap-notes-are-a-folder").folder("notes"), "notes", "read").twice(&OUTPUT),
        fails(noted("swap-no-digits"), "digits", "opened").twice(&OUTPUT),
        fails(noted("swap-digits-are-a-folder").folder("digits"), "digits", "read").twice(&OUTPUT),
        vec![
            all("swap-in-no-folder").fails(nowhere, &cannot("none/new", "written")),
            fails(all("swap-in-a-folder").folder("new"), "new", "written"),
        ],
    ]
    .concat()
}

/// The same of a capture: its level and its label stay.
fn captures() -> Vec<Case> {
    let mut cases = Vec::new();
    for (k, row) in levels().into_iter().enumerate() {
        for (frames, label) in [(0, Some(&b""[..])), (3, Some(b"hop A")), (64, None)] {
            cases.push(of_capture(row, 1 + (k + frames) % 4, frames, label, "", [0, 0]));
        }
    }
    let most = Some(&b"A label of 32 bytes, no more ..."[..]);
    cases.push(of_capture(level(12), 2, 64, most, ":F", [0x5, 0xF]));
    cases.push(of_capture(level(14), 3, 7, None, ":0a", [0x5, 0xA]));
    cases.push(of_capture(level(3), 4, 2, None, ":ff", [0, 0]));
    let own = Swapped::new(level(4), 1, 5, [0, 0]);
    for (path, input) in [("capture", "LINE"), ("notes", "NOTES"), ("./digits", "DIGITS")] {
        let name = own.name(&format!("swap-capture-over-{input}"), "");
        cases.push(given_capture(&name, &own, None).fails(
            words(&format!("swap --tributary 1 capture notes digits {path}")),
            &written_over("NEW", path, input),
        ));
    }
    cases
}

fn of_capture(
    row: &Row,
    tributary: usize,
    frames: usize,
    label: Option<&[u8]>,
    vote: &str,
    votes: [u8; 2],
) -> Case {
    let one = Swapped::new(row, tributary, frames, votes);
    given_capture(&one.name("swap-capture", vote), &one, label)
        .had("new", OLD)
        .accepted(
            words(&format!("swap {} --tributary {tributary} capture notes digits new", at(vote))),
            &one.text(),
        )
        .makes("new", &capture(row, &one.new, label))
}

fn given_capture(name: &str, one: &Swapped, label: Option<&[u8]>) -> Case {
    Case::new(name)
        .file("capture", &capture(one.row, &one.line, label))
        .file("notes", &one.notes)
        .file("digits", &one.digits)
}

/// Refused as by the reader with 9 or 1, then with 12, then with 2; a vote over F after these;
/// then what is wrong with the other files.
fn refused_captures() -> Vec<Case> {
    let good = |number: u64| capture(level(number), &frames(level(number), 2), Some(b"hop A"));
    let case = |name: &str, file: &[u8]| {
        let case = Case::new(&format!("swap-capture-{name}")).file("capture", file);
        case.file("notes", &[0; 2]).file("digits", &[0; 68])
    };
    let command = |first: &str| {
        let (vote, tributary) = first.split_once(' ').unwrap_or(("", first));
        words(&format!("swap {} --tributary {tributary} capture notes digits new", at(vote)))
    };
    let (cut, other) = (&good(2)[..100], [&[1, 0, 1, 9][..], &good(2)[4..]].concat());
    let short = [1, 0, 1, 12, 2, 0, 1, 0];
    let no_tributary = "refused 12: no tributary 5; TRIBUTARY is 1, 2, 3 or 4.";
    let mut cases = Vec::new();
    for (name, file) in [("cut", cut), ("level-9", &other)] {
        for first in ["1", "5", ":10 1"] {
            let name = format!("{name}-{}", first.replace(':', "after-").replace(' ', "-"));
            cases.push(case(&name, file).fails(command(first), &no_capture("capture", file)));
        }
    }
    cases.push(case("line-of-1", &short).fails(command("1"), &no_capture("capture", &short)));
    let voted = case("line-of-1-no-vote", &short);
    cases.push(voted.fails(command(":16 1"), &no_capture("capture", &short)));
    cases.push(case("line-of-1-no-tributary", &short).fails(command("5"), no_tributary));
    cases.push(case("no-tributary", &good(2)).fails(command("5"), no_tributary));
    cases.push(case("no-tributary-no-vote", &good(12)).fails(command(":16 5"), no_tributary));
    cases.push(case("no-vote", &good(12)).fails(command(":16 1"), &no_vote("16")));
    cases.push(case("no-vote-of-14", &good(14)).fails(command(":ff 1"), &no_vote("ff")));
    cases.push(case("vote-x", &good(12)).fails(command(":x 1"), &no_vote("x")));
    let notes = case("notes-too-few", &good(2)).file("notes", &[0]);
    cases.push(notes.fails(command("1"), &no_note_each("notes", 1, "capture", 2)));
    let digits = case("digits-too-few", &good(12)).file("digits", &[0; 64]);
    let line = "refused 4: digits has 64 bytes, and a tributary of 2 frames of level 12 wants 65 bytes or more.";
    cases.push(digits.fails(command("1"), line));
    let none = Case::new("swap-no-capture").file("notes", &[0; 2]).file("digits", &[0; 68]);
    cases.push(none.fails(command("1"), &cannot("capture", "opened")));
    let folder = Case::new("swap-capture-is-a-folder").folder("capture");
    cases.push(folder.fails(command("1"), &cannot("capture", "read")));
    cases
}

//! Cases of frame: the text picture of each level, without a note and with one, and the
//! picture in a file. The text is made of the list of all places of a frame, and of the
//! digits that a frame of that note has.

use crate::case::{at, words, Case, OLD};
use crate::inputs::{level, levels};
use crate::texts;
use crate::worked::NONE_BEFORE;
use reference::frame::{fill, layout, Place, Waiting};
use reference::level::Row;

const NOTED: [(u64, &str); 8] =
    [(2, "20"), (2, "3F"), (2, "35"), (3, "21"), (3, "2a"), (4, "E0"), (4, "FF"), (4, "e6")];

/// The level, the vote before the frame, and its note.
const VOTED: [(u64, &str, &str); 6] = [
    (12, "0", "00"),
    (12, "F", "0F"),
    (12, "3", "05"),
    (14, "03", "05"),
    (14, "0", "0c"),
    (14, "a", "00"),
];

const DRAWN: [&str; 8] = ["2", "2 2A", "3 35", "4 e3", "12", "14", "12:3 05", "14:5 0A"];

pub fn cases() -> Vec<Case> {
    let mut cases = Vec::new();
    for row in levels() {
        let command = words(&format!("frame -l {}", row.level));
        let text = picture(row, NONE_BEFORE, None);
        cases.push(Case::new(&format!("frame-{}", row.level)).accepted(command, &text));
    }
    for (number, note) in NOTED {
        let command = words(&format!("frame -l {number} --note {note}"));
        let value = u8::from_str_radix(note, 16).expect("two hexadecimal digits");
        let text = picture(level(number), NONE_BEFORE, Some(value));
        cases.push(Case::new(&format!("frame-{number}-{note}")).accepted(command, &text));
    }
    for (number, vote, note) in VOTED {
        let command = words(&format!("frame -l {number} --earlier {vote} --note {note}"));
        let value = |word| u8::from_str_radix(word, 16).expect("hexadecimal digits");
        let text = picture(level(number), value(vote), Some(value(note)));
        let name = format!("frame-{number}-after-{vote}-{note}");
        cases.push(Case::new(&name).accepted(command, &text));
    }
    for drawn in DRAWN {
        cases.push(draws(&format!("frame-{}-svg", drawn.replace([' ', ':'], "-")), drawn));
    }
    cases.push(draws("frame-4-svg-over-an-older-file", "4").had("picture.svg", OLD));
    cases.extend(failing());
    cases
}

fn draws(name: &str, drawn: &str) -> Case {
    let (of, note) = drawn.split_once(' ').unwrap_or((drawn, ""));
    let note = if note.is_empty() { String::new() } else { format!("--note {note}") };
    let command = words(&format!("frame {} {note} --svg picture.svg", at(of)));
    Case::new(name).like(command, 0, &[], r"^written: picture\.svg$").draws("picture.svg")
}

fn failing() -> Vec<Case> {
    let mut cases = vec![
        Case::new("frame-no-level").fails(words("frame -l 5"), &texts::no_level("5")),
        Case::new("frame-no-level-with-a-note")
            .fails(words("frame -l 1 --note 3F"), &texts::no_level("1")),
        // The words of this refusal are left to the program: no file is named here.
        Case::new("frame-2-no-such-digit").like(
            words("frame -l 2 --note 40"),
            1,
            &[],
            "^refused 5: ",
        ),
        Case::new("frame-3-no-such-digit").like(
            words("frame -l 3 --note 80"),
            1,
            &[],
            "^refused 5: ",
        ),
        Case::new("frame-2-national").like(words("frame -l 2 --note 1F"), 1, &[], "^refused 10: "),
        Case::new("frame-3-national").like(words("frame -l 3 --note 00"), 1, &[], "^refused 10: "),
        Case::new("frame-4-national").like(words("frame -l 4 --note BF"), 1, &[], "^refused 10: "),
        Case::new("frame-12-no-such-bit").like(
            words("frame -l 12 --note 10"),
            1,
            &[],
            "^refused 5: ",
        ),
        Case::new("frame-14-no-such-bit").like(
            words("frame -l 14 --note 80"),
            1,
            &[],
            "^refused 5: ",
        ),
        Case::new("frame-14-no-such-vote")
            .fails(words("frame -l 14 --earlier 16 --note 00"), &texts::no_vote("16")),
        Case::new("frame-svg-in-no-folder").fails(
            words("frame -l 2 --svg none/picture.svg"),
            &texts::cannot("none/picture.svg", "written"),
        ),
        Case::new("frame-svg-is-a-folder")
            .folder("picture.svg")
            .fails(words("frame -l 3 --svg picture.svg"), &texts::cannot("picture.svg", "written")),
    ];
    let svg = ["picture.svg"];
    let no_level = Case::new("frame-svg-no-level");
    cases.extend(
        no_level.fails(words("frame -l 6 --svg picture.svg"), &texts::no_level("6")).twice(&svg),
    );
    let no_digit = Case::new("frame-svg-no-such-digit");
    cases.extend(
        no_digit
            .like(words("frame -l 3 --note C1 --svg picture.svg"), 1, &[], "^refused 5: ")
            .twice(&svg),
    );
    cases
}

/// The text picture of a frame: a line for each set, and in it the runs of places of one
/// kind. With a note it also says what stands there.
fn picture(row: &Row, before: u8, note: Option<u8>) -> String {
    let places = layout(row);
    let zeros = Waiting::from(vec![0; row.tributary_digits]);
    let digits = note.map(|note| fill(row, before, note, &mut vec![zeros; 4]));
    let more = match row.negative_places {
        true => ", one more where its negative place carries one",
        false => "",
    };
    let mut text = format!(
        "Level {}: a frame of {} digits, places 0 on, in {} sets; each tributary has {} \
         digits, one fewer where stuffed{more}.",
        row.level, row.frame_digits, row.sets, row.tributary_digits
    );
    let mut first = 0;
    while first < places.len() {
        let end = run_end(&places, first);
        if first % row.set_digits == 0 {
            text += &format!("\n  set {}: ", first / row.set_digits + 1);
        } else {
            text += ", ";
        }
        text += &run(row, &places[first..end], first);
        if let Some(digits) = &digits {
            text += &values(places[first], &digits[first..end]);
        }
        first = end;
    }
    text + "\n"
}

/// Where the run of places of one kind ends; a national digit stands alone.
fn run_end(places: &[Place], first: usize) -> usize {
    let kind = |place: Place| match place {
        Place::National(k) => (name(place), k),
        _ => (name(place), 0),
    };
    let same = |place: &&Place| kind(**place) == kind(places[first]);
    first + places[first..].iter().take_while(same).count()
}

fn name(place: Place) -> &'static str {
    match place {
        Place::Word(_) => "alignment word",
        Place::RemoteAlarm => "remote alarm",
        Place::National(_) => "national",
        Place::Service => "service",
        Place::Control(_) => "control",
        Place::Negative(_) => "negative justification",
        Place::Justification(_) => "justification",
        Place::Tributary(_) => "tributary digits in turn",
    }
}

/// The numbers of a run's places, its name, and the tributaries that it has in turn.
fn run(row: &Row, places: &[Place], first: usize) -> String {
    let mut text = first.to_string();
    if places.len() > 1 {
        text += &format!("-{}", first + places.len() - 1);
    }
    let sign = match places[0] {
        Place::Justification(_) if row.negative_places => "positive ",
        _ => "",
    };
    text += &format!(" {sign}{}", name(places[0]));
    let owner = |place: &Place| match *place {
        Place::Control(j) | Place::Negative(j) => Some(j),
        Place::Justification(j) | Place::Tributary(j) => Some(j),
        _ => None,
    };
    for j in places.iter().filter_map(owner).take(4) {
        text += &format!(" {}", j + 1);
    }
    text
}

/// What stands in a run, of tributary digits nothing. The tributaries are zero here, so a
/// justification digit that is 1 is stuffing.
fn values(kind: Place, digits: &[u8]) -> String {
    let list: String = match kind {
        Place::Tributary(_) => return String::new(),
        Place::Negative(_) | Place::Justification(_) => {
            digits.iter().map(|&digit| if digit == 1 { " stuffing" } else { " digit" }).collect()
        }
        _ => " ".chars().chain(digits.iter().map(|&digit| char::from(b'0' + digit))).collect(),
    };
    format!(" ={list}")
}

//! Cases of the plain engine and of both: plain-send, plain-take and agree. What is sent and
//! taken is what send and take must make; in agree there is nothing to be found but how much
//! was compared.

use crate::case::{words, Case};
use crate::inputs::{damaged, level, levels, line, notes, room, tributaries};
use crate::texts::{self, cannot, no_level, no_national, no_room, no_such_digits};
use crate::texts::{no_whole_frames, written};
use crate::worked;
use reference::level::{Row, MOST_FRAMES};
use reference::random::Random;

pub fn cases() -> Vec<Case> {
    let mut cases = Vec::new();
    for row in levels() {
        // At level 4 both files are longer than 65,536 bytes.
        let many = if row.level == 4 { 190 } else { 150 };
        let sent = line(row, &notes(row, many, 3), 4);
        cases.push(sends_and_takes(row, many));
        cases.push(sends_and_takes(row, 0));
        cases.push(takes("damaged", row, &damaged(row, &sent, 5)));
        cases.push(agree("many-frames", row, &sent));
        cases.push(agree("damaged", row, &damaged(row, &sent, 5)));
        cases.push(agree("random", row, &Random::new(6).bytes(65 * row.frame_bytes())));
        cases.push(agree("64-ones", row, &vec![0xFF; 64 * row.frame_bytes()]));
        cases.push(agree("no-frames", row, &[]));
    }
    cases.extend(wrong_sending());
    cases.extend(wrong_lines());
    cases
}

fn sends_and_takes(row: &Row, frames: usize) -> Case {
    let list = notes(row, frames, 1);
    let buffer = tributaries(row, &list, 2);
    let sent = worked::send(row, &list, &buffer);
    let taken = worked::take(row, &sent.line);
    let outputs = ["notes.back", "tributaries.back"];
    let send = texts::sent(row, frames, &sent.counts) + &written(&["line"]);
    let take = texts::taken(row, &taken) + &written(&outputs);
    Case::new(&format!("plain-send-take-{}-{frames}-frames", row.level))
        .file("notes", &list)
        .file("tributaries", &buffer)
        .accepted(
            words(&format!("send --engine plain -l {} notes tributaries line", row.level)),
            &send,
        )
        .accepted(
            words(&format!("take --engine plain -l {} line {}", row.level, outputs.join(" "))),
            &take,
        )
        .makes("line", &sent.line)
        .makes(outputs[0], &list)
        .makes(outputs[1], &buffer)
}

fn takes(name: &str, row: &Row, line: &[u8]) -> Case {
    let taken = worked::take(row, line);
    let quarters = worked::quarters(&taken.tributaries, room(row, taken.notes.len()));
    let text = texts::taken(row, &taken) + &written(&["notes", "tributaries"]);
    Case::new(&format!("plain-take-{}-{name}", row.level))
        .file("line", line)
        .accepted(
            words(&format!("take --engine plain -l {} line notes tributaries", row.level)),
            &text,
        )
        .makes("notes", &taken.notes)
        .makes("tributaries", &quarters)
}

/// The calls are made on up to 64 frames: so many bytes have their four quarters.
pub fn compared(row: &Row, line: &[u8]) -> [usize; 3] {
    let runs = line.chunks(MOST_FRAMES as usize * row.frame_bytes());
    let quarters = runs.map(|run| 4 * room(row, run.len() / row.frame_bytes()));
    [line.len() / row.frame_bytes(), quarters.sum(), line.len()]
}

fn agree(name: &str, row: &Row, line: &[u8]) -> Case {
    let compared = compared(row, line);
    Case::new(&format!("agree-{}-{name}", row.level))
        .file("line", line)
        .accepted(words(&format!("agree -l {} line", row.level)), &texts::agree(row, compared))
}

fn wrong_sending() -> Vec<Case> {
    let row = level(2);
    let fails = |name: &str, notes: &[u8], bytes: usize, line: &str| {
        Case::new(name)
            .file("notes", notes)
            .file("tributaries", &vec![0; bytes])
            .fails(words("send --engine plain -l 2 notes tributaries line"), line)
    };
    vec![
        fails("plain-send-short", &[0], 100, &no_room(row, "tributaries", 100, 1)),
        fails("plain-send-wrong-note", &[0, 0x40], 208, &no_such_digits("notes", 1)),
        fails("plain-send-national", &[0x20, 0x1F], 208, &no_national("notes", row, 1)),
    ]
}

fn wrong_lines() -> Vec<Case> {
    let mut cases = Vec::new();
    for (command, rest) in [("take --engine plain", " notes tributaries"), ("agree", "")] {
        let given = |name: &str| Case::new(&format!("{}-{name}", command.replace(' ', "-")));
        let call = |level: u64| words(&format!("{command} -l {level} line{rest}"));
        let short = no_whole_frames(level(2), "line", 105);
        cases.push(given("short").file("line", &[0; 105]).fails(call(2), &short));
        cases.push(given("no-level").file("line", &[0; 106]).fails(call(5), &no_level("5")));
        cases.push(given("no-line").fails(call(2), &cannot("line", "opened")));
        cases.push(given("folder").folder("line").fails(call(2), &cannot("line", "read")));
    }
    cases
}

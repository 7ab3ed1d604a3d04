//! Round trips: take makes of a line what send made it of, and send makes of the files of
//! find the frames that were handed over.

use crate::case::{words, Case};
use crate::finding::Finding;
use crate::inputs::{level, levels, notes, room, tributaries};
use crate::stream::Stream;
use crate::texts::{self, written};
use crate::worked;
use reference::level::Row;

pub fn cases() -> Vec<Case> {
    let mut cases: Vec<Case> = levels().into_iter().map(|row| send_take(row, 130)).collect();
    cases.push(send_take(level(2), 64));
    cases.push(send_take(level(2), 65));
    cases.extend(levels().into_iter().map(find_send));
    cases
}

fn send_take(row: &Row, frames: usize) -> Case {
    let list = notes(row, frames, 90 + row.level);
    let buffer = tributaries(row, &list, 100 + row.level);
    let sent = worked::send(row, &list, &buffer);
    let taken = worked::take(row, &sent.line);
    assert_eq!(taken.notes, list);
    assert_eq!(worked::quarters(&taken.tributaries, room(row, frames)), buffer);
    let outputs = ["notes.back", "tributaries.back"];
    let send = texts::sent(row, frames, &sent.counts) + &written(&["line"]);
    let take = texts::taken(row, &taken) + &written(&outputs);
    Case::new(&format!("send-take-{}-{frames}-frames", row.level))
        .file("notes", &list)
        .file("tributaries", &buffer)
        .accepted(words(&format!("send -l {} notes tributaries line", row.level)), &send)
        .accepted(words(&format!("take -l {} line {}", row.level, outputs.join(" "))), &take)
        .makes("line", &sent.line)
        .makes(outputs[0], &list)
        .makes(outputs[1], &buffer)
}

/// Without wrong digits, so that send gives the very frames; and with a long prefix.
fn find_send(row: &'static Row) -> Case {
    let stream = Stream::new(row, 110).junk(333).good(70).ones_after_word().good(1).bytes();
    let done = Finding::of(row, stream.clone());
    let sent = worked::send(row, &done.notes, &done.tributaries);
    assert!(done.notes.len() > 64 && sent.line == done.found.line(row));
    let prefix = format!("deep/{}", "a-long-name-".repeat(12));
    let [as_it_came, notes, tributaries] =
        ["line", "notes", "tributaries"].map(|ending| format!("{prefix}.{ending}"));
    let find = done.text_and_stretches() + &written(&[&as_it_came, &notes, &tributaries]);
    let send = texts::sent(row, done.notes.len(), &sent.counts) + &written(&["line"]);
    let again = format!("send -l {} {notes} {tributaries} line", row.level);
    Case::new(&format!("find-send-{}", row.level))
        .folder("deep")
        .file("stream", &stream)
        .accepted(words(&format!("find -l {} stream --out {prefix}", row.level)), &find)
        .accepted(words(&again), &send)
        .makes(&as_it_came, &sent.line)
        .makes(&notes, &done.notes)
        .makes(&tributaries, &done.tributaries)
        .makes("line", &sent.line)
}

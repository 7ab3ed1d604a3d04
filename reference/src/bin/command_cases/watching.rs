//! Cases of watch.

use crate::case::{words, Case};
use crate::inputs::{level, levels};
use crate::stream::Stream;
use crate::texts::{cannot, no_level};
use crate::worked::{self, Event};
use reference::level::Row;

const HEADING: &str =
    "line  level  aligned  alarm      frames     dissent    words tested  recording\n";

pub fn cases() -> Vec<Case> {
    let mut cases = vec![every_level(), sixty_four(), empty(), long()];
    cases.extend(wrong());
    cases
}

/// A row of the table, worked out by the separate program; and whether the line is aligned.
fn row_of(line: usize, row: &Row, stream: &[u8], name: &str) -> (String, bool) {
    let found = worked::find(row, stream);
    let taken = worked::take(row, &found.line(row));
    let alarm = found.events.iter().rev().find_map(|event| match event {
        Event::AlarmBegins(_) => Some(true),
        Event::AlarmEnds(_) => Some(false),
        _ => None,
    });
    let yes = |is: bool| if is { "yes" } else { "no" };
    let aligned = found.mode >= 3;
    let (frames, dissent): (usize, u64) = (found.frames.len(), taken.dissent.iter().sum());
    let (level, words) = (row.level, found.words);
    let (aligned_word, alarm) = (yes(aligned), yes(alarm == Some(true)));
    let text = format!(
        "{line:>4}{level:>7}{aligned_word:>9}{alarm:>7}{frames:>12}{dissent:>12}{words:>16}  {name}\n"
    );
    (text, aligned)
}

/// The case of these recordings.
fn watched(name: &str, recordings: &[(&'static Row, Vec<u8>)]) -> Case {
    let mut case = Case::new(&format!("watch-{name}"));
    let (mut command, mut text, mut aligned) = (String::from("watch"), HEADING.to_string(), 0);
    for (line, (row, stream)) in recordings.iter().enumerate() {
        let file = format!("r{line}");
        command += &format!(" {}={file}", row.level);
        let (one, is_aligned) = row_of(line, row, stream, &file);
        text += &one;
        aligned += usize::from(is_aligned);
        case = case.file(&file, stream);
    }
    text += &format!("aligned lines: {aligned}\n");
    case.accepted(words(&command), &text)
}

/// Aligned, lost, an alarm and worn control digits, at every level.
fn every_level() -> Case {
    let mut recordings = Vec::new();
    for row in levels() {
        let n = row.frame_digits;
        recordings.push((row, Stream::new(row, row.level).junk(237).good(9).bytes()));
        recordings.push((row, Stream::new(row, row.level + 4).good(6).wrong(4).good(1).bytes()));
        recordings.push((row, Stream::new(row, row.level + 8).good(5).ones(3 * n).bytes()));
        recordings.push((row, worn(row)));
    }
    watched("every-level", &recordings)
}

/// Six frames; in the fifth the first two control digits of the second set, of tributaries 1 and 2,
/// are not as they were sent.
fn worn(row: &'static Row) -> Vec<u8> {
    let mut stream = Stream::new(row, row.level + 12).good(6).bytes();
    let sets = if row.level == 4 { 6 } else { 4 };
    let place = 4 * row.frame_digits + row.frame_digits / sets;
    stream[place / 8] ^= 0xC0 >> (place % 8);
    let taken = worked::take(row, &worked::find(row, &stream).line(row));
    assert_eq!(taken.dissent, [1, 1, 0, 0], "other digits dissent");
    stream
}

/// As many lines as a rack has; one more is a wrong call (see the calls).
fn sixty_four() -> Case {
    let line = |k: usize| {
        let row = level(2 + k as u64 % 3);
        (row, Stream::new(row, 30 + k as u64).junk(11 * k).good(1 + k % 5).bytes())
    };
    watched("sixty-four", &(0..64).map(line).collect::<Vec<_>>())
}

fn empty() -> Case {
    watched("empty", &[(level(3), vec![])])
}

/// More than a chunk of 65,536 bytes.
fn long() -> Case {
    let row = level(4);
    watched("long", &[(row, Stream::new(row, 17).junk(77).good(400).bytes())])
}

fn wrong() -> Vec<Case> {
    let given = |name: &str| Case::new(name).file("stream", &[0xF4; 200]);
    vec![
        given("watch-no-level").fails(words("watch 2=stream 5=stream"), &no_level("5")),
        given("watch-sixty-five").fails(
            words(&format!("watch{}", " 2=stream".repeat(65))),
            "wrong call: 65 recordings are too many: watch takes up to 64.",
        ),
        given("watch-no-sign").fails(
            words("watch 2=stream stream"),
            "wrong call: stream is no LEVEL=RECORDING, as 2=north.",
        ),
        given("watch-no-file").fails(words("watch 2=stream 3=none"), &cannot("none", "opened")),
    ]
}

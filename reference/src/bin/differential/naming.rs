//! What a place is: every place of a frame at every level and of a multiframe, those behind the last, and
//! numbers that a cut to fewer bits would make small. And the version.

use crate::face::{numbers, spritbobbin_multiframe_place, spritbobbin_place, spritbobbin_version};
use crate::face::{Lent, UNWRITTEN};
use crate::Run;
use reference::frame::place_numbers;
use reference::level::{row, LEVELS};
use reference::multiframe_place;
use reference::random::HOSTILE;

/// The calls' names.
const PLACE: &str = "place";
const MULTIFRAME_PLACE: &str = "multiframe_place";
const VERSION: &str = "version";

pub fn part(run: &mut Run) {
    for row in LEVELS.into_iter().filter_map(row) {
        for place in 0..row.frame_digits as u64 + 2 {
            one(run, row.level, place);
        }
    }
    for level in (0..20).chain(HOSTILE) {
        for place in HOSTILE {
            one(run, level, place);
        }
    }
    for place in (0..4098).chain(HOSTILE) {
        let mut answer = numbers("answer", &[UNWRITTEN; 2]);
        // Sound: an array of as many numbers as the face asks for.
        let returned = unsafe { spritbobbin_multiframe_place(place, answer.pointer()) };
        let found = found(returned, &answer);
        run.expect(MULTIFRAME_PLACE, &format!("place {place}"), &multiframe_place(place), &found);
    }
    // Sound: nothing is lent.
    let version = unsafe { spritbobbin_version() };
    run.expect(VERSION, "", &[version_written()], &[version]);
}

fn one(run: &mut Run, level: u64, place: u64) {
    let mut answer = numbers("answer", &[UNWRITTEN; 2]);
    // Sound as above.
    let returned = unsafe { spritbobbin_place(level, place, answer.pointer()) };
    let inputs = format!("level {level}, place {place}");
    run.expect(PLACE, &inputs, &place_numbers(level, place), &found(returned, &answer));
}

/// What came of a call, and one number more where it wrote beside its answer.
fn found(returned: u64, answer: &Lent<u64>) -> Vec<u64> {
    let beside = answer.broken().map(|_| UNWRITTEN);
    std::iter::once(returned).chain(answer.inner().iter().copied()).chain(beside).collect()
}

/// The number of the version that the file VERSION has.
fn version_written() -> u64 {
    let parts = include_str!("../../../../VERSION").trim().split('.');
    parts.fold(0, |sum, part| sum * 1_000 + part.parse::<u64>().unwrap_or(999))
}

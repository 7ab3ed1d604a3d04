//! Where two captures differ, two lines, or a stretch of them.

use crate::captures::{read_capture, Read};
use crate::digits::unpack;
use crate::frame::{layout, Place};
use crate::level::row;

/// How many differing digits are listed at most.
pub const MOST_LISTED: usize = 64;

#[derive(Clone, Debug, Default, PartialEq, Eq)]
pub struct Differences {
    pub refusal: u64,
    /// The file at fault, 1 or 2; 0 where none is, or where the two do not fit each other.
    pub file: u64,
    /// The byte that the reader names.
    pub byte: u64,
    /// Word, remote alarm, national; control, justification, ordinary of tributary 1, of 2, 3, 4.
    pub sums: [u64; 15],
    /// Frame and place of every differing digit, in order.
    pub places: Vec<(usize, usize)>,
}

/// Compares two captures.
pub fn compare(one: &[u8], other: &[u8]) -> Differences {
    let (first, second) = (read_capture(one), read_capture(other));
    let refused =
        |refusal, file, byte| Differences { refusal, file, byte, ..Differences::default() };
    match faults(&first, &second) {
        (0, ..) => count(first.level, &one[first.line], &other[second.line]),
        (refusal, file, byte) => refused(refusal, file, byte),
    }
}

/// Compares two lines of a level.
pub fn compare_lines(level: u64, one: &[u8], other: &[u8]) -> Differences {
    match lines_refusal(level, one.len(), other.len()) {
        0 => count(level, one, other),
        refusal => Differences { refusal, ..Differences::default() },
    }
}

/// What differs among `many` places from `first` on: as two lines, then 7.
pub fn compare_stretch(level: u64, one: &[u8], other: &[u8], first: u64, many: u64) -> Differences {
    let mut found = compare_lines(level, one, other);
    let end = u128::from(first) + u128::from(many);
    if found.refusal == 0 && end > 8 * one.len() as u128 {
        return Differences { refusal: 7, ..Differences::default() };
    }
    let Some(places) = row(level).map(layout).filter(|_| found.refusal == 0) else {
        return found;
    };
    found.sums = [0; 15];
    found.places.retain(|(frame, at)| {
        let place = (frame * places.len() + at) as u128;
        u128::from(first) <= place && place < end
    });
    for (_, at) in &found.places {
        found.sums[sum(places[*at])] += 1;
    }
    found
}

/// 1, 2 for the first line, 2 for the second.
pub fn lines_refusal(level: u64, one: usize, other: usize) -> u64 {
    match row(level) {
        None => 1,
        Some(row) if one % row.frame_bytes() != 0 || one / row.frame_bytes() > 64 => 2,
        Some(_) if one != other => 2,
        Some(_) => 0,
    }
}

fn faults(first: &Read, second: &Read) -> (u64, u64, u64) {
    for (file, read) in [(1, first), (2, second)] {
        if read.refusal != 0 {
            return (read.refusal, file, read.byte);
        }
    }
    if first.level != second.level {
        return (1, 0, 0);
    }
    if first.line.len() != second.line.len() {
        return (2, 0, 0);
    }
    (0, 0, 0)
}

fn count(level: u64, one: &[u8], other: &[u8]) -> Differences {
    let mut found = Differences::default();
    let places = row(level).map(layout).unwrap_or_default();
    let frames = |line: &[u8]| -> Vec<Vec<u8>> {
        unpack(line, 8 * line.len()).chunks(places.len()).map(<[u8]>::to_vec).collect()
    };
    for (frame, (ours, theirs)) in frames(one).iter().zip(&frames(other)).enumerate() {
        for (at, place) in places.iter().enumerate() {
            if ours[at] != theirs[at] {
                found.sums[sum(*place)] += 1;
                found.places.push((frame, at));
            }
        }
    }
    found
}

/// The number of the sum that a place counts in. Service digits without a bit in the note count as
/// national, negative places as justification.
pub fn sum(place: Place) -> usize {
    match place {
        Place::Word(_) => 0,
        Place::RemoteAlarm => 1,
        Place::National(_) | Place::Service => 2,
        Place::Control(j) => 3 + 3 * j,
        Place::Negative(j) | Place::Justification(j) => 4 + 3 * j,
        Place::Tributary(j) => 5 + 3 * j,
    }
}

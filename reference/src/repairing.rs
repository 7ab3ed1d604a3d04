//! A worn line repaired: request 13, with request 14's switch.

use crate::digits::{pack, unpack};
use crate::frame::{self, Place};
use crate::level::{row, Row, MOST_FRAMES};
use crate::multiplexing::wrong_earlier;

/// What repairing answers: the refusal, and the digits changed.
#[derive(Clone, Debug, Default, PartialEq, Eq)]
pub struct Repaired {
    pub refusal: u64,
    pub word: u64,
    /// Of each tributary.
    pub control: [u64; 4],
    /// Of each tributary; an unused negative place is a stuffing digit too.
    pub stuffing: [u64; 4],
    /// With the switch on only.
    pub national: u64,
}

/// The refusals of repairing, in their order. It takes the line's length only, so that it also
/// answers for lengths that no memory holds.
pub fn repair_refusal(level: u64, earlier: u64, line_bytes: u64) -> u64 {
    let row = match row(level) {
        Some(row) => row,
        None => return 1,
    };
    let frame_bytes = row.frame_bytes() as u64;
    if line_bytes % frame_bytes != 0 || line_bytes / frame_bytes > MOST_FRAMES {
        return 2;
    }
    if wrong_earlier(row, earlier) {
        return 5;
    }
    0
}

/// Sets alignment digits to the word, control groups to their majority and stuffing digits to 1, and
/// where `national` is not 0 national digits to 1. What is a stuffing digit is said by the majorities
/// of the line as it came.
pub fn repair(level: u64, earlier: u64, national: u64, line: &mut [u8]) -> Repaired {
    let refusal = repair_refusal(level, earlier, line.len() as u64);
    let mut answer = Repaired { refusal, ..Repaired::default() };
    let row = match row(level).filter(|_| refusal == 0) {
        Some(row) => row,
        None => return answer,
    };
    // An earlier vote that does not fit a byte is one that is not looked at.
    let mut before = earlier as u8;
    for bytes in line.chunks_mut(row.frame_bytes()) {
        let came = unpack(bytes, row.frame_digits);
        let note = frame::read(row, &came).note;
        let mut repaired = repaired(row, before, note, &came);
        if national != 0 {
            set_national(row, &mut repaired);
        }
        for (place, (old, new)) in frame::layout(row).into_iter().zip(came.iter().zip(&repaired)) {
            answer.count(place, u64::from(old != new));
        }
        bytes.copy_from_slice(&pack(&repaired));
        before = note;
    }
    answer
}

/// The digits of one frame as they should have come, where that can be said.
fn repaired(row: &Row, before: u8, note: u8, came: &[u8]) -> Vec<u8> {
    let word = row.word_digits();
    let should = |(place, &digit): (Place, &u8)| match place {
        Place::Word(k) => word[k],
        Place::Control(j) => note >> j & 1,
        Place::Negative(_) | Place::Justification(_) => {
            frame::carried(row, before, note, place).map_or(1, |_| digit)
        }
        Place::RemoteAlarm | Place::National(_) | Place::Service | Place::Tributary(_) => digit,
    };
    frame::layout(row).into_iter().zip(came).map(should).collect()
}

/// Sets the national digits to 1; levels 12 and 14 have none, only other service digits.
fn set_national(row: &Row, digits: &mut [u8]) {
    for (place, digit) in frame::layout(row).into_iter().zip(digits) {
        if matches!(place, Place::National(_)) {
            *digit = 1;
        }
    }
}

impl Repaired {
    fn count(&mut self, place: Place, changed: u64) {
        match place {
            Place::Word(_) => self.word += changed,
            Place::Control(j) => self.control[j] += changed,
            Place::Negative(j) | Place::Justification(j) => self.stuffing[j] += changed,
            Place::National(_) => self.national += changed,
            Place::RemoteAlarm | Place::Service | Place::Tributary(_) => {}
        }
    }
}

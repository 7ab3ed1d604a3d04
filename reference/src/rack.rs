//! A rack of lines: request 11, on a plain list of states.

use crate::receiver::{feed, fresh, Fed, State};

/// The most records of a rack.
pub const MOST_RECORDS: u64 = 64;

/// "A number beyond the list is refused with 8 first; a list of more than 64 with 2 next". It takes
/// the list's length only, so that it also answers for lengths that no memory holds.
pub fn rack_refusal(records: u64, line: u64) -> u64 {
    if line >= records {
        8
    } else if records > MOST_RECORDS {
        2
    } else {
        0
    }
}

/// Feeds a piece to line number `line`.
pub fn rack_feed(records: &mut [State], line: u64, piece: &[u8], first: u64, count: u64) -> Told {
    let refusal = rack_refusal(records.len() as u64, line);
    if refusal != 0 {
        return Told { refusal, answer: [0; 4] };
    }
    let record = &mut records[line as usize];
    let fed = feed(record, piece, first, count);
    let told = Told { refusal: fed.refusal, answer: answer(&fed) };
    *record = fed.state;
    told
}

/// Resets line number `line` to a level; under a refusal the record stays.
pub fn rack_reset(records: &mut [State], line: u64, level: u64) -> u64 {
    let refusal = rack_refusal(records.len() as u64, line);
    if refusal != 0 {
        return refusal;
    }
    let (refusal, state) = fresh(level);
    if refusal == 0 {
        records[line as usize] = state;
    }
    refusal
}

/// The refusal, and how many lines are in mode aligned, whatever else their records say.
pub fn rack_aligned(records: &[State]) -> (u64, u64) {
    if records.len() as u64 > MOST_RECORDS {
        return (2, 0);
    }
    (0, records.iter().filter(|record| record.mode >= 3).count() as u64)
}

/// What a feed tells: the refusal, and digits taken, whether a frame is ready, whether the alarm
/// stands at the end, and words tested.
#[derive(Clone, Debug, PartialEq, Eq)]
pub struct Told {
    pub refusal: u64,
    pub answer: [u64; 4],
}

fn answer(fed: &Fed) -> [u64; 4] {
    [fed.taken, u64::from(fed.ready), u64::from(fed.alarm), fed.words]
}

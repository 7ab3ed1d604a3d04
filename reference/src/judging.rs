//! The verdict: each tributary of a line read by the decision of its own frame, of the frame before
//! and of the frame after, and held beside what was sent.

use crate::digits::{pack, unpack};
use crate::frame::{self, Place, Waiting};
use crate::level::{row, Row, MOST_FRAMES};
use crate::multiplexing::wrong_earlier;

/// Whose decision acts in a frame.
#[derive(Clone, Copy, Debug, PartialEq, Eq)]
pub enum Reading {
    Own,
    /// The index is late.
    Before,
    /// The index is early.
    After,
}

/// The readings in the order of their bits among those that fit.
pub const READINGS: [Reading; 3] = [Reading::Own, Reading::Before, Reading::After];

/// What is said of one tributary.
#[derive(Clone, Debug, Default, PartialEq, Eq)]
pub struct Verdict {
    /// 1 its own frame, 2 the frame before, 4 the frame after, added up.
    pub fits: u64,
    /// The wrong digits of each reading, own, before and after.
    pub wrong: [u64; 3],
    /// In how many frames the decision differs from the frame before.
    pub changes: u64,
}

/// What judging answers.
#[derive(Clone, Debug, Default, PartialEq, Eq)]
pub struct Judged {
    pub refusal: u64,
    pub of: [Verdict; 4],
}

/// The refusals of judging, in their order. It takes lengths and not slices, so that it also answers
/// for lengths that no memory holds.
pub fn judge_refusal(
    level: u64,
    earlier: u64,
    pattern: u64,
    [line_bytes, buffer_bytes]: [u64; 2],
) -> u64 {
    let row = match row(level) {
        Some(row) => row,
        None => return 1,
    };
    if ![0, 15, 23].contains(&pattern) {
        return 13;
    }
    let frame_bytes = row.frame_bytes() as u64;
    let frames = line_bytes / frame_bytes;
    if line_bytes % frame_bytes != 0 || frames > MOST_FRAMES {
        return 2;
    }
    // Wider numbers: eight times a quarter need not fit in 64 bits.
    let room = u128::from(buffer_bytes / 4) * 8;
    let short = room < u128::from(frames) * row.most_digits() as u128;
    if pattern == 0 && (buffer_bytes % 4 != 0 || short) {
        return 4;
    }
    if wrong_earlier(row, earlier) {
        return 5;
    }
    0
}

/// Judges a line after this vote. What was sent are the digits of the buffer's quarters where the
/// pattern is 0, else any that meet the recurrence, and the buffer is not looked at.
pub fn judge(level: u64, earlier: u64, line: &[u8], pattern: u64, buffer: &[u8]) -> Judged {
    let refusal =
        judge_refusal(level, earlier, pattern, [line.len(), buffer.len()].map(|n| n as u64));
    let row = match row(level).filter(|_| refusal == 0) {
        Some(row) => row,
        None => return Judged { refusal, ..Judged::default() },
    };
    let quarter = buffer.len() / 4;
    let most = line.len() / row.frame_bytes() * row.most_digits();
    let sent = [0, 1, 2, 3].map(|j| match pattern {
        0 => Sent::Digits(unpack(&buffer[j * quarter..(j + 1) * quarter], most)),
        stages => Sent::Pattern(stages),
    });
    // An earlier vote that does not fit a byte is one that is not looked at.
    Judged { refusal: 0, of: verdicts(row, earlier as u8, line, &sent) }
}

/// What was sent into a tributary.
pub enum Sent {
    /// These digits, of which there are as many as any reading has.
    Digits(Vec<u8>),
    /// The pseudo-random pattern of so many stages, 15 or 23, inverted, from any phase.
    Pattern(u64),
}

impl Sent {
    /// How many digits of a reading are wrong: those that are not the digit sent at their number, or
    /// with a pattern, those after the first 15 or 23 that are not what the recurrence makes of the
    /// digits read before them.
    pub fn wrong(&self, read: &[u8]) -> u64 {
        let wrong = |i: &usize| match self {
            Sent::Digits(sent) => read[*i] != sent[*i],
            Sent::Pattern(stages) => {
                let (tap, last) = stages_fed_back(*stages);
                *i >= last && read[*i] != 1 ^ read[*i - tap] ^ read[*i - last]
            }
        };
        (0..read.len()).filter(wrong).count() as u64
    }
}

/// The two stages that are fed back, of O.150's sequences of 2^15 - 1 and 2^23 - 1 digits.
pub(crate) fn stages_fed_back(stages: u64) -> (usize, usize) {
    match stages {
        15 => (14, 15),
        _ => (18, 23),
    }
}

/// Digits of the pattern, after these first 15 or 23, or more.
pub fn pattern_digits(stages: u64, first: &[u8], count: usize) -> Vec<u8> {
    let (tap, last) = stages_fed_back(stages);
    let mut digits = first[..last].to_vec();
    while digits.len() < count {
        let at = digits.len();
        digits.push(1 ^ digits[at - tap] ^ digits[at - last]);
    }
    digits.truncate(count);
    digits
}

/// The verdicts on a line of any number of frames, after these votes.
pub fn verdicts(row: &Row, earlier: u8, line: &[u8], sent: &[Sent; 4]) -> [Verdict; 4] {
    let votes = votes(row, line);
    let read = READINGS.map(|reading| {
        // The decision that the line does not hold, tried both ways.
        [0b0000, 0b1111].map(|unknown| {
            let acting = acting(row, earlier, &votes, reading, unknown);
            read_by(row, line, &acting)
        })
    });
    [0, 1, 2, 3].map(|j| {
        let wrong = [0, 1, 2].map(|reading| {
            let [zero, one] = [0, 1].map(|way| sent[j].wrong(&read[reading][way][j]));
            zero.min(one)
        });
        let fits = [0, 1, 2].map(|reading| u64::from(wrong[reading] == 0) << reading);
        let changes = votes.windows(2).filter(|two| (two[0] ^ two[1]) >> j & 1 == 1).count();
        Verdict { fits: fits.iter().sum(), wrong, changes: changes as u64 }
    })
}

/// The votes of a line's frames: the majorities.
pub fn votes(row: &Row, line: &[u8]) -> Vec<u8> {
    let frames = line.chunks(row.frame_bytes());
    frames.map(|bytes| frame::read(row, &unpack(bytes, row.frame_digits)).note & 0b1111).collect()
}

/// The votes by which each frame acts: the preceding and its own, or those of the frame before or
/// after. `unknown` stands for the votes that nobody said.
pub fn acting(
    row: &Row,
    earlier: u8,
    votes: &[u8],
    reading: Reading,
    unknown: u8,
) -> Vec<(u8, u8)> {
    // All votes from two frames before the first to the one after the last. The earlier vote is
    // given at levels 12 and 14 only.
    let given = if row.negative_places { earlier } else { unknown };
    let all = [&[unknown, given], votes, &[unknown]].concat();
    let first = match reading {
        Reading::Before => 0,
        Reading::Own => 1,
        Reading::After => 2,
    };
    (first..first + votes.len()).map(|k| (all[k], all[k + 1])).collect()
}

/// The tributaries' digits of a line, read by these votes, the preceding and the own of each frame.
pub fn read_by(row: &Row, line: &[u8], acting: &[(u8, u8)]) -> [Vec<u8>; 4] {
    let mut tributaries: [Vec<u8>; 4] = Default::default();
    for (&(before, own), bytes) in acting.iter().zip(line.chunks(row.frame_bytes())) {
        let taken = frame::take(row, before, own, &unpack(bytes, row.frame_digits));
        (0..4).for_each(|j| tributaries[j].extend(&taken[j]));
    }
    tributaries
}

/// The line of a multiplexer whose control and service digits say the notes, and which puts the
/// tributaries' digits by the votes of its own frame, of the frame before (it is late), or of the
/// frame after (it is early). `unknown` is what it acts on where nobody said a vote.
pub fn line_of(
    row: &Row,
    earlier: u8,
    notes: &[u8],
    sent: &[Vec<u8>; 4],
    reading: Reading,
    unknown: u8,
) -> Vec<u8> {
    let votes: Vec<u8> = notes.iter().map(|note| note & 0b1111).collect();
    let acting = acting(row, earlier, &votes, reading, unknown);
    let mut waiting = [0, 1, 2, 3].map(|j| Waiting::from(sent[j].clone()));
    let mut line = Vec::new();
    for (&(before, own), &note) in acting.iter().zip(notes) {
        let acts = frame::fill(row, before, own, &mut waiting);
        let says = frame::fill(row, 0, note, &mut [0, 1, 2, 3].map(|_| Waiting::new()));
        let digit = |(place, (acts, says))| match place {
            Place::Control(_) | Place::RemoteAlarm | Place::National(_) => says,
            _ => acts,
        };
        let places = frame::layout(row).into_iter();
        let digits: Vec<u8> = places.zip(acts.into_iter().zip(says)).map(digit).collect();
        line.extend(pack(&digits));
    }
    line
}

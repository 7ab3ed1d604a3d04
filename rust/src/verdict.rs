//! The verdict on a recording of any length: which reading explains it, and by how many wrong digits and
//! slips.

use core::fmt;

use crate::raw::{self, VERDICT_STATE};
use crate::{Level, Pattern, Reading, Refusal};

/// What one reading of a tributary takes to be what was sent: the cheapest explanation, where a slip
/// costs as much as 16 wrong digits.
#[derive(Clone, Copy, Debug, Default, PartialEq, Eq, Hash)]
pub struct Explanation {
    /// Digits read so far.
    pub digits: u64,
    /// Digits before the pattern was taken up, which are not judged: all of them until it is, and then
    /// every number after this one is 0. Where digits were sent, 0.
    pub unjudged: u64,
    /// Digits from the first judged one on that are right, each beside the digit sent of its own number,
    /// before the first that is not.
    pub right: u64,
    /// Wrong digits.
    pub wrong: u64,
    /// Slips: each a digit lost or doubled.
    pub slips: u64,
    /// By how many digits what was sent is ahead of the reading at its end: digit i is held against digit
    /// i + shift.
    pub shift: i64,
    /// The number of the digit at which this shift was last entered, or 0 if it never was.
    pub entered: u64,
}

impl Explanation {
    /// What one slip costs, in wrong digits.
    pub const SLIP: u64 = 16;

    /// What the explanation costs: its wrong digits, and 16 for each slip. Of all explanations of the
    /// reading none costs less.
    pub fn cost(&self) -> u64 {
        self.wrong.saturating_add(Explanation::SLIP.saturating_mul(self.slips))
    }
}

/// What is said of one tributary so far.
#[derive(Clone, Copy, Debug, Default, PartialEq, Eq, Hash)]
pub struct TributaryVerdict {
    /// In how many frames the decision differs from that of the frame before, the first frame not
    /// counted.
    pub changes: u64,
    /// Read by the decision of its own frame.
    pub own: Explanation,
    /// Read by the decision of the frame before: the frame index is late.
    pub before: Explanation,
    /// Read by the decision of the frame after: the frame index is early.
    pub after: Explanation,
}

impl TributaryVerdict {
    /// The numbers of a tributary in an answer, and those of one of its readings.
    const NUMBERS: usize = 22;
    const OF_READING: usize = 7;

    /// What one of its readings takes.
    pub fn by(&self, reading: Reading) -> &Explanation {
        match reading {
            Reading::Own => &self.own,
            Reading::Before => &self.before,
            Reading::After => &self.after,
        }
    }

    /// The numbers of one tributary.
    fn of(numbers: &[u64]) -> TributaryVerdict {
        let reading = |at: usize| {
            let from = 1 + TributaryVerdict::OF_READING * at;
            Explanation {
                digits: numbers[from],
                unjudged: numbers[from + 1],
                right: numbers[from + 2],
                wrong: numbers[from + 3],
                slips: numbers[from + 4],
                // Answered as a signed number, in two's complement.
                shift: numbers[from + 5] as i64,
                entered: numbers[from + 6],
            }
        };
        TributaryVerdict {
            changes: numbers[0],
            own: reading(0),
            before: reading(1),
            after: reading(2),
        }
    }
}

/// A verdict under way: did the clock move, or the frame index?
///
/// Each tributary is read by the decision of its own frame, of the frame before and of the frame after,
/// as by [`judge`](crate::judge); here a recording of any length is fed, at most 64 frames at a time, and
/// may be worn: each reading is explained as cheaply as possible by wrong digits and by slips, where a
/// digit was lost or doubled before the multiplexer. So a clock that moved is a slip that every reading
/// needs, and a frame index that moved is a reading that slips at every change of decision while another
/// does not.
///
/// A digit is held against the digit sent up to 8 places from the middle of its frame, which follows the
/// cheapest explanation from frame to frame. Feeds in turn are one feed of the whole recording. A copy
/// goes on from where it was made.
///
/// ```
/// use spritbobbin::{late_multiplex, Level, VerdictState};
///
/// # fn main() -> Result<(), spritbobbin::Refusal> {
/// // A multiplexer that acts a frame late. Tributary 1 is stuffed now and then, tributary 2 never.
/// let notes = [0x21, 0x20, 0x20, 0x21, 0x21, 0x20, 0x21, 0x20];
/// let level = Level::Two;
/// let digits: Vec<u8> = (0..level.buffer_bytes(8)).map(|at| (at * at / 7) as u8).collect();
/// let mut line = vec![0; 8 * level.frame_bytes()];
/// late_multiplex(level, 0, &mut line, &notes, &digits)?;
/// // On the way the first digit of tributary 1 was spoilt.
/// line[1] ^= 0x08;
///
/// let mut state = VerdictState::new(level, 0, None)?;
/// let (first, rest) = line.split_at(3 * level.frame_bytes());
/// state.feed(first, Some(0b0001), &digits, 0)?; // the fourth frame has decided to stuff tributary 1
/// let [one, two, ..] = state.feed(rest, None, &digits, 0)?;
/// assert_eq!((one.before.wrong, one.before.slips), (1, 0));
/// assert!(one.own.cost() > one.before.cost() && one.own.slips > 0);
/// assert_eq!(two.changes, 0); // and so its readings tell nothing
/// assert_eq!(two.own, two.before);
/// # Ok(())
/// # }
/// ```
#[derive(Clone, PartialEq, Eq)]
pub struct VerdictState {
    level: Level,
    numbers: [u64; VERDICT_STATE],
}

impl VerdictState {
    /// Before the first frame, which comes after the vote `earlier` (looked at at levels 12 and 14 alone).
    /// The recording is held against a test set's pattern, or where that is none against the digits that
    /// each [`feed`](Self::feed) is lent.
    ///
    /// # Errors
    ///
    /// [`Refusal::Earlier`].
    pub fn new(
        level: Level,
        earlier: u8,
        pattern: Option<Pattern>,
    ) -> Result<VerdictState, Refusal> {
        let mut numbers = [0; VERDICT_STATE];
        let pattern = pattern.map_or(0, Pattern::number);
        // Sound: the array has the length that the library writes.
        let number = unsafe {
            raw::spritbobbin_verdict_fresh(
                level.number(),
                u64::from(earlier),
                pattern,
                &mut numbers,
            )
        };
        match number {
            0 => Ok(VerdictState { level, numbers }),
            1 => Err(Refusal::Level { number: level.number() }),
            5 => Err(Refusal::Earlier { level, earlier }),
            _ => Err(Refusal::Unknown { number }),
        }
    }

    /// The level that it was made for.
    pub fn level(&self) -> Level {
        self.level
    }

    /// The next frames of the recording, whole, at most 64 of them; and what is then said of tributaries 1
    /// to 4 by all frames so far.
    ///
    /// `next` is the vote of the frame after them, or none where it is not known, as at the end of the
    /// recording: it is then tried both ways, and the better one is kept. `sent` is four equal quarters of
    /// any length, each beginning with digit number `first` of its tributary, counted from the recording's
    /// first; a digit sent that is not among them differs from every digit read. With a pattern it is not
    /// looked at.
    ///
    /// With a pattern a reading is judged from the digit on at which the pattern is taken up: the first
    /// from which on 15 (23) digits are followed by 64 that all meet the recurrence.
    ///
    /// # Errors
    ///
    /// In this order: [`Refusal::Line`], [`Refusal::Quarters`] (without a pattern), [`Refusal::Next`]. The
    /// state is then as it was.
    pub fn feed(
        &mut self,
        line: &[u8],
        next: Option<u8>,
        sent: &[u8],
        first: u64,
    ) -> Result<[TributaryVerdict; 4], Refusal> {
        let mut answer = [0; 4 * TributaryVerdict::NUMBERS];
        // Sound: each pointer comes with the length of its own slice, the arrays have the lengths that the
        // library reads and writes, and what may be written is borrowed exclusively.
        let number = unsafe {
            raw::spritbobbin_verdict_feed(
                &mut self.numbers,
                line.as_ptr(),
                line.len(),
                vote(next),
                sent.as_ptr(),
                sent.len(),
                first,
                &mut answer,
            )
        };
        let of = |j: usize| {
            let from = TributaryVerdict::NUMBERS * j;
            TributaryVerdict::of(&answer[from..from + TributaryVerdict::NUMBERS])
        };
        match number {
            0 => Ok([0, 1, 2, 3].map(of)),
            2 => Err(Refusal::Line { level: self.level, bytes: line.len() }),
            4 => Err(Refusal::Quarters { bytes: sent.len() }),
            5 => Err(Refusal::Next { next: next.unwrap_or_default() }),
            6 => Err(Refusal::State),
            _ => Err(Refusal::Unknown { number }),
        }
    }
}

/// The library's number for the vote of the next frame: 16 is one that is not known, so that a vote given
/// as 16 becomes another number that is refused.
fn vote(next: Option<u8>) -> u64 {
    match next {
        None => 16,
        Some(16) => 17,
        Some(vote) => u64::from(vote),
    }
}

impl fmt::Debug for VerdictState {
    /// The level alone: what the numbers of a state are is the library's own affair.
    fn fmt(&self, out: &mut fmt::Formatter<'_>) -> fmt::Result {
        out.debug_struct("VerdictState").field("level", &self.level).finish_non_exhaustive()
    }
}

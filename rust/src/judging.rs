//! Did the clock move, or the frame index?

use crate::raw::{self, count};
use crate::{Level, Refusal};

/// A pseudo-random pattern that test sets send (O.150), inverted.
#[derive(Clone, Copy, Debug, PartialEq, Eq, Hash)]
pub enum Pattern {
    /// 2^15 - 1 digits: stages 14 and 15 are fed back.
    Fifteen,
    /// 2^23 - 1 digits: stages 18 and 23 are fed back.
    TwentyThree,
}

impl Pattern {
    pub(crate) fn number(self) -> u64 {
        match self {
            Pattern::Fifteen => 15,
            Pattern::TwentyThree => 23,
        }
    }
}

/// What was sent into the tributaries of a line.
#[derive(Clone, Copy, Debug, PartialEq, Eq, Hash)]
pub enum SentInto<'a> {
    /// These digits: four equal quarters, as [`multiplex`](crate::multiplex) takes them, beginning with
    /// the line's first frame.
    Digits(&'a [u8]),
    /// A test set's pattern, from any phase.
    Pattern(Pattern),
}

/// By whose decision a tributary is read.
#[derive(Clone, Copy, Debug, PartialEq, Eq, Hash)]
pub enum Reading {
    /// That of its own frame.
    Own,
    /// That of the frame before: the frame index is late.
    Before,
    /// That of the frame after: the frame index is early.
    After,
}

/// What is said of one tributary.
#[derive(Clone, Copy, Debug, PartialEq, Eq, Hash)]
pub struct Verdict {
    /// Wrong digits, read by the decision of its own frame.
    pub own: usize,
    /// Wrong digits, read by the decision of the frame before.
    pub before: usize,
    /// Wrong digits, read by the decision of the frame after.
    pub after: usize,
    /// In how many frames the decision differs from that of the frame before, the first frame not
    /// counted. Where it never does, nor the first one from the earlier vote at levels 12 and 14,
    /// what fits by its own frame fits by the other two as well.
    pub changes: usize,
    fits: u64,
}

impl Verdict {
    /// Whether what is read in this way is what was sent: no digit is wrong.
    pub fn fits(&self, reading: Reading) -> bool {
        let bit = match reading {
            Reading::Own => 1,
            Reading::Before => 2,
            Reading::After => 4,
        };
        self.fits & bit != 0
    }
}

/// Judges a line by what was sent into its tributaries, and gives a verdict on each, 1 to 4.
///
/// Each tributary is read by the decision of its own frame, of the frame before and of the frame after;
/// the decisions are the majorities of the line, at levels 12 and 14 after the `earlier` vote. A decision
/// that the line does not hold, before its first frame or after its last, is tried both ways, and the
/// fewer wrong digits count.
///
/// A wrong digit is one that is not the digit sent at its number; with a pattern, one after the first 15
/// or 23 that is not what the recurrence makes of the digits read before it.
///
/// A line that [`multiplex`](crate::multiplex) made of these digits fits by its own frame, with any
/// damage to alignment, service and stuffing digits and to fewer than half of each control group. So
/// where only [`Reading::Before`] fits, no right multiplexer made the line out of these digits. Where a
/// decision alternates from frame to frame all the time, the frames before and after decide alike, and
/// late cannot be told from early.
///
/// # Errors
///
/// In this order: [`Refusal::Line`], [`Refusal::Buffer`] (for digits only), [`Refusal::Earlier`].
///
/// # Examples
///
/// A multiplexer that acts a frame late: its control digits say `said`, and its justification digits
/// follow the decisions of the frame before.
///
/// ```
/// use spritbobbin::{judge, multiplex, Level, Reading, SentInto};
///
/// # fn main() -> Result<(), spritbobbin::Refusal> {
/// let (level, said, acted) = (Level::Three, [0x21, 0x20, 0x21, 0x20], [0x20, 0x21, 0x20, 0x21]);
/// let digits: Vec<u8> = (0..level.buffer_bytes(4)).map(|at| (at * at / 7) as u8).collect();
/// let (mut line, mut right) = ([0; 4 * 192], [0; 4 * 192]);
/// multiplex(level, 0, &mut right, &said, &digits)?;
/// multiplex(level, 0, &mut line, &acted, &digits)?;
/// // Control digits stand at the head of each set of 48 bytes but the first.
/// for head in (0..line.len()).step_by(48).filter(|at| at % 192 != 0) {
///     line[head] = right[head] & 0xF0 | line[head] & 0x0F;
/// }
///
/// let [first, second, ..] = judge(level, 0, &line, SentInto::Digits(&digits))?;
/// assert!(first.fits(Reading::Before) && !first.fits(Reading::Own));
/// assert_eq!((first.before, first.changes), (0, 3));
/// // Tributary 2 is never stuffed and tells nothing.
/// assert!(second.fits(Reading::Own) && second.fits(Reading::Before) && second.changes == 0);
///
/// let [first, ..] = judge(level, 0, &right, SentInto::Digits(&digits))?;
/// assert!(first.fits(Reading::Own));
/// # Ok(())
/// # }
/// ```
pub fn judge(
    level: Level,
    earlier: u8,
    line: &[u8],
    sent: SentInto<'_>,
) -> Result<[Verdict; 4], Refusal> {
    let (pattern, buffer) = match sent {
        SentInto::Digits(buffer) => (0, buffer),
        SentInto::Pattern(pattern) => (pattern.number(), &[][..]),
    };
    let mut answer = [0; 20];
    // Sound: each pointer comes with the length of its own slice, and nothing but the answer is written.
    let number = unsafe {
        raw::spritbobbin_judge(
            level.number(),
            u64::from(earlier),
            line.as_ptr(),
            line.len(),
            pattern,
            buffer.as_ptr(),
            buffer.len(),
            &mut answer,
        )
    };
    let frames = line.len() / level.frame_bytes();
    match number {
        0 => Ok([0, 1, 2, 3].map(|j| verdict(&answer[5 * j..5 * j + 5]))),
        1 => Err(Refusal::Level { number: level.number() }),
        2 => Err(Refusal::Line { level, bytes: line.len() }),
        4 => Err(Refusal::Buffer { level, bytes: buffer.len(), frames }),
        5 => Err(Refusal::Earlier { level, earlier }),
        _ => Err(Refusal::Unknown { number }),
    }
}

/// The five numbers of one tributary.
fn verdict(five: &[u64]) -> Verdict {
    Verdict {
        fits: five[0],
        own: count(five[1]),
        before: count(five[2]),
        after: count(five[3]),
        changes: count(five[4]),
    }
}

//! The library's pair of calls: the only place where a recording is held against what was sent.

use spritbobbin::{Explanation, Level, Pattern, TributaryVerdict, VerdictState};

use super::{Read, Tributary};
use crate::failure::Failure;

/// The verdict on a stretch of frames so far.
#[derive(Clone)]
pub struct Pair {
    state: VerdictState,
}

impl Pair {
    /// Before the first frame, after this vote; against a pattern of so many stages, or where they are 0
    /// against digits.
    pub fn new(level: Level, earlier: u8, stages: u64) -> Result<Pair, Failure> {
        let pattern = match stages {
            15 => Some(Pattern::Fifteen),
            23 => Some(Pattern::TwentyThree),
            _ => None,
        };
        Ok(Pair { state: VerdictState::new(level, earlier, pattern)? })
    }

    /// Whole frames, at most 64, before a frame of this vote; the digits sent begin with this number.
    pub fn feed(
        &mut self,
        line: &[u8],
        next: Option<u8>,
        sent: &[u8],
        first: u64,
    ) -> Result<[Tributary; 4], Failure> {
        Ok(self.state.feed(line, next, sent, first)?.map(tributary))
    }
}

/// What the package says of one tributary.
fn tributary(of: TributaryVerdict) -> Tributary {
    let read = |of: Explanation| Read {
        digits: of.digits,
        unjudged: of.unjudged,
        right: of.right,
        wrong: of.wrong,
        slips: of.slips,
        shift: of.shift,
        entered: of.entered,
    };
    Tributary { changes: of.changes, readings: [of.own, of.before, of.after].map(read) }
}

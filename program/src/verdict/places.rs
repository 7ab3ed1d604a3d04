//! Where in a tributary's digits of a frame its justification places stand, as the library says what
//! each place of a frame is.

use spritbobbin::{place, Kind, Level};

use crate::failure::Failure;

/// How far before and after a justification place a slip that it made may be told: the cheapest way
/// slips as late as it can, and digits that are alike, or wrong, put it off.
const BEFORE: u64 = 8;
const AFTER: u64 = 40;

/// For each tributary the numbers that its justification digits have among its digits of a frame.
pub struct Places {
    at: [Vec<u64>; 4],
}

impl Places {
    pub fn of(level: Level) -> Result<Places, Failure> {
        let mut at: [Vec<u64>; 4] = Default::default();
        let mut digits = [0_u64; 4];
        for number in 0..level.frame_digits() {
            let place = place(level, number)?;
            let j = place.tributary.unwrap_or(0).wrapping_sub(1);
            if let (Some(at), Some(digits)) = (at.get_mut(j), digits.get_mut(j)) {
                match place.kind {
                    Kind::Justification | Kind::Negative => at.push(*digits),
                    Kind::Ordinary => *digits += 1,
                    _ => {}
                }
            }
        }
        Ok(Places { at })
    }

    /// How many digits of each tributary stand before its first justification place.
    pub fn firsts(&self) -> [u64; 4] {
        let [a, b, c, d] = &self.at;
        [a, b, c, d].map(|at| at.first().copied().unwrap_or(0))
    }

    /// Whether the digit of this number in a frame is at a justification place of tributary j (from 0).
    pub fn is_justification(&self, j: usize, digit: u64) -> bool {
        let near =
            |at: &u64| digit.saturating_add(BEFORE) >= *at && digit <= at.saturating_add(AFTER);
        self.at.get(j).map_or(false, |at| at.iter().any(near))
    }
}

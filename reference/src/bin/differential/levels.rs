//! Levels to call with: those that there are, their neighbours, and any number.

use reference::level::{row, Row, LEVELS};
use reference::random::Random;

/// The row of one of the levels.
pub fn any_row(random: &mut Random) -> &'static Row {
    row(random.pick(&LEVELS)).expect("a level")
}

/// A level, one off it, or a number that a cut to fewer bits would make one.
pub fn any_level(random: &mut Random) -> u64 {
    let level = random.pick(&LEVELS);
    random.near(level)
}

/// The note as it can be sent: of its bits those for which the level has a digit, and 1 for every
/// national digit.
pub fn sendable(row: &Row, note: u8) -> u8 {
    (u32::from(note) & ((1 << row.note_bits()) - 1)) as u8 | row.national_bits()
}

//! A note's bits by their names.

use crate::Level;

/// The note of a frame, one byte: what was decided for each tributary, and the service digits.
///
/// ```
/// use spritbobbin::{Level, Note};
///
/// let note = Note(0b0011_0101);
/// assert_eq!([1, 2, 3, 4].map(|tributary| note.decision(tributary)), [true, false, true, false]);
/// assert!(note.service(Level::Two).eq([true, true]));
/// assert_eq!(note.service(Level::Twelve).count(), 0);
/// assert_eq!(Note(0b0000_0001).with_national(Level::Two), Note(0b0010_0001));
/// ```
#[derive(Clone, Copy, Debug, Default, PartialEq, Eq, Hash)]
pub struct Note(pub u8);

impl Note {
    /// Whether tributary 1, 2, 3 or 4 is stuffed; at levels 12 and 14, whether its vote is 1.
    pub fn decision(self, tributary: usize) -> bool {
        (1..=4).contains(&tributary) && self.has(tributary - 1)
    }

    /// The service digits that a note of this level has: the remote alarm digit, then the national digits.
    pub fn service(self, level: Level) -> impl Iterator<Item = bool> {
        let has = move |bit: &usize| Note(level.note_bits()).has(*bit);
        (4..8).filter(has).map(move |bit| self.has(bit))
    }

    /// The same note with the national digits of this level all 1, as notes that are sent must have them.
    pub fn with_national(self, level: Level) -> Note {
        Note(self.0 | level.national_bits())
    }

    fn has(self, bit: usize) -> bool {
        self.0 >> bit & 1 == 1
    }
}

//! What a frame does for each tributary, asked of the library.

use spritbobbin::{extract, vote_after, Level};

/// What a frame does for a tributary.
#[derive(Clone, Copy, Debug, PartialEq, Eq)]
pub enum Act {
    /// Its positive place is stuffed.
    Stuffed,
    /// Its positive place carries a digit, and no negative place does.
    Neither,
    /// Its negative place carries a digit too.
    Negative,
}

/// The answers so far, by the vote before a frame and its note.
#[derive(Debug)]
pub struct Acts {
    level: Level,
    known: Vec<Option<[Act; 4]>>,
}

impl Acts {
    pub fn of_level(level: Level) -> Acts {
        Acts { level, known: vec![None; 16 * 256] }
    }

    /// What a frame of this note does after this vote: by how many digits the library takes out of such a frame.
    pub fn act(&mut self, earlier: u8, note: u8) -> [Act; 4] {
        let place = usize::from(earlier).saturating_mul(256).saturating_add(usize::from(note));
        if let Some(Some(known)) = self.known.get(place) {
            return *known;
        }
        let frame = vec![0; self.level.frame_bytes()];
        let mut room = vec![0; self.level.buffer_bytes(1)];
        let ordinary = self.level.tributary_digits();
        let asked = extract(self.level, earlier, &frame, &[note], &mut room);
        let digits = asked.map_or([ordinary; 4], |taken| taken.digits);
        let acts = digits.map(|digits| match digits.cmp(&ordinary) {
            std::cmp::Ordering::Less => Act::Stuffed,
            std::cmp::Ordering::Equal => Act::Neither,
            std::cmp::Ordering::Greater => Act::Negative,
        });
        if let Some(known) = self.known.get_mut(place) {
            *known = Some(acts);
        }
        acts
    }

    /// In how many of these frames each tributary is stuffed, and in how many its negative place carries a digit.
    pub fn count(&mut self, earlier: u8, notes: &[u8]) -> ([u64; 4], [u64; 4]) {
        let (mut stuffed, mut negative) = ([0_u64; 4], [0_u64; 4]);
        let mut before = earlier;
        for note in notes {
            let acts = self.act(before, *note);
            for ((act, stuffed), negative) in acts.iter().zip(&mut stuffed).zip(&mut negative) {
                *stuffed = stuffed.saturating_add(u64::from(*act == Act::Stuffed));
                *negative = negative.saturating_add(u64::from(*act == Act::Negative));
            }
            before = vote_after(before, &[*note]);
        }
        (stuffed, negative)
    }
}

//! What the verdict is made of: what the library's pair of calls answers of each tributary and
//! reading, summed up over the stretches of a recording, and what it says of the multiplexer.
//!
//! Nothing here looks at a digit: every number comes from the pair.

pub mod clock;
pub mod engine;
pub mod finding;
pub mod numbers;
pub mod pair;
pub mod places;
pub mod sent;
pub mod slips;
pub mod timeline;
pub mod words;

use serde::Serialize;

/// The readings in the order in which the pair answers them.
pub const READINGS: [Reading; 3] = [Reading::Own, Reading::Before, Reading::After];

/// What one slip costs, in wrong digits.
pub const STEP: u64 = 16;

/// By whose decision a tributary is read.
#[derive(Clone, Copy, Debug, PartialEq, Eq)]
pub enum Reading {
    /// That of its own frame.
    Own,
    /// That of the frame before: the index is late.
    Before,
    /// That of the frame after: the index is early.
    After,
}

impl Reading {
    /// Its number in the order of [`READINGS`].
    pub fn number(self) -> usize {
        match self {
            Reading::Own => 0,
            Reading::Before => 1,
            Reading::After => 2,
        }
    }

    /// Whose decision it goes by.
    pub fn whose(self) -> &'static str {
        match self {
            Reading::Own => "its own frame",
            Reading::Before => "the frame before",
            Reading::After => "the frame after",
        }
    }
}

/// What the pair answers of one reading.
#[derive(Clone, Copy, Debug, Default, PartialEq, Eq, Serialize)]
pub struct Read {
    /// Digits read.
    pub digits: u64,
    /// Digits before the pattern was taken up; with digits sent 0.
    pub unjudged: u64,
    /// Digits right from the first judged one on, before the first that differs.
    pub right: u64,
    /// Wrong digits.
    pub wrong: u64,
    /// Slips.
    pub slips: u64,
    /// The shift at the end.
    pub shift: i64,
    /// The number of the digit at which the shift was last entered.
    pub entered: u64,
}

impl Read {
    /// Digits that were held against what was sent.
    pub fn judged(&self) -> u64 {
        self.digits.saturating_sub(self.unjudged)
    }

    /// What it takes to explain the reading.
    pub fn cost(&self) -> u64 {
        self.wrong.saturating_add(STEP.saturating_mul(self.slips))
    }

    /// The reading of this stretch and of those before it.
    fn with(&self, more: &Read) -> Read {
        Read {
            digits: self.digits + more.digits,
            unjudged: self.unjudged + more.unjudged,
            right: if self.right == self.judged() { self.right + more.right } else { self.right },
            wrong: self.wrong + more.wrong,
            slips: self.slips + more.slips,
            shift: more.shift,
            entered: more.entered,
        }
    }
}

/// What the pair answers of one tributary.
#[derive(Clone, Copy, Debug, Default, PartialEq, Eq)]
pub struct Tributary {
    /// Frames whose decision differs from that of the frame before.
    pub changes: u64,
    /// The three readings, own, before and after.
    pub readings: [Read; 3],
}

impl Tributary {
    /// One of its readings.
    pub fn reading(&self, reading: Reading) -> &Read {
        let [own, before, after] = &self.readings;
        match reading {
            Reading::Own => own,
            Reading::Before => before,
            Reading::After => after,
        }
    }

    /// Of this stretch and of those before it.
    pub fn with(&self, more: &Tributary) -> Tributary {
        let [a, b, c] = &self.readings;
        let [d, e, f] = &more.readings;
        Tributary {
            changes: self.changes + more.changes,
            readings: [a.with(d), b.with(e), c.with(f)],
        }
    }

    /// What a reading costs beside the others: digits that another reading judged and this one did
    /// not, before its pattern was taken up, count as wrong.
    fn costs(&self) -> [u64; 3] {
        let least = self.readings.iter().map(|read| read.unjudged).min().unwrap_or(0);
        self.readings.map(|read| read.cost().saturating_add(read.unjudged - least))
    }

    /// What its readings say of the multiplexer.
    pub fn finding(&self, absence: Absence) -> Finding {
        let [own, before, after] = self.costs();
        let least = own.min(before).min(after);
        let judged = self.readings.iter().map(Read::judged).max().unwrap_or(0);
        if self.readings.iter().all(|read| read.digits == 0) {
            return Finding::Empty;
        }
        if judged == 0 {
            return Finding::NotThere(absence);
        }
        if absence == Absence::Ones {
            return Finding::Ones;
        }
        // Digits that have nothing to do with what was sent agree with it every second time, and
        // lanes and slips make that better, but never so good.
        if least > judged / 4 {
            return Finding::Unlike;
        }
        // Where the decision never changes, only the one at a border can make a difference, which is
        // tried both ways: no more than one slip.
        if self.changes == 0 && own - least <= STEP {
            return Finding::Still;
        }
        match (own == least, before == least, after == least) {
            (true, false, false) => Finding::Right,
            (false, true, false) => Finding::Late,
            (false, false, true) => Finding::Early,
            (false, true, true) => Finding::LateOrEarly,
            _ => Finding::Alike,
        }
    }

    /// The reading by which a finding goes: the cheapest.
    pub fn best(&self, finding: Finding) -> Reading {
        match finding {
            Finding::Late | Finding::LateOrEarly => Reading::Before,
            Finding::Early => Reading::After,
            // Of a decision that never changes one reading may do without a slip at a border, which is then
            // none of the clock's.
            Finding::Unlike | Finding::Still => {
                let costs = self.costs();
                let least = costs.iter().min();
                let best =
                    READINGS.into_iter().find(|reading| costs.get(reading.number()) == least);
                best.unwrap_or(Reading::Own)
            }
            _ => Reading::Own,
        }
    }

    /// How much cheaper the cheapest reading is than the next, where one is.
    pub fn margin(&self) -> u64 {
        let mut costs = self.costs();
        costs.sort_unstable();
        let [least, next, _] = costs;
        next - least
    }
}

/// Why a pattern was never taken up, as far as it can be told; of a tributary whose pattern was, that
/// it is all ones, which meet every pattern.
#[derive(Clone, Copy, Debug, Default, PartialEq, Eq, Hash)]
pub enum Absence {
    /// It cannot be told.
    #[default]
    Unknown,
    /// The pattern is there, but so would be the other: the tributary is all ones.
    Ones,
    /// The tributary is all zeros.
    Zeros,
    /// The other of the two patterns is there: so many stages.
    Other(u64),
}

/// What the readings of a tributary say.
#[derive(Clone, Copy, Debug, PartialEq, Eq)]
pub enum Finding {
    /// No digits.
    Empty,
    /// Its own frame costs least.
    Right,
    /// The frame before costs least.
    Late,
    /// The frame after costs least.
    Early,
    /// The frames before and after cost the same, and less than its own.
    LateOrEarly,
    /// Its decision never changes, so that its three readings are one but for a border.
    Still,
    /// Its own frame costs as little as another, although its decision changes.
    Alike,
    /// No reading is anything like what was sent.
    Unlike,
    /// The pattern was never taken up.
    NotThere(Absence),
    /// Ones alone, which meet every pattern.
    Ones,
}

impl Finding {
    /// One word for scripts.
    pub fn word(self) -> &'static str {
        match self {
            Finding::Empty => "empty",
            Finding::Right => "right",
            Finding::Late => "late",
            Finding::Early => "early",
            Finding::LateOrEarly => "late or early",
            Finding::Still => "still",
            Finding::Alike => "alike",
            Finding::Unlike => "unlike",
            Finding::NotThere(_) => "not there",
            Finding::Ones => "ones",
        }
    }

    /// Whether the multiplexer acts in a frame that is not its own.
    pub fn is_index(self) -> bool {
        matches!(self, Finding::Late | Finding::Early | Finding::LateOrEarly)
    }

    /// Whether it says nothing of the multiplexer.
    pub fn is_open(self) -> bool {
        matches!(self, Finding::Empty | Finding::Still | Finding::Alike | Finding::Ones)
    }

    /// Whether what was sent was not found.
    pub fn is_absent(self) -> bool {
        matches!(self, Finding::Unlike | Finding::NotThere(_))
    }
}

/// What the recording was held against.
#[derive(Clone, Debug, PartialEq, Eq)]
pub enum Against {
    /// The digits of a file, by its name.
    Digits(String),
    /// A test set's pattern of so many stages.
    Pattern(u64),
}

impl Against {
    /// The stages of a pattern, or 0.
    pub fn stages(&self) -> u64 {
        match self {
            Against::Digits(_) => 0,
            Against::Pattern(stages) => *stages,
        }
    }
}

#[cfg(test)]
mod tests {
    use super::*;

    fn read(wrong: u64, slips: u64) -> Read {
        Read { digits: 61_649, wrong, slips, ..Read::default() }
    }

    fn of(own: (u64, u64), before: (u64, u64), after: (u64, u64), changes: u64) -> Finding {
        let readings = [own, before, after].map(|(wrong, slips)| read(wrong, slips));
        Tributary { changes, readings }.finding(Absence::Unknown)
    }

    #[test]
    fn the_cheapest_reading_decides() {
        assert_eq!(of((0, 0), (17, 132), (17, 132), 131), Finding::Right);
        assert_eq!(of((85, 132), (66, 0), (87, 154), 131), Finding::Late);
        assert_eq!(of((85, 132), (87, 154), (66, 0), 131), Finding::Early);
        assert_eq!(of((85, 132), (0, 0), (0, 0), 299), Finding::LateOrEarly);
        assert_eq!(of((0, 1), (10, 151), (13, 151), 131), Finding::Right);
        assert_eq!(of((3, 0), (3, 0), (3, 0), 0), Finding::Still);
        assert_eq!(of((3, 1), (3, 0), (3, 1), 0), Finding::Still);
        assert_eq!(of((3, 0), (3, 0), (8, 0), 2), Finding::Alike);
        assert_eq!(of((28_000, 10), (28_100, 9), (27_000, 30), 131), Finding::Unlike);
    }

    #[test]
    fn a_reading_that_took_up_its_pattern_late_is_not_cheaper_for_it() {
        let late = Read { unjudged: 50_000, ..read(0, 0) };
        let tributary = Tributary { changes: 9, readings: [read(7, 0), late, late] };
        assert_eq!(tributary.finding(Absence::Unknown), Finding::Right);
    }

    #[test]
    fn a_slip_that_a_border_explains_is_none_of_the_clock() {
        let readings = [read(0, 1), read(0, 0), read(0, 1)];
        let still = Tributary { changes: 0, readings };
        assert_eq!(still.best(still.finding(Absence::Unknown)), Reading::Before);
        let same = Tributary { changes: 0, readings: [read(0, 1); 3] };
        assert_eq!(same.best(same.finding(Absence::Unknown)), Reading::Own);
    }

    #[test]
    fn stretches_add_up() {
        let one = Tributary { changes: 3, readings: [read(1, 2); 3] };
        let both = one.with(&one);
        assert_eq!((both.changes, both.readings[0].wrong, both.readings[1].slips), (6, 2, 4));
    }
}

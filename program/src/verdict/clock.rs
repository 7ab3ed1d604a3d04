//! The clock's half of the argument: how far each tributary's rate is off, from how many digits the
//! frames carried of it, taking the line at its nominal rate.

use super::numbers::{grouped, ppm, so_many, tenths};
use super::timeline::Timeline;
use spritbobbin::Level;

/// The fewest frames of a part, in which one digit is well below every tolerance.
const LEAST: u64 = 512;

/// The most parts.
const MOST: u64 = 64;

/// A tributary's rate in kbit/s.
pub fn kilobits(level: Level) -> u32 {
    match level.number() {
        2 | 12 => 2_048,
        3 => 8_448,
        _ => 34_368,
    }
}

/// Its tolerance in parts per million.
pub fn tolerance(level: Level) -> u64 {
    match level.number() {
        2 | 12 => 50,
        3 => 30,
        _ => 20,
    }
}

/// Some frames of a recording, and how far the rate is off in them, in tenths of a part per million.
#[derive(Clone, Copy, Debug, PartialEq, Eq)]
pub struct Part {
    pub first: u64,
    pub frames: u64,
    pub off: i64,
    /// Whether it left its tolerance: by more than one digit makes, since a count may miss the end of
    /// one.
    pub left: bool,
}

/// A tributary's clock over a recording.
#[derive(Clone, Debug, PartialEq, Eq)]
pub struct Clock {
    pub frames: u64,
    /// Its nominal rate in kbit/s, and its tolerance in parts per million.
    pub kilobits: u32,
    pub tolerance: u64,
    /// How far it is off in all, and what the digits are that may be missed, in tenths of a part per
    /// million: one to a stretch of frames.
    pub off: i64,
    pub one_digit: u64,
    /// From 512 frames on, the parts of the recording.
    pub parts: Vec<Part>,
}

/// Whether a clock is within its tolerance.
#[derive(Clone, Copy, Debug, PartialEq, Eq)]
pub enum Kept {
    Within,
    Outside,
    Open,
}

impl Kept {
    /// One word for scripts.
    pub fn word(self) -> &'static str {
        match self {
            Kept::Within => "within",
            Kept::Outside => "outside",
            Kept::Open => "open",
        }
    }
}

impl Clock {
    /// The clock of tributary j (from 0).
    pub fn of(level: Level, line: &Timeline, j: usize) -> Clock {
        let stretches = line.gaps.len() as u64 + 1;
        let digits = line.cells.last().and_then(|cell| cell.digits.get(j).copied()).unwrap_or(0);
        let mut clock = Clock {
            frames: line.frames(),
            kilobits: kilobits(level),
            tolerance: tolerance(level),
            off: off(level, digits, line.frames()),
            one_digit: one_digit(level, line.frames()).saturating_mul(stretches),
            parts: Vec::new(),
        };
        clock.parts = parts(level, line, j);
        clock
    }

    /// The parts in which it left its tolerance.
    pub fn left(&self) -> impl Iterator<Item = &Part> {
        self.parts.iter().filter(|part| part.left)
    }

    /// Whether it kept to its tolerance, as far as so many frames tell.
    pub fn kept(&self) -> Kept {
        let (off, tolerance) = (self.off.unsigned_abs(), 10 * self.tolerance);
        if self.frames == 0 {
            return Kept::Open;
        }
        if self.left().next().is_some() || off > tolerance.saturating_add(self.one_digit) {
            return Kept::Outside;
        }
        if self.parts.is_empty() && off.saturating_add(self.one_digit) > tolerance {
            return Kept::Open;
        }
        Kept::Within
    }

    /// In words.
    pub fn text(&self) -> String {
        if self.frames == 0 {
            return "cannot be told, because there are no frames.".into();
        }
        let mean = format!("{} from {} kbit/s", ppm(self.off), self.kilobits);
        let (first, last) = match (self.parts.first(), self.parts.last()) {
            (Some(first), Some(last)) => (first, last),
            _ => return format!("{mean}, {}", self.short()),
        };
        format!(
            "{mean}, {} in the first {}, {} in the last {}; {}",
            ppm(first.off),
            so_many(first.frames, "frame"),
            ppm(last.off),
            so_many(last.frames, "frame"),
            self.throughout()
        )
    }

    /// What fewer than 512 frames tell.
    fn short(&self) -> String {
        let kept = match self.kept() {
            Kept::Within => format!("within {} ppm", self.tolerance),
            Kept::Outside => format!("outside {} ppm", self.tolerance),
            Kept::Open => {
                format!("which does not tell whether it is within {} ppm", self.tolerance)
            }
        };
        let one = tenths(self.one_digit);
        format!("give or take {one} ppm, one digit in {}; {kept}.", so_many(self.frames, "frame"))
    }

    fn throughout(&self) -> String {
        let count = self.left().count() as u64;
        match self.left().next() {
            None => format!("within {} ppm throughout.", self.tolerance),
            Some(part) => format!(
                "outside {} ppm in {} of {} parts, first in frames {} to {}.",
                self.tolerance,
                grouped(count),
                self.parts.len(),
                grouped(part.first),
                grouped(part.first + part.frames.saturating_sub(1))
            ),
        }
    }
}

/// Whole parts of 512 frames, or of twice as many as often as keeps the parts few; what is left over
/// at the end belongs to the last.
fn parts(level: Level, line: &Timeline, j: usize) -> Vec<Part> {
    let frames = line.frames();
    let mut each = LEAST;
    while frames / each > MOST {
        each *= 2;
    }
    let count = frames / each;
    let digits_at = |frame: u64| {
        let cells = line.cells.iter().take_while(|cell| cell.end <= frame);
        cells.last().and_then(|cell| cell.digits.get(j).copied()).unwrap_or(0)
    };
    let part = |k: u64| {
        let first = k * each;
        let end = if k + 1 == count { frames } else { first + each };
        let off = off(level, digits_at(end).saturating_sub(digits_at(first)), end - first);
        let most = (10 * tolerance(level)).saturating_add(one_digit(level, end - first));
        Part { first, frames: end - first, off, left: off.unsigned_abs() > most }
    };
    (0..count).map(part).collect()
}

/// By how many tenths of a part per million so many digits in so many frames are off, cut.
fn off(level: Level, digits: u64, frames: u64) -> i64 {
    let line = i128::from(frames) * level.frame_digits() as i128;
    let came = i128::from(digits) * i128::from(level.kilobits());
    let due = line * i128::from(kilobits(level));
    match due {
        0 => 0,
        due => ((came - due) * 10_000_000 / due) as i64,
    }
}

/// What one digit makes in so many frames.
fn one_digit(level: Level, frames: u64) -> u64 {
    let line = u128::from(frames) * level.frame_digits() as u128;
    match line * u128::from(kilobits(level)) {
        0 => 0,
        due => (u128::from(level.kilobits()) * 10_000_000 / due) as u64,
    }
}

#[cfg(test)]
mod tests {
    use super::super::Tributary;
    use super::*;

    /// A recording in which every frame carries so many digits of each tributary.
    fn steady(level: Level, frames: u64, digits: impl Fn(u64) -> u64) -> Timeline {
        let mut line = Timeline::default();
        let mut all = 0;
        for frame in 0..frames {
            all += digits(frame);
            let mut four = [Tributary::default(); 4];
            four[0].readings[0].digits = all;
            line.add(frame + 1, &four);
        }
        let _ = level;
        line
    }

    #[test]
    fn a_nominal_clock_is_within_its_tolerance() {
        // 848 digits a frame at 8448 kbit/s are 205 and 19 of 33 digits at 2048 kbit/s.
        let line = steady(Level::Two, 3_300, |f| 205 + (f + 1) * 19 / 33 - f * 19 / 33);
        let clock = Clock::of(Level::Two, &line, 0);
        assert_eq!((clock.off, clock.kept(), clock.parts.len()), (0, Kept::Within, 6));
        assert!(clock.text().ends_with("within 50 ppm throughout."), "{}", clock.text());
    }

    #[test]
    fn a_fast_clock_is_told_from_few_frames_too() {
        let line = steady(Level::Two, 64, |_| 206);
        let clock = Clock::of(Level::Two, &line, 0);
        assert_eq!(clock.kept(), Kept::Outside);
        assert_eq!(
            clock.text(),
            "+2,063.6 ppm from 2048 kbit/s, give or take 76.0 ppm, one digit in 64 frames; outside \
             50 ppm."
        );
    }

    #[test]
    fn sixty_four_frames_of_a_good_clock_do_not_tell_its_tolerance() {
        let line = steady(Level::Two, 64, |f| 205 + (f + 1) * 19 / 33 - f * 19 / 33);
        assert_eq!(Clock::of(Level::Two, &line, 0).kept(), Kept::Open);
    }

    #[test]
    fn parts_are_few_and_whole() {
        let line = steady(Level::Two, 100_000, |_| 206);
        let clock = Clock::of(Level::Two, &line, 0);
        assert!(clock.parts.len() <= 64);
        assert_eq!(clock.parts.iter().map(|part| part.frames).sum::<u64>(), 100_000);
        assert!(clock.parts.iter().all(|part| part.off == clock.off));
    }
}

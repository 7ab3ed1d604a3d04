//! How alarm indication behaves at an error ratio of 1 in 1000: a simulation, level by level.
//!
//! ```text
//! cargo run --release --bin alarm_ratio -- [seed=N] [stretches=N] [onsets=N]
//! ```
//!
//! Every digit is wrong once in a thousand, whatever the others are. Three things are counted:
//!
//! - ones begin somewhere in ordinary frames (their digits are random but for the words): how
//!   many digits later the alarm begins, on the mean and at worst, and how often it has not
//!   begun after eight stretches;
//! - ones that go on: how often the alarm ends, and which part of the stretches has none;
//! - framed ones that go on: how often an alarm begins.

use reference::alarm::Stretches;
use reference::level::{row, Row, LEVELS};
use reference::random::Random;
use std::process::exit;

/// One digit in so many is wrong.
const RATIO: f64 = 1000.0;

/// Where the next wrong digit stands, from digit to digit of a signal.
struct Errors {
    random: Random,
    next: usize,
}

impl Errors {
    fn new(seed: u64) -> Errors {
        let mut errors = Errors { random: Random::new(seed), next: 0 };
        errors.next = errors.gap();
        errors
    }

    /// The good digits before the next wrong one: as if each were drawn by itself.
    fn gap(&mut self) -> usize {
        let part = (self.random.number() >> 11) as f64 / (1_u64 << 53) as f64;
        ((1.0 - part).ln() / (1.0 - 1.0 / RATIO).ln()) as usize
    }

    /// The wrong digits among the next `count`, by their place there.
    fn among(&mut self, count: usize) -> Vec<usize> {
        let mut places = Vec::new();
        while self.next < count {
            places.push(self.next);
            self.next += 1 + self.gap();
        }
        self.next -= count;
        places
    }
}

/// The zeros of a stretch of this signal, one digit to an element, with its errors.
fn zeros(signal: &[u8], errors: &mut Errors, without: usize) -> usize {
    let wrong = errors.among(signal.len());
    let turned = wrong.iter().filter(|&&at| signal[at] == 0).count();
    without - turned + (wrong.len() - turned)
}

/// Feeds a signal that repeats with every stretch, so often, and calls `after` each time.
fn go_on(row: &Row, signal: &[u8], times: u64, seed: u64, mut after: impl FnMut(bool, bool)) {
    let mut errors = Errors::new(seed);
    let mut state = Stretches::fresh();
    let without = signal.iter().filter(|&&digit| digit == 0).count();
    for _ in 0..times {
        let before = state.alarm;
        state.zeros = zeros(signal, &mut errors, without);
        state.judge(row);
        after(before, state.alarm);
    }
}

/// After how many digits of ones the alarm begins, which begin after `into` digits of a
/// stretch of ordinary frames; or none within eight stretches.
fn onset(row: &Row, into: usize, seed: u64) -> Option<usize> {
    let mut random = Random::new(seed);
    let mut errors = Errors::new(random.number());
    let mut state = Stretches::fresh();
    for _ in 0..into {
        state.digit(row, random.digit());
    }
    let first = row.frame_digits - into;
    let ones = vec![1; row.frame_digits];
    state.zeros += errors.among(first).len();
    state.judge(row);
    for whole in 0..8 {
        if state.alarm {
            return Some(first + whole * row.frame_digits);
        }
        state.zeros = zeros(&ones, &mut errors, 0);
        state.judge(row);
    }
    state.alarm.then_some(first + 8 * row.frame_digits)
}

fn level(row: &Row, run: &Run) {
    let (n, mut random) = (row.frame_digits, Random::new(run.seed + row.level));
    let seen: Vec<Option<usize>> =
        (0..run.onsets).map(|_| onset(row, random.index(n), random.number())).collect();
    let digits: Vec<usize> = seen.iter().flatten().copied().collect();
    let mean = digits.iter().sum::<usize>() as f64 / digits.len().max(1) as f64;
    let (mut ends, mut without) = (0_u64, 0_u64);
    go_on(row, &vec![1; n], run.stretches, random.number(), |before, after| {
        ends += u64::from(before && !after);
        without += u64::from(!after);
    });
    let framed = [row.word_digits(), vec![1; n - row.word_length()]].concat();
    let mut begins = 0_u64;
    go_on(row, &framed, run.stretches, random.number(), |before, after| {
        begins += u64::from(!before && after);
    });
    let million = |count: u64| count as f64 * 1e6 / run.stretches as f64;
    println!(
        "{:>5}{:>14.2}{:>14.2}{:>14}{:>14.1}{:>14.1}{:>16.2}",
        row.level,
        mean / n as f64,
        digits.iter().max().copied().unwrap_or(0) as f64 / n as f64,
        seen.len() - digits.len(),
        million(ends),
        million(without),
        million(begins),
    );
}

struct Run {
    seed: u64,
    stretches: u64,
    onsets: u64,
}

fn main() {
    let mut run = Run { seed: 1, stretches: 10_000_000, onsets: 100_000 };
    for argument in std::env::args().skip(1) {
        let number = |name| argument.strip_prefix(name).and_then(|text| text.parse().ok());
        if let Some(seed) = number("seed=") {
            run.seed = seed;
        } else if let Some(stretches) = number("stretches=") {
            run.stretches = stretches;
        } else if let Some(onsets) = number("onsets=") {
            run.onsets = onsets;
        } else {
            eprintln!("unknown: {argument}; known: seed=N stretches=N onsets=N");
            exit(2);
        }
    }
    println!("seed {} stretches {} onsets {}", run.seed, run.stretches, run.onsets);
    println!(
        "digits wrong: 1 in 1000; seen after, in stretches; ends, without and begins in a million"
    );
    println!(
        "{:>5}{:>14}{:>14}{:>14}{:>14}{:>14}{:>16}",
        "level", "seen: mean", "seen: worst", "missed in 8", "ends", "without", "framed: begins"
    );
    for number in LEVELS {
        row(number).into_iter().for_each(|row| level(row, &run));
    }
}

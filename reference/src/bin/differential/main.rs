//! Compares the product's C face with the reference, call by call.
//!
//! ```text
//! cargo run --release --features face --bin differential -- \
//!     [seed=N] [times=N] [tenth] [part=NAME] [lent-only] [trace]
//! ```
//!
//! `seed` chooses the run, `times` makes it so many times longer, `tenth` makes only a tenth of
//! the calls at random, and all of those at an edge: for an archive in an emulator. `part` makes one of its parts alone,
//! such as `multiplexing` or `judging`, and no lengths. `lent-only` leaves out the
//! last part, whose pointers are null or whose lengths no memory holds. `trace` names every
//! call before it is made, for a face that does not return. The first disagreement is
//! printed and ends the run with 1.

mod beginnings;
mod call;
mod captures;
mod comparisons;
mod copying;
mod face;
mod finder;
mod judging;
mod lengths;
mod levels;
mod multiframes;
mod multiplexing;
mod naming;
mod rack;
mod receiver;
mod repairing;
mod swapping;
mod verdict;
mod worked;
mod worked_streams;

use call::{Call, Outcome, NAMES};
use reference::random::Random;
use std::process::exit;

/// A run: its numbers, and how many calls of each kind it has made.
pub struct Run {
    seed: u64,
    times: u64,
    tenth: bool,
    part: Option<String>,
    lent_only: bool,
    trace: bool,
    random: Random,
    calls: [u64; NAMES.len()],
}

impl Run {
    /// How often a call at random is made, where a whole run makes it so often.
    pub fn often(&self, whole: usize) -> usize {
        if self.tenth {
            (whole + 9) / 10
        } else {
            whole
        }
    }

    /// Counts a call of this name.
    fn count(&mut self, call: &str) {
        let at = NAMES.iter().position(|name| *name == call).expect("a call's name");
        self.calls[at] += 1;
    }

    /// Makes the call both ways. What they agree on is given back; if they do not agree,
    /// the run ends here.
    pub fn compare(&mut self, call: &Call) -> Outcome {
        self.count(call.name());
        if self.trace {
            eprintln!("{}: {}", call.name(), call.short());
        }
        let (reference, face) = (call.by_reference(), face::by_face(call));
        if reference != face {
            self.report(call, &reference, &face);
        }
        reference
    }

    fn report(&self, call: &Call, reference: &Outcome, face: &Outcome) -> ! {
        println!("DISAGREEMENT in {}", call.name());
        println!("inputs: {}", call.short());
        println!("numbers: {}", call.legend());
        println!("reference: returned {} numbers {:?}", reference.returned, reference.numbers);
        println!("face:      returned {} numbers {:?}", face.returned, face.numbers);
        for ((name, ours), (_, theirs)) in reference.lent.iter().zip(&face.lent) {
            print_difference(name, ours, theirs);
        }
        for name in &face.outside {
            println!("face wrote beside the {name}");
        }
        self.end_with_disagreement()
    }

    pub fn end_with_disagreement(&self) -> ! {
        println!("{}", self.summary());
        println!("to see it again: seed={} times={}", self.seed, self.times);
        exit(1)
    }

    /// For the calls that are not made through `compare`.
    pub fn expect(&mut self, call: &str, inputs: &str, reference: &[u64], face: &[u64]) {
        self.count(call);
        if reference != face {
            println!("DISAGREEMENT in {call}");
            println!("inputs: {inputs}");
            println!("reference: {reference:?}");
            println!("face:      {face:?}");
            self.end_with_disagreement();
        }
    }

    fn summary(&self) -> String {
        let each: String =
            NAMES.iter().zip(self.calls).map(|(name, calls)| format!(" {name} {calls}")).collect();
        let all: u64 = self.calls.iter().sum();
        format!("seed {} times {} calls {all}:{each}", self.seed, self.times)
    }
}

fn print_difference(name: &str, ours: &[u8], theirs: &[u8]) {
    let differ = |at: &usize| ours[*at] != theirs[*at];
    if let Some(at) = (0..ours.len()).find(differ) {
        let count = (0..ours.len()).filter(differ).count();
        let (one, other) = (ours[at], theirs[at]);
        println!("{name}: {count} bytes differ; byte {at}: reference {one:02x}, face {other:02x}");
    }
}

fn arguments() -> Run {
    let (seed, calls) = (1, [0; NAMES.len()]);
    let random = Random::new(seed);
    let (times, part) = (1, None);
    let mut run =
        Run { seed, times, tenth: false, part, lent_only: false, trace: false, random, calls };
    for argument in std::env::args().skip(1) {
        let number = |name| argument.strip_prefix(name).and_then(|text| text.parse().ok());
        let part = argument.strip_prefix("part=");
        if let Some(seed) = number("seed=") {
            run.seed = seed;
            run.random = Random::new(seed);
        } else if let Some(times) = number("times=") {
            run.times = times;
        } else if let Some((part, _)) = PARTS.iter().find(|(name, _)| part == Some(*name)) {
            run.part = Some(part.to_string());
        } else if argument == "tenth" {
            run.tenth = true;
        } else if argument == "lent-only" {
            run.lent_only = true;
        } else if argument == "trace" {
            run.trace = true;
        } else {
            eprintln!("unknown: {argument}; known: seed=N times=N tenth part=NAME lent-only trace");
            let names: Vec<&str> = PARTS.iter().map(|(name, _)| *name).collect();
            eprintln!("parts: {}", names.join(" "));
            exit(2);
        }
    }
    run
}

/// A part of the comparison: its name, and what it calls.
type Part = (&'static str, fn(&mut Run));

/// The parts of a run by name, in their order.
const PARTS: [Part; 15] = [
    ("worked", worked::part),
    ("multiplexing", multiplexing::part),
    ("receiver", receiver::part),
    ("captures", captures::part),
    ("multiframes", multiframes::part),
    ("finder", finder::part),
    ("comparisons", comparisons::part),
    ("rack", rack::part),
    ("swapping", swapping::part),
    ("repairing", repairing::part),
    ("judging", judging::part),
    ("verdict", verdict::part),
    ("copying", copying::part),
    ("naming", naming::part),
    ("beginnings", beginnings::part),
];

fn main() {
    let mut run = arguments();
    println!("seed {} times {}", run.seed, run.times);
    for _ in 0..run.times {
        for (name, part) in PARTS {
            if run.part.as_deref().map_or(true, |one| one == name) {
                part(&mut run);
            }
        }
    }
    if run.part.is_none() {
        lengths::part(&mut run);
    }
    println!("{}; no disagreement", run.summary());
}

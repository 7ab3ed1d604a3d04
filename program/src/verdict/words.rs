//! The verdict in plain words: one sentence to a tributary, and one on all of them for people who
//! were not there.

use super::clock::{Clock, Kept};
use super::numbers::{grouped, listed, one_in, ratio, so_many};
use super::slips::{Located, Slip};
use super::{Absence, Finding, Read, Reading, Tributary, READINGS, STEP};
use crate::times::time;
use spritbobbin::Level;

/// A tributary with all that is known of it.
pub struct Known<'a> {
    pub level: Level,
    /// From 0.
    pub number: usize,
    pub of: Tributary,
    pub finding: Finding,
    /// The slips of the reading that the finding goes by.
    pub slips: &'a Located,
    /// The stages of a pattern, or 0.
    pub stages: u64,
}

impl Known<'_> {
    /// The reading that the finding goes by.
    pub fn best(&self) -> Reading {
        self.of.best(self.finding)
    }

    /// Slips that are no wrong votes: the tributary's clock. Nothing where no reading is what was
    /// sent.
    pub fn clock_slips(&self) -> u64 {
        match self.finding {
            Finding::Unlike | Finding::NotThere(_) | Finding::Empty | Finding::Ones => 0,
            _ => self.of.reading(self.best()).slips.saturating_sub(self.slips.votes()),
        }
    }

    /// The sentence's first words: the verdict itself.
    pub fn head(&self) -> String {
        let head = match self.finding {
            Finding::Right => "the multiplexer acts in its own frame",
            Finding::Late => "the frame index is late",
            Finding::Early => "the frame index is early",
            Finding::LateOrEarly => {
                "the frame index is late or early, which its decisions do not tell"
            }
            Finding::Still => "cannot be told, because its decision never changes",
            Finding::Alike => {
                "cannot be told from these digits, because more than one reading needs as little"
            }
            Finding::Empty => "cannot be told, because there are no frames",
            Finding::Unlike => "none of the three readings is what was sent",
            Finding::NotThere(_) => "the pattern is not there",
            Finding::Ones => "cannot be told, because the tributary is all ones",
        };
        match self.clock_slips() {
            0 => head.into(),
            _ => format!("{head}, and the clock slipped"),
        }
    }

    /// The rest of it: what the readings take.
    pub fn rest(&self) -> String {
        let best = self.best();
        let read = self.of.reading(best);
        let others = READINGS.into_iter().filter(|reading| *reading != best);
        match self.finding {
            Finding::Empty => ".".into(),
            Finding::NotThere(absence) => format!(": {}.", self.absence(absence)),
            Finding::Ones => ", which meet every pattern: no signal, or an alarm.".into(),
            Finding::Unlike => format!(
                ": even read by the decision of {}, {}. Another file, another order of tributaries, \
                 or a recording that begins elsewhere in it.",
                best.whose(),
                in_short(read)
            ),
            _ => {
                let (alike, others): (Vec<Reading>, Vec<Reading>) =
                    others.partition(|reading| self.is_alike(*reading));
                let alike: Vec<&str> = alike.into_iter().map(Reading::whose).collect();
                let alike = match alike.is_empty() {
                    true => String::new(),
                    false => format!(", and so by that of {}", alike.join(" and of ")),
                };
                let others: Vec<String> =
                    others.into_iter().map(|reading| self.would(reading)).collect();
                let others = match others.is_empty() {
                    true => String::new(),
                    false => format!("; {}", others.join(", ")),
                };
                format!(
                    ": read by the decision of {}, {}{alike}{others}.{}",
                    best.whose(),
                    self.came(read),
                    self.narrow()
                )
            }
        }
    }

    /// Whether a reading takes as much as the one that the finding goes by.
    fn is_alike(&self, reading: Reading) -> bool {
        let takes = |read: &Read| (read.wrong, read.slips, read.unjudged);
        takes(self.of.reading(reading)) == takes(self.of.reading(self.best()))
    }

    /// What a reading took.
    fn came(&self, read: &Read) -> String {
        let digits = match read.unjudged {
            0 => format!("{} digits", grouped(read.judged())),
            at => format!(
                "{} digits from digit {} on, where the pattern begins,",
                grouped(read.judged()),
                grouped(at)
            ),
        };
        let meant = if self.stages == 0 { "those sent" } else { "the pattern's" };
        let wrong = match read.wrong {
            0 if read.slips == 0 => return format!("all {digits} are {meant}"),
            0 => format!("none of {digits} is wrong"),
            wrong => {
                let are = if wrong == 1 { "is" } else { "are" };
                let ratio = ratio(wrong, read.judged());
                format!("{} of {digits} {are} wrong ({ratio})", grouped(wrong))
            }
        };
        match read.slips {
            0 => format!("{wrong} and there is no slip"),
            1 => format!("{wrong} and there is 1 slip, {}", self.slipped(read)),
            slips => {
                format!("{wrong} and there are {} slips, {}", grouped(slips), self.slipped(read))
            }
        }
    }

    /// Which slips they are, and where the first is.
    fn slipped(&self, read: &Read) -> String {
        let first = match self.slips.first() {
            Some(first) => first,
            None => return "not followed one by one".into(),
        };
        let counted = self.slips.counted();
        let votes = self.slips.votes();
        let of = match counted < read.slips {
            true => format!("of the first {} ", grouped(counted)),
            false => String::new(),
        };
        let place = self.place(first);
        match votes {
            0 if read.slips == 1 => place,
            0 => format!("the first {place}"),
            votes if votes == read.slips && votes == 1 => format!("a wrong vote: {place}"),
            votes if votes == read.slips => format!("all of them wrong votes, the first {place}"),
            votes if votes == counted => format!("{of}all wrong votes, the first {place}"),
            votes => format!("{of}{}, the first other {place}", so_many(votes, "wrong vote")),
        }
    }

    /// Where a slip is.
    fn place(&self, slip: &Slip) -> String {
        let so_many = match slip.step.unsigned_abs() {
            0 | 1 => "a digit".into(),
            digits => format!("{} digits", grouped(digits)),
        };
        let way = if slip.step > 0 { "lost" } else { "doubled" };
        let start = slip.frame.saturating_mul(self.level.frame_digits() as u64);
        format!(
            "{so_many} {way} at digit {}, frame {}, {}",
            grouped(slip.digit),
            grouped(slip.frame),
            time(self.level.kilobits(), start)
        )
    }

    /// What another reading would take.
    fn would(&self, reading: Reading) -> String {
        let read = self.of.reading(reading);
        let wrong = match read.wrong {
            0 => "no wrong digit".into(),
            wrong => {
                format!("{} ({})", so_many(wrong, "wrong digit"), ratio(wrong, read.judged()))
            }
        };
        let slips = match read.slips {
            0 => "no slip".into(),
            slips => so_many(slips, "slip"),
        };
        if read.judged() == 0 && read.digits > 0 {
            return format!("by {} the pattern is not there", reading.whose());
        }
        format!("{} would need {wrong} and {slips}", reading.whose())
    }

    /// A difference that a single slip would make up for is said.
    fn narrow(&self) -> String {
        match self.of.margin() {
            0 => String::new(),
            margin if margin <= STEP => {
                format!(" That is a narrow difference: {margin}, where one slip counts {STEP}.")
            }
            _ => String::new(),
        }
    }

    fn absence(&self, absence: Absence) -> String {
        let digits = grouped(self.of.reading(Reading::Own).digits);
        match absence {
            Absence::Ones => format!("its {digits} digits are ones: no signal, or an alarm"),
            Absence::Zeros => format!("its {digits} digits are zeros: no signal"),
            Absence::Other(stages) => {
                format!("it carries the pattern of 2^{stages} - 1 digits, inverted")
            }
            Absence::Unknown => format!(
                "in {digits} digits no {} in a row are the pattern's: another signal, or a line \
                 too worn to take it up",
                64 + self.stages
            ),
        }
    }
}

/// What a reading took that is not what was sent, whose slips mean nothing.
fn in_short(read: &Read) -> String {
    format!(
        "{} of {} digits are wrong ({}) and there are {} slips",
        grouped(read.wrong),
        grouped(read.judged()),
        ratio(read.wrong, read.judged()),
        grouped(read.slips)
    )
}

/// What all tributaries together say, for people who were not there.
#[derive(Clone, Debug, PartialEq, Eq)]
pub struct Answer {
    /// One word for scripts: right, late, early, late or early, slipped, mixed, absent or open.
    pub word: &'static str,
    /// right, wrong or open: what the colour says.
    pub class: &'static str,
    /// The answer.
    pub head: String,
    /// What it means.
    pub meaning: &'static str,
    /// What else there is to say: the clocks and the wear.
    pub more: Vec<String>,
}

/// The answer to: did the clock move, or the frame index?
pub fn answer(known: &[Known<'_>], clocks: &[Clock]) -> Answer {
    let numbers = |which: &dyn Fn(&Known<'_>) -> bool| -> Vec<String> {
        known.iter().filter(|of| which(of)).map(|of| (of.number + 1).to_string()).collect()
    };
    let has = |finding: Finding| known.iter().any(|of| of.finding == finding);
    let slipped = numbers(&|of| of.clock_slips() > 0);
    let absent = numbers(&|of| of.finding.is_absent());
    let index = known.iter().any(|of| of.finding.is_index());
    let mut answer = match (has(Finding::Late), has(Finding::Early), has(Finding::Right)) {
        _ if index && has(Finding::Right) => mixed(),
        (true, true, _) => mixed(),
        (true, false, _) => frame_index("late"),
        (false, true, _) => frame_index("early"),
        _ if index => frame_index("late or early"),
        (false, false, true) if slipped.is_empty() => right(),
        (false, false, true) => clock_slipped(&slipped),
        _ if !absent.is_empty() => not_there(),
        _ if !slipped.is_empty() => slipped_alone(&slipped),
        _ => open(),
    };
    if !slipped.is_empty() && answer.word != "slipped" {
        answer.more.push(format!("{} slipped besides.", tributaries(&slipped)));
    }
    if !absent.is_empty() && answer.word != "absent" {
        let not = if absent.len() == 1 { "does not" } else { "do not" };
        answer.more.push(format!("{} {not} carry what was sent.", tributaries(&absent)));
    }
    answer.more.push(wear(known));
    answer.more.push(clocks_kept(clocks));
    answer.more.retain(|text| !text.is_empty());
    answer
}

fn tributaries(numbers: &[String]) -> String {
    let plural = if numbers.len() == 1 { "y" } else { "ies" };
    format!("Tributar{plural} {}", listed(numbers))
}

fn frame_index(word: &'static str) -> Answer {
    let (head, meaning) = match word {
        "late" => (
            "The frame index: the multiplexer acts a frame late.",
            "The multiplexer announces in each frame what it does with its tributaries, and does it \
             one frame later. The fault is in the multiplexer, not in a clock.",
        ),
        "early" => (
            "The frame index: the multiplexer acts a frame early.",
            "The multiplexer announces in each frame what it does with its tributaries, and has done \
             it one frame before. The fault is in the multiplexer, not in a clock.",
        ),
        _ => (
            "The frame index: the multiplexer acts a frame late or a frame early.",
            "The multiplexer does not act in the frame in which it announces what it does with its \
             tributaries. Which of the two it is, these decisions do not tell. The fault is in the \
             multiplexer, not in a clock.",
        ),
    };
    Answer { word, class: "wrong", head: head.into(), meaning, more: Vec::new() }
}

fn right() -> Answer {
    Answer {
        word: "right",
        class: "right",
        head: "Neither: the multiplexer acts in its own frame, and no clock slipped.".into(),
        meaning:
            "The multiplexer does in each frame what it announces there, and nothing was lost \
                  or doubled before it.",
        more: Vec::new(),
    }
}

fn clock_slipped(slipped: &[String]) -> Answer {
    Answer {
        word: "slipped",
        class: "wrong",
        head: format!(
            "The clock: {} slipped. The multiplexer acts in its own frame.",
            tributaries(slipped).replace('T', "t")
        ),
        meaning:
            "Digits were lost or doubled before they came into the multiplexer, which does in \
                  each frame what it announces there.",
        more: Vec::new(),
    }
}

fn slipped_alone(slipped: &[String]) -> Answer {
    Answer {
        word: "slipped",
        class: "wrong",
        head: format!("The clock: {} slipped.", tributaries(slipped).replace('T', "t")),
        meaning:
            "Digits were lost or doubled before they came into the multiplexer. Whether it acts \
                  in its own frame its decisions do not tell.",
        more: Vec::new(),
    }
}

fn mixed() -> Answer {
    Answer {
        word: "mixed",
        class: "wrong",
        head: "The tributaries do not agree: see each of them.".into(),
        meaning:
            "One multiplexer acts in one way for all of its tributaries. Look at how narrow the \
                  differences are, and whether each tributary was held against its own digits.",
        more: Vec::new(),
    }
}

fn not_there() -> Answer {
    Answer {
        word: "absent",
        class: "wrong",
        head: "Cannot be told: what was sent is not on this line.".into(),
        meaning: "Before the clock or the multiplexer can be judged, the recording has to be held \
                  against what was sent into it.",
        more: Vec::new(),
    }
}

fn open() -> Answer {
    Answer {
        word: "open",
        class: "open",
        head: "Cannot be told from this recording.".into(),
        meaning: "A multiplexer that acts in another frame shows only where its decisions change.",
        more: Vec::new(),
    }
}

/// How many digits came wrong, by the reading that each tributary goes by.
fn wear(known: &[Known<'_>]) -> String {
    let told = known.iter().filter(|of| !of.finding.is_absent() && of.finding != Finding::Empty);
    let reads: Vec<&Read> = told.map(|of| of.of.reading(of.best())).collect();
    let (wrong, judged) = reads
        .iter()
        .fold((0_u64, 0_u64), |(wrong, judged), read| (wrong + read.wrong, judged + read.judged()));
    match (wrong, judged) {
        (_, 0) => String::new(),
        (0, _) => format!("None of {} came wrong.", so_many(judged, "digit")),
        _ => format!(
            "{} of {} came wrong, {}.",
            grouped(wrong),
            so_many(judged, "digit"),
            one_in(wrong, judged)
        ),
    }
}

fn clocks_kept(clocks: &[Clock]) -> String {
    let outside: Vec<String> = clocks
        .iter()
        .enumerate()
        .filter(|(_, clock)| clock.kept() == Kept::Outside)
        .map(|(j, _)| (j + 1).to_string())
        .collect();
    let frames = clocks.first().map_or(0, |clock| clock.frames);
    match outside.len() {
        _ if frames == 0 => String::new(),
        0 if clocks.iter().any(|clock| clock.kept() == Kept::Open) => format!(
            "Whether every rate is within its tolerance cannot be told from {}.",
            so_many(frames, "frame")
        ),
        0 => "Every tributary's rate is within its tolerance.".into(),
        1 => format!("The rate of tributary {} left its tolerance.", listed(&outside)),
        _ => format!("The rates of tributaries {} left their tolerance.", listed(&outside)),
    }
}

#[cfg(test)]
mod tests {
    use super::*;

    fn read(wrong: u64, slips: u64) -> Read {
        Read { digits: 61_649, wrong, slips, ..Read::default() }
    }

    fn said(readings: [Read; 3], changes: u64, slips: &Located, stages: u64) -> String {
        let of = Tributary { changes, readings };
        let finding = of.finding(Absence::Unknown);
        let known = Known { level: Level::Two, number: 0, of, finding, slips, stages };
        format!("{}{}", known.head(), known.rest())
    }

    #[test]
    fn a_worn_late_line() {
        let none = Located::default();
        assert_eq!(
            said([read(85, 132), read(66, 0), read(87, 154)], 131, &none, 0),
            "the frame index is late: read by the decision of the frame before, 66 of 61,649 digits \
             are wrong (1.07e-3) and there is no slip; its own frame would need 85 wrong digits \
             (1.38e-3) and 132 slips, the frame after would need 87 wrong digits (1.41e-3) and 154 \
             slips."
        );
    }

    #[test]
    fn a_slip_of_the_clock_and_a_wrong_vote() {
        let slip = Slip { stretch: 0, digit: 20_000, frame: 97, step: 1, slips: 1, vote: false };
        let clock = Located { slips: vec![slip] };
        assert_eq!(
            said([read(0, 1), read(10, 151), read(13, 151)], 131, &clock, 0),
            "the multiplexer acts in its own frame, and the clock slipped: read by the decision of \
             its own frame, none of 61,649 digits is wrong and there is 1 slip, a digit lost at \
             digit 20,000, frame 97, 9.737 ms; the frame before would need 10 wrong digits (1.62e-4) \
             and 151 slips, the frame after would need 13 wrong digits (2.11e-4) and 151 slips."
        );
        let vote = Located { slips: vec![Slip { vote: true, step: -1, ..slip }] };
        let text = said([read(0, 1), read(10, 151), read(13, 151)], 131, &vote, 0);
        assert!(text.starts_with("the multiplexer acts in its own frame: "), "{text}");
        assert!(text.contains("1 slip, a wrong vote: a digit doubled at digit 20,000"), "{text}");
    }

    #[test]
    fn narrow_differences_and_patterns_that_are_not_there() {
        let none = Located::default();
        let text = said([read(5, 0), read(9, 0), read(30, 0)], 1, &none, 0);
        assert!(text.ends_with("a narrow difference: 4, where one slip counts 16."), "{text}");
        let absent = Read { unjudged: 61_649, ..read(0, 0) };
        let text = said([absent; 3], 9, &none, 15);
        assert!(text.starts_with("the pattern is not there: in 61,649 digits no 79 in a row"));
    }
}

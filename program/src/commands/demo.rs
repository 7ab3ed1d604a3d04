//! `demo`: eight frames at level 2 from a right multiplexer and from one that acts on its decisions a
//! frame late, read by the decisions of their own frames and held against what was sent; then the
//! verdict on the late one. Tributary 1 is stuffed in every frame, the others alternate.

use serde::Serialize;
use spritbobbin::{late_multiplex, line_digit, multiplex, Level, Note};

use crate::cli::Demo;
use crate::failure::Failure;
use crate::report::{Report, Saying};
use crate::verdict::pair::Pair;
use crate::verdict::slips::Located;
use crate::verdict::words::Known;
use crate::verdict::{Absence, Read, Reading};

const LEVEL: Level = Level::Two;

/// The notes of the eight frames, each with the national bit, and the decisions of the frame before them,
/// which the late multiplexer acts on first.
const NOTES: [u8; 8] = [0x25, 0x23, 0x2D, 0x2B, 0x25, 0x23, 0x2D, 0x2B];
const BEFORE: u8 = 0x0B;

/// The bytes of eight frames, and of what is sent.
const LINE: usize = 848;
const SENT: usize = 824;

/// Where the last set's head begins in a frame: four control digits, then the four justification digits.
const LAST_HEAD: usize = 636;

pub fn run(_call: Demo, saying: Saying) -> Result<u8, Failure> {
    let sent = scattered();
    let mut right = vec![0; LINE];
    let digits = multiplex(LEVEL, 0, &mut right, &NOTES, &sent)?.digits;
    let mut late = vec![0; LINE];
    late_multiplex(LEVEL, BEFORE, &mut late, &NOTES, &sent)?;
    let right = Shown::of("right", &right, &sent, digits)?;
    let late = Shown::of("late", &late, &sent, digits)?;
    let text = told(&right, &late).lines().map(String::from).collect();
    let (level, frames) = (LEVEL.number(), NOTES.len());
    let multiplexers = [right, late];
    saying.say(&Told { level, frames, multiplexers, text, written: [] })?;
    Ok(0)
}

/// Bytes without a pattern.
fn scattered() -> Vec<u8> {
    let numbers = std::iter::successors(Some(149_u32), |x| Some(x % 65_537 * 75 + 74));
    numbers.take(SENT).map(|x| (x / 16 % 256) as u8).collect()
}

/// What is said, as JSON and as text.
#[derive(Serialize)]
struct Told {
    level: u64,
    frames: usize,
    multiplexers: [Shown; 2],
    /// The lines of the text.
    text: Vec<String>,
    written: [String; 0],
}

/// What one of the two put on the line, and what comes back of it.
#[derive(Serialize)]
struct Shown {
    multiplexer: &'static str,
    /// The control digits and the justification digits of the last set, frame by frame.
    control: Vec<String>,
    justification: Vec<String>,
    tributaries: Vec<Back>,
}

/// A tributary that comes back, read by the decisions of its own frames.
#[derive(Serialize)]
struct Back {
    tributary: usize,
    sent: usize,
    verdict: &'static str,
    sentence: String,
    #[serde(flatten)]
    read: Read,
}

impl Shown {
    fn of(
        multiplexer: &'static str,
        line: &[u8],
        sent: &[u8],
        digits: [usize; 4],
    ) -> Result<Shown, Failure> {
        let of = Pair::new(LEVEL, 0, 0)?.feed(line, None, sent, 0)?;
        let tributaries = of.iter().zip(digits).enumerate().map(|(number, (of, sent))| {
            let finding = of.finding(Absence::Unknown);
            let slips = &Located::default();
            let known = Known { level: LEVEL, number, of: *of, finding, slips, stages: 0 };
            Back {
                tributary: number + 1,
                sent,
                verdict: finding.word(),
                sentence: format!("{}{}", known.head(), known.rest()),
                read: *of.reading(Reading::Own),
            }
        });
        let fours = |place: usize| (0..NOTES.len()).map(|frame| four(line, frame, place)).collect();
        Ok(Shown {
            multiplexer,
            control: fours(LAST_HEAD),
            justification: fours(LAST_HEAD + 4),
            tributaries: tributaries.collect(),
        })
    }

    fn text(&self) -> String {
        let mut text = format!(
            "  control digits 1-4, last set  {}\n  justification digits 1-4      {}\n",
            self.control.join(" "),
            self.justification.join(" ")
        );
        text.push_str(
            "  tributary   digits sent   come back   first wrong digit   wrong digits   slips\n",
        );
        for back in &self.tributaries {
            let first = match back.read.cost() {
                0 => "none".into(),
                _ => back.read.right.to_string(),
            };
            text.push_str(&format!(
                "  {:>9}{:>14}{:>12}{first:>20}{:>15}{:>8}\n",
                back.tributary, back.sent, back.read.digits, back.read.wrong, back.read.slips
            ));
        }
        text
    }
}

/// Four digits of a frame, from this place on.
fn four(line: &[u8], frame: usize, place: usize) -> String {
    let first = frame * LEVEL.frame_digits() + place;
    let digit = |k: usize| {
        line_digit(line, (first + k) as u64).map_or('?', |digit| match digit {
            0 => '0',
            _ => '1',
        })
    };
    (0..4).map(digit).collect()
}

impl Report for Told {
    fn text(&self) -> String {
        self.text.iter().map(|line| format!("{line}\n")).collect()
    }
}

/// The whole text.
fn told(right: &Shown, late: &Shown) -> String {
    let mut text = format!(
        "Level 2, {} kbit/s: eight frames, the same four tributaries sent by two multiplexers.\n\
             Decisions, frames 0 to 7 from left to right (s: stuffed, -: carries a digit):\n",
        LEVEL.kilobits()
    );
    for tributary in 1..=4 {
        let mark = |note: &u8| if Note(*note).decision(tributary) { " s" } else { " -" };
        let marks: String = NOTES.iter().map(mark).collect();
        let kind = if tributary == 1 { "fixed" } else { "alternating" };
        text.push_str(&format!("  tributary {tributary}  {marks}   {kind}\n"));
    }
    text.push_str(
        "\nRight multiplexer: the justification digits follow their own frame's decision.\n",
    );
    text.push_str(&right.text());
    text.push_str(
        "\nLate multiplexer: the justification digits follow the decision of the frame before.\n",
    );
    text.push_str(&late.text());
    text.push_str(
            "\nShown: a multiplexer that acts a frame late slips every tributary whose decisions alternate and spares the one whose\n\
             decision never changes, so a bench that never changes its decisions passes it.\n\n\
             The verdict on the late line, each tributary read by the decision of its own frame, of the frame before and of the frame after:\n",
        );
    for back in &late.tributaries {
        text.push_str(&format!("tributary {}: {}\n", back.tributary, back.sentence));
    }
    text
}

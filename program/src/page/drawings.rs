//! The drawings of one tributary: the shift of its three readings over the recording with wrong digits
//! under each, how often it was stuffed, and its rate with the band of its tolerance. All words stand
//! beside the drawings, in the page's own letters, so that none touches a mark or shrinks with them.

use std::fmt::Write as _;

use super::{reading_name, Page};
use crate::times::time;
use crate::verdict::clock::Clock;
use crate::verdict::numbers::{grouped, ppm, ratio, so_many};
use crate::verdict::timeline::{Cell, Mark};
use crate::verdict::words::Known;
use crate::verdict::{Finding, Reading, READINGS};

/// The width of a drawing in its own units; a browser makes it as wide as there is room.
const WIDE: f64 = 1000.0;

/// The heights of the drawings.
const SHIFT: f64 = 40.0;
const WRONG: f64 = 18.0;
const STUFFED: f64 = 34.0;
const RATE: f64 = 72.0;

/// The three readings.
pub fn readings(page: &Page<'_>, known: &Known<'_>) -> String {
    let (low, high) = shifts(page, known.number);
    let most = most_wrong(page, known.number);
    let explained = match known.number {
        0 => {
            ": flat where nothing slips, a step where a digit is lost or doubled, a saw-tooth where it is \
             read by the wrong frame"
        }
        _ => "",
    };
    let mut out = format!(
        "<figure>\n<figcaption><b>The three readings.</b> The line is the shift of each in digits \
         beside what was sent{explained}. Under it its wrong digits{}.</figcaption>\n",
        match most {
            most if most > 0.0 => format!("; full height is {most:.1e} of the digits of a cell"),
            _ => ", of which there are none".into(),
        }
    );
    for reading in READINGS {
        let _ = write!(
            out,
            "<div class=\"row\"><div class=\"name\">{}</div><div class=\"scale \
             readings-scale\"><span>{}</span><span>{}</span></div>",
            name(known, reading),
            signed(high),
            signed(low)
        );
        out.push_str("<div class=\"draw\">");
        out.push_str(&shift(page, known.number, reading, low, high));
        out.push_str(&wrong(page, known.number, reading, most));
        out.push_str("</div></div>\n");
    }
    out.push_str(&ends(page));
    out.push_str("</figure>\n");
    out
}

/// A reading's name, what it takes, and whether it is the one that explains the recording best.
fn name(known: &Known<'_>, reading: Reading) -> String {
    let read = known.of.reading(reading);
    let takes = match read.judged() {
        0 => "the pattern is not there".into(),
        judged => format!(
            "{} wrong{}, {}",
            grouped(read.wrong),
            match read.wrong {
                0 => String::new(),
                wrong => format!(" ({})", ratio(wrong, judged)),
            },
            so_many(read.slips, "slip")
        ),
    };
    let told = matches!(known.finding, Finding::Right | Finding::Late | Finding::Early);
    let best = match told && known.best() == reading {
        true => "<small class=\"best\">needs the least</small>",
        false => "",
    };
    format!("<b>{}</b><small>{takes}</small>{best}", reading_name(reading))
}

/// The letters of the longest label beside a drawing.
pub fn longest_label(page: &Page<'_>) -> usize {
    let shifts = (0..page.known.len()).map(|j| shifts(page, j));
    let shifts = shifts.flat_map(|(low, high)| [signed(low), signed(high)]);
    let rates = page
        .clocks
        .iter()
        .filter(|clock| !clock.parts.is_empty())
        .map(|clock| ppm(most_off(clock)));
    shifts.chain(rates).map(|label| label.chars().count()).max().unwrap_or(0)
}

/// How far the drawing of a rate goes to either side: to the farthest part, and to twice the tolerance at least.
fn most_off(clock: &Clock) -> i64 {
    let parts = clock.parts.iter().map(|part| part.off.unsigned_abs());
    let most = parts.max().unwrap_or(0).max(20 * clock.tolerance);
    i64::try_from(most).unwrap_or(i64::MAX)
}

fn signed(shift: i64) -> String {
    match shift {
        shift if shift > 0 => format!("+{shift}"),
        shift if shift < 0 => format!("\u{2212}{}", shift.unsigned_abs()),
        _ => "0".into(),
    }
}

/// A tributary's mark of one reading in a cell.
fn mark(cell: &Cell, j: usize, reading: Reading) -> Mark {
    let marks = cell.marks.get(j).and_then(|three| three.get(reading.number()));
    marks.copied().unwrap_or_default()
}

/// The least and the largest shift of all readings, at least one to either side of none.
fn shifts(page: &Page<'_>, j: usize) -> (i64, i64) {
    let marks = page
        .timeline
        .cells
        .iter()
        .flat_map(|cell| READINGS.into_iter().map(move |reading| mark(cell, j, reading)));
    marks.fold((-1, 1), |(low, high), mark| (low.min(mark.low), high.max(mark.high)))
}

/// Where frame f stands across a drawing.
fn across(page: &Page<'_>, frame: u64) -> f64 {
    WIDE * frame as f64 / page.timeline.frames().max(1) as f64
}

/// A drawing's begin, with the gaps of the recording.
fn begin(page: &Page<'_>, class: &str, height: f64, words: &str) -> String {
    let mut out = format!(
        "<svg class=\"{class}\" viewBox=\"0 0 {WIDE} {height}\" preserveAspectRatio=\"none\" \
         role=\"img\" aria-label=\"{words}\">"
    );
    if !page.timeline.gaps.is_empty() {
        out.push_str("<path class=\"gap\" d=\"");
        for gap in &page.timeline.gaps {
            let _ = write!(out, "M{:.1} 0V{height}", across(page, *gap));
        }
        out.push_str("\"/>");
    }
    out
}

/// The shift as a line, and where it moved within a cell the span of it.
fn shift(page: &Page<'_>, j: usize, reading: Reading, low: i64, high: i64) -> String {
    let name = reading_name(reading);
    let mut out = begin(page, "shift", SHIFT, &format!("shift of the reading by the {name}"));
    let span = (high - low).max(1) as f64;
    let y = |shift: i64| 3.0 + (SHIFT - 6.0) * (high - shift) as f64 / span;
    let _ = write!(out, "<path class=\"axis\" d=\"M0 {0:.1}H{WIDE}\"/>", y(0));
    let (mut spans, mut line) = (String::new(), String::new());
    let mut now = None;
    let mut open: Option<(f64, f64, i64, i64)> = None;
    for (before, cell) in page.timeline.steps() {
        let here = mark(&cell, j, reading);
        let (x, end) = (across(page, before.end), across(page, cell.end));
        if now != Some(here.shift) {
            let _ = match now {
                None => write!(line, "M{x:.1} {:.1}", y(here.shift)),
                Some(_) => write!(line, "H{x:.1}V{:.1}", y(here.shift)),
            };
            now = Some(here.shift);
        }
        open = match open {
            Some((x, _, low, high)) if (low, high) == (here.low, here.high) => {
                Some((x, end, low, high))
            }
            other => {
                close(&mut spans, other, &y);
                Some((x, end, here.low, here.high))
            }
        };
    }
    close(&mut spans, open, &y);
    let _ = write!(line, "H{WIDE}");
    let class = ["own", "before", "after"].get(reading.number()).copied().unwrap_or("own");
    if !spans.is_empty() {
        let _ = write!(out, "<path class=\"span {class}\" d=\"{spans}\"/>");
    }
    let _ = write!(out, "<path class=\"line {class}\" d=\"{line}\"/></svg>");
    out
}

/// A span of shifts that a cell or several moved in.
fn close(spans: &mut String, span: Option<(f64, f64, i64, i64)>, y: &dyn Fn(i64) -> f64) {
    if let Some((x, end, low, high)) = span.filter(|(_, _, low, high)| low != high) {
        let _ = write!(spans, "M{x:.1} {:.1}H{end:.1}V{:.1}H{x:.1}Z", y(high), y(low));
    }
}

/// The wrong digits of a cell, as a share of its digits.
fn share(before: &Cell, cell: &Cell, j: usize, reading: Reading) -> f64 {
    let digits = |cell: &Cell| cell.digits.get(j).copied().unwrap_or(0);
    let came = digits(cell).saturating_sub(digits(before)).max(1);
    let wrong = mark(cell, j, reading).wrong.saturating_sub(mark(before, j, reading).wrong);
    (wrong as f64 / came as f64).min(1.0)
}

fn most_wrong(page: &Page<'_>, j: usize) -> f64 {
    let shares = page.timeline.steps().flat_map(|(before, cell)| {
        READINGS.into_iter().map(move |reading| share(&before, &cell, j, reading))
    });
    shares.fold(0.0, f64::max)
}

/// Wrong digits as bars.
fn wrong(page: &Page<'_>, j: usize, reading: Reading, most: f64) -> String {
    let name = reading_name(reading);
    let words = format!("wrong digits of the reading by the {name}");
    let mut out = begin(page, "wrongs", WRONG, &words);
    let _ = write!(out, "<path class=\"axis\" d=\"M0 {:.1}H{WIDE}\"/>", WRONG - 0.5);
    let mut bars = String::new();
    for (before, cell) in page.timeline.steps() {
        let share = share(&before, &cell, j, reading);
        if share > 0.0 && most > 0.0 {
            let (x, end) = (across(page, before.end), across(page, cell.end));
            let top = WRONG - (WRONG * share / most).max(1.0);
            let _ = write!(bars, "M{x:.1} {WRONG}V{top:.1}H{end:.1}V{WRONG}Z");
        }
    }
    if !bars.is_empty() {
        let _ = write!(out, "<path class=\"bars\" d=\"{bars}\"/>");
    }
    out.push_str("</svg>");
    out
}

/// The decisions as a density: how many frames of a cell were stuffed.
pub fn decisions(page: &Page<'_>, known: &Known<'_>) -> String {
    let two_ways = page.level.looks_at_earlier();
    let (top, bottom, words) = match two_ways {
        false => ("all", "none", "share of the frames in which it was stuffed"),
        true => (
            "+1",
            "\u{2212}1",
            "digits of a frame more or less than usual: +1 where its negative place carried one in \
             every frame, \u{2212}1 where it was stuffed in every frame",
        ),
    };
    let mut out = format!(
        "<figure>\n<figcaption><b>Its decisions.</b> {} by its own frame, {} a cell: over the whole \
         recording {}.</figcaption>\n<div class=\"row\"><div class=\"name\"><b>{}</b><small>{} of the \
         decision</small></div><div class=\"scale\"><span>{top}</span><span>{bottom}</span></div>\
         <div class=\"draw\">",
        super::capital(words),
        so_many(densities(page).first().map_or(1, |(_, cell)| cell.end), "frame"),
        density(page, known.number),
        if two_ways { "digits" } else { "stuffed" },
        so_many(known.of.changes, "change"),
    );
    out.push_str(&begin(page, "stuffed", STUFFED, words));
    let base = if two_ways { STUFFED / 2.0 } else { STUFFED };
    let mut bars = String::new();
    for (before, cell) in densities(page) {
        let (x, end) = (across(page, before.end), across(page, cell.end));
        let top = base - (STUFFED - 2.0) * height(page, &before, &cell, known.number);
        let _ = write!(bars, "M{x:.1} {base}V{top:.1}H{end:.1}V{base}Z");
    }
    let _ = write!(out, "<path class=\"dense\" d=\"{bars}\"/>");
    let _ = writeln!(out, "<path class=\"axis\" d=\"M0 {base:.1}H{WIDE}\"/></svg></div></div>");
    out.push_str(&ends(page));
    out.push_str("</figure>\n");
    out
}

/// Cells of so many frames that a share of them says something: no more than 96.
fn densities(page: &Page<'_>) -> Vec<(Cell, Cell)> {
    let together = page.timeline.cells.len() / 97 + 1;
    let mut before = Cell::default();
    let mut cells = Vec::new();
    for cells_of_one in page.timeline.cells.chunks(together) {
        if let Some(last) = cells_of_one.last() {
            cells.push((before, *last));
            before = *last;
        }
    }
    cells
}

/// How much of a drawing's height a cell takes: the share of stuffed frames, or half of the digits
/// more or less than usual.
fn height(page: &Page<'_>, before: &Cell, cell: &Cell, j: usize) -> f64 {
    let (frames, more) = more_digits(page, before, cell, j);
    match page.level.looks_at_earlier() {
        false => (-more / frames).clamp(0.0, 1.0),
        true => (more / frames).clamp(-1.0, 1.0) / 2.0,
    }
}

/// The frames of a cell, and the digits that they carried more than usual.
fn more_digits(page: &Page<'_>, before: &Cell, cell: &Cell, j: usize) -> (f64, f64) {
    let digits = |cell: &Cell| cell.digits.get(j).copied().unwrap_or(0);
    let frames = cell.end.saturating_sub(before.end).max(1);
    let usual = frames.saturating_mul(page.level.tributary_digits() as u64);
    let came = digits(cell).saturating_sub(digits(before));
    (frames as f64, came as f64 - usual as f64)
}

/// The density over the whole recording, in words.
fn density(page: &Page<'_>, j: usize) -> String {
    let last = page.timeline.cells.last().copied().unwrap_or_default();
    let (frames, more) = more_digits(page, &Cell::default(), &last, j);
    match page.level.looks_at_earlier() {
        false => format!("{:.1} of 100 frames", -100.0 * more / frames),
        true => format!("{:+.1} digits in 100 frames", 100.0 * more / frames),
    }
}

/// The rate in steps, with the band of its tolerance; nothing of a recording that is too short for it.
pub fn rate(page: &Page<'_>, clock: &Clock) -> String {
    let part = match clock.parts.first() {
        Some(part) => part,
        None => return String::new(),
    };
    let most = most_off(clock);
    let y = |off: i64| RATE / 2.0 * (1.0 - off as f64 / most as f64);
    let tolerance = 10 * clock.tolerance as i64;
    let left = clock.left().count();
    let mut out = format!(
        "<figure>\n<figcaption><b>Its rate.</b> Off {} kbit/s, a step for each part of {}. <span \
         class=\"key band\"></span> its tolerance, \u{b1}{} ppm{}</figcaption>\n<div class=\"row\"><div \
         class=\"name\"><b>rate</b><small>{}</small></div><div class=\"scale\"><span>{}</span><span>0\
         </span><span>{}</span></div><div class=\"draw\">",
        clock.kilobits,
        so_many(part.frames, "frame"),
        clock.tolerance,
        match left {
            0 => ".",
            _ => "; <span class=\"key out\"></span> a part in which it left that.",
        },
        ppm(clock.off).replace('-', "\u{2212}"),
        ppm(most),
        ppm(-most).replace('-', "\u{2212}"),
    );
    out.push_str(&begin(page, "rates", RATE, "its rate over the recording, part by part"));
    let (top, bottom) = (y(tolerance), y(-tolerance));
    let _ = write!(out, "<path class=\"band\" d=\"M0 {top:.1}H{WIDE}V{bottom:.1}H0Z\"/>");
    let _ = write!(out, "<path class=\"axis\" d=\"M0 {0:.1}H{WIDE}\"/>", RATE / 2.0);
    let (mut line, mut outside) = (String::new(), String::new());
    for part in &clock.parts {
        let (x, end) = (across(page, part.first), across(page, part.first + part.frames));
        let height = y(part.off).clamp(2.0, RATE - 2.0);
        let _ = match line.is_empty() {
            true => write!(line, "M{x:.1} {height:.1}H{end:.1}"),
            false => write!(line, "V{height:.1}H{end:.1}"),
        };
        if part.left {
            let _ = write!(outside, "M{x:.1} {height:.1}H{end:.1}");
        }
    }
    let _ = write!(out, "<path class=\"line own\" d=\"{line}\"/>");
    if !outside.is_empty() {
        let _ = write!(out, "<path class=\"line out\" d=\"{outside}\"/>");
    }
    out.push_str("</svg></div></div>\n");
    out.push_str(&ends(page));
    out.push_str("</figure>\n");
    out
}

/// The first frame and the last, below a drawing, and when that was.
fn ends(page: &Page<'_>) -> String {
    let frames = page.timeline.frames();
    let digits = |frames: u64| frames.saturating_mul(page.level.frame_digits() as u64);
    let middle = match frames {
        0..=2 => String::new(),
        frames => format!("<span class=\"middle\">frame {}</span>", grouped(frames / 2)),
    };
    format!(
        "<div class=\"row ends\"><div></div><div></div><div class=\"axis\"><span>frame 0</span>{middle}\
         <span>frame {}, {}</span></div></div>\n",
        grouped(frames.saturating_sub(1)),
        time(page.level.kilobits(), digits(frames))
    )
}

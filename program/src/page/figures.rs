//! The numbers of the page: a table of the four tributaries and their readings, and one of their
//! clocks. Both are narrow enough for a telephone.

use std::fmt::Write as _;

use super::{class, clock_words, columns, off, reading_name, short, takes, Page};
use crate::verdict::numbers::grouped;
use crate::verdict::words::Known;
use crate::verdict::Finding;

pub fn tables(page: &Page<'_>) -> String {
    let mut out = String::from("<section class=\"numbers\">\n<h2>In numbers</h2>\n");
    out.push_str(&readings(page));
    out.push_str(&clocks(page));
    out.push_str("</section>\n");
    out
}

/// What each reading takes to be what was sent; the cheapest is marked.
fn readings(page: &Page<'_>) -> String {
    let mut out = String::from(
        "<table class=\"readings\">\n<caption>What each reading takes to be what was sent; the least is \
         marked.</caption>\n<tr><th></th><th>verdict</th>",
    );
    for reading in columns() {
        let _ = write!(out, "<th>{}</th>", reading_name(reading));
    }
    out.push_str("</tr>\n");
    for known in &page.known {
        let _ = write!(
            out,
            "<tr><th>{}</th><td class=\"{}\">{}</td>",
            known.number + 1,
            class(known),
            short(known)
        );
        for reading in columns() {
            let best =
                if is_marked(known) && known.best() == reading { " class=\"best\"" } else { "" };
            let _ = write!(out, "<td{best}>{}</td>", takes(known, reading));
        }
        out.push_str("</tr>\n");
    }
    out.push_str("</table>\n");
    out
}

/// Whether one reading is cheaper than the others.
fn is_marked(known: &Known<'_>) -> bool {
    matches!(known.finding, Finding::Right | Finding::Late | Finding::Early)
}

/// How far each clock is off, and how often each decision changed.
fn clocks(page: &Page<'_>) -> String {
    let tolerance = page.clocks.first().map_or(0, |clock| clock.tolerance);
    let kilobits = page.clocks.first().map_or(0, |clock| clock.kilobits);
    let mut out = format!(
        "<table class=\"clocks\">\n<caption>Clocks, taking the line at {} kbit/s: how far each rate is \
         off {kilobits} kbit/s, which may be {tolerance} ppm, and in how many frames the decision \
         changed.</caption>\n<tr><th></th><th>rate off by</th><th></th><th>changes</th></tr>\n",
        page.level.kilobits()
    );
    for (known, clock) in page.known.iter().zip(&page.clocks) {
        let (class, words) = clock_words(clock);
        let _ = writeln!(
            out,
            "<tr><th>{}</th><td>{}</td><td class=\"{class}\">{words}</td><td>{}</td></tr>",
            known.number + 1,
            off(clock),
            grouped(known.of.changes)
        );
    }
    out.push_str("</table>\n");
    out
}

/// Sixty-four hexadecimal digits in groups of eight, between which a line may break.
pub fn in_groups(figures: &str) -> String {
    let figures: Vec<char> = figures.chars().collect();
    let groups: Vec<String> = figures.chunks(8).map(|eight| eight.iter().collect()).collect();
    groups.join("<wbr>")
}

//! The frame of a level: a row of cells to a set, a cell to each place of its head, one long cell to its
//! tributary digits; under them the whole frame to scale, and what every mark means.

use spritbobbin::Level;

use super::svg::Svg;
use super::{Kind, Place};

/// A place, and what it holds where that is to be shown.
#[derive(Clone, Debug, PartialEq, Eq)]
pub struct Cell {
    pub place: Place,
    /// A digit, `digit` where a justification place carries one, `stuff` where it does not.
    pub holds: Option<String>,
}

const WIDTH: u64 = 960;

/// The left edge of the cells, the right edge of the picture, and a cell's width.
const LEFT: u64 = 64;
const RIGHT: u64 = 940;
const WIDE: u64 = 34;

/// The upper edge of the first set, and the height of a set with what is under it.
const TOP: u64 = 48;
const SET: u64 = 66;

const STYLE: &str = "rect{stroke:#fff}.word{fill:#1f4e79}.alarm{fill:#595959}.service{fill:#595959}.control{fill:#a8480a}\
.positive{fill:#7a5c00}.negative{fill:#6b3fa0}.ordinary{fill:#deebf7;stroke:#4f7299}.c{fill:#fff;text-anchor:middle}\
.h{font-size:16px}.p{fill:#555;font-size:10px}.m{text-anchor:middle}.e{text-anchor:end}.t{stroke:#333;fill:none}";

/// The picture of a frame of so many sets, by its places in order.
pub fn draw(level: Level, sets: u64, cells: &[Cell]) -> String {
    let digits = cells.len() as u64;
    let set = (digits / sets.max(1)).max(1);
    let two_ways = has(cells, Kind::Negative);
    let entries = entries(two_ways, cells);
    let scale = TOP + SET * sets;
    let legend = scale + 92;
    let height = legend + 26 * ((entries.len() as u64 + 1) / 2) + 12;
    let micros = digits as f64 * 1000.0 / f64::from(level.kilobits());
    let title = format!(
        "Level {}, {} kbit/s: a frame of {digits} digits in {sets} sets, {micros:.1} \u{b5}s",
        level.number(),
        level.kilobits()
    );
    let mut svg = Svg::new(WIDTH, height, &title, STYLE);
    svg.text("h", 12, 26, &title);
    for number in 0..sets {
        let y = TOP + SET * number;
        svg.text("", 12, y + 24, &format!("set {}", number + 1));
    }
    let mut first = 0;
    for run in runs(cells) {
        one_run(&mut svg, set, two_ways, run, first);
        first += run.len() as u64;
    }
    to_scale(&mut svg, set, cells, scale, micros);
    draw_legend(&mut svg, &entries, legend);
    svg.end()
}

fn has(cells: &[Cell], kind: Kind) -> bool {
    cells.iter().any(|cell| cell.place.kind == kind)
}

/// The runs of places of one kind.
fn runs(cells: &[Cell]) -> Vec<&[Cell]> {
    let mut runs = Vec::new();
    let mut rest = cells;
    while let Some(first) = rest.first() {
        let same = rest.iter().take_while(|cell| cell.place.kind == first.place.kind).count();
        let (run, after) = rest.split_at(same);
        runs.push(run);
        rest = after;
    }
    runs
}

/// A run of places of one kind, with the numbers of its first and its last under it.
fn one_run(svg: &mut Svg, set: u64, two_ways: bool, run: &[Cell], first: u64) {
    let count = run.len() as u64;
    let y = TOP + SET * (first / set);
    let x_of = |place: u64| LEFT + WIDE * (place % set).min(24);
    let numbers = match count {
        1 => first.to_string(),
        _ => format!("{first}-{}", first + count - 1),
    };
    svg.text("p", x_of(first), y + 50, &numbers);
    match run.first() {
        Some(cell) if cell.place.kind == Kind::Ordinary => {
            let x = x_of(first);
            svg.rect("ordinary", [x, y, RIGHT - x, 38]);
            let whose: Vec<String> =
                run.iter().take(8).map(|cell| cell.place.tributary.to_string()).collect();
            let words = format!("{count} tributary digits in turn: {} ..", whose.join(" "));
            svg.text("", x + 12, y + 24, &words);
        }
        _ => {
            for (k, cell) in run.iter().enumerate() {
                let x = x_of(first + k as u64);
                svg.rect(class(cell.place.kind), [x, y, WIDE, 38]);
                let base = if cell.holds.is_some() { y + 16 } else { y + 24 };
                svg.text("c", x + WIDE / 2, base, &name(cell.place, two_ways));
                if let Some(holds) = &cell.holds {
                    svg.text("c", x + WIDE / 2, y + 32, holds);
                }
            }
        }
    }
}

fn class(kind: Kind) -> &'static str {
    match kind {
        Kind::Word => "word",
        Kind::RemoteAlarm => "alarm",
        Kind::Service => "service",
        Kind::Control => "control",
        Kind::Justification => "positive",
        Kind::Negative => "negative",
        Kind::Ordinary => "ordinary",
    }
}

fn name(place: Place, two_ways: bool) -> String {
    let whose = place.tributary;
    match place.kind {
        Kind::Word => "w".into(),
        Kind::RemoteAlarm => "A".into(),
        Kind::Service if two_ways => "S".into(),
        Kind::Service => "N".into(),
        Kind::Control => format!("C{whose}"),
        Kind::Justification if two_ways => format!("+J{whose}"),
        Kind::Justification => format!("J{whose}"),
        Kind::Negative => format!("\u{2212}J{whose}"),
        Kind::Ordinary => String::new(),
    }
}

/// The frame as it is on the line: every place as wide as it lasts, with places above it and times
/// under it.
fn to_scale(svg: &mut Svg, set: u64, cells: &[Cell], y: u64, micros: f64) {
    let digits = cells.len() as u64;
    let x_of = |place: u64| LEFT + (RIGHT - LEFT) * place / digits.max(1);
    svg.text("", 12, y + 34, "scale");
    let mut first = 0;
    for run in runs(cells) {
        let end = first + run.len() as u64;
        if let Some(cell) = run.first() {
            let (x, next) = (x_of(first), x_of(end));
            svg.rect(class(cell.place.kind), [x, y + 20, next.saturating_sub(x).max(2), 20]);
        }
        first = end;
    }
    let ends = digits / set;
    for k in 0..=ends {
        let (x, place) = (x_of(k * set), k * set);
        svg.path("t", &format!("M{x} {}v4M{x} {}v4", y + 15, y + 41));
        let anchor = if k == 0 { "p" } else { "p m" };
        let time = format!("{:.1}", micros * place as f64 / digits.max(1) as f64);
        let x = if k == ends { x - 8 } else { x };
        svg.text(anchor, x, y + 12, &place.to_string());
        svg.text(anchor, x, y + 56, &time);
    }
    svg.text("p", 12, y + 12, "place");
    svg.text("p", 12, y + 56, "time, \u{b5}s");
}

/// What every mark means: its class, its name, and the words.
fn entries(two_ways: bool, cells: &[Cell]) -> Vec<(&'static str, &'static str, &'static str)> {
    let mut entries = vec![("word", "w", "alignment word, the same in every frame")];
    if has(cells, Kind::RemoteAlarm) {
        entries.push(("alarm", "A", "remote alarm"));
    }
    if has(cells, Kind::Service) {
        entries.push(match two_ways {
            true => ("service", "S", "service digits"),
            false => ("service", "N", "national digit"),
        });
    }
    entries.push(("control", "C1", "control digit: the decision for the tributary of that number"));
    match two_ways {
        true => {
            entries.push((
                "negative",
                "\u{2212}J1",
                "negative justification: carries a digit more, or nothing",
            ));
            entries.push((
                "positive",
                "+J1",
                "positive justification: carries a digit, or is stuffed",
            ));
        }
        false => {
            entries.push((
                "positive",
                "J1",
                "justification: carries a digit of its tributary, or is stuffed",
            ));
        }
    }
    entries.push(("ordinary", "", "tributary digits, one of each tributary in turn"));
    if cells.iter().any(|cell| cell.holds.is_some() && cell.place.kind != Kind::Word) {
        entries.push(("control", "0 1", "under a name: the digit that stands there for this note"));
    }
    entries
}

fn draw_legend(svg: &mut Svg, entries: &[(&str, &str, &str)], y: u64) {
    for (k, (class, mark, words)) in entries.iter().enumerate() {
        let (x, y) = (12 + 470 * (k as u64 % 2), y + 26 * (k as u64 / 2));
        svg.rect(class, [x, y, 40, 20]);
        svg.text("c", x + 20, y + 15, mark);
        svg.text("", x + 50, y + 15, words);
    }
}

#[cfg(test)]
mod tests {
    use super::super::contrast;
    use super::*;

    /// A frame as level 2 has it.
    fn cells(note: bool) -> Vec<Cell> {
        let kind = |place: u64| match (place / 212, place % 212) {
            (0, 0..=9) => Kind::Word,
            (0, 10) => Kind::RemoteAlarm,
            (0, 11) => Kind::Service,
            (1..=3, 0..=3) => Kind::Control,
            (3, 4..=7) => Kind::Justification,
            _ => Kind::Ordinary,
        };
        let cell = |place: u64| Cell {
            place: Place { kind: kind(place), tributary: place % 4 + 1 },
            holds: (note && kind(place) != Kind::Ordinary).then(|| "1".to_string()),
        };
        (0..848).map(cell).collect()
    }

    #[test]
    fn every_mark_is_in_the_legend_and_the_rate_is_said() {
        let picture = draw(Level::Two, 4, &cells(false));
        for text in ["8448 kbit/s", "848 digits", "100.4 \u{b5}s", "remote alarm", "national digit"]
        {
            assert!(picture.contains(text), "{text}");
        }
        for class in ["word", "alarm", "service", "control", "positive", "ordinary"] {
            // Once or more in the frame, and once in the legend.
            assert!(picture.matches(&format!("<rect class=\"{class}\"")).count() > 1, "{class}");
        }
        assert_eq!(picture.matches("<text class=\"c\"").count(), 10 + 1 + 1 + 12 + 4 + 6);
    }

    #[test]
    fn what_places_hold_is_written_into_them() {
        let picture = draw(Level::Two, 4, &cells(true));
        assert_eq!(picture.matches(">1</text>").count(), 28);
    }

    #[test]
    fn letters_and_marks_stand_off_their_ground() {
        for ground in ["1f4e79", "595959", "a8480a", "7a5c00", "6b3fa0"] {
            assert!(contrast::of(ground, "ffffff") >= 4.5, "{ground}");
        }
        assert!(contrast::of("000000", "deebf7") >= 4.5 && contrast::of("555555", "ffffff") >= 4.5);
        assert!(contrast::of("4f7299", "ffffff") >= 3.0);
    }
}

//! Where two recordings differ: frames down, each a block of its sets, and the places of a set across.
//! Every differing digit is drawn in the colour of its tributary, so that a tributary that slipped
//! stands out; the heads of the sets are shaded.

use std::fmt::Write as _;

use spritbobbin::Level;

use super::svg::Svg;
use super::{Kind, Place};

/// One of the two recordings.
#[derive(Clone, Debug, Default, PartialEq, Eq)]
pub struct Side {
    /// The file's name, and the label of a capture, as they may be shown.
    pub name: String,
    pub label: Option<String>,
}

/// Digits that differ: so many from a place of a frame on.
#[derive(Clone, Copy, Debug, PartialEq, Eq)]
pub struct Stretch {
    /// The frame's number in its recording.
    pub frame: u64,
    pub place: u64,
    pub count: u64,
}

/// What is drawn.
pub struct Comparison<'a> {
    pub level: Level,
    pub sets: u64,
    /// The places of a frame.
    pub places: &'a [Place],
    pub one: Side,
    pub other: Side,
    /// The frames that were compared, and the digits that differ in them.
    pub frames: u64,
    pub differ: u64,
    /// The numbers of the frames that are drawn.
    pub drawn: &'a [u64],
    /// Of all digits that differ, by kind and tributary: words, remote alarm, service; then of
    /// tributaries 1 to 4 control, justification and ordinary digits.
    pub words: u64,
    pub alarms: u64,
    pub services: u64,
    pub tributaries: [[u64; 3]; 4],
    /// What differs in the frames that are drawn, in order.
    pub stretches: &'a [Stretch],
}

/// The left edge of the places, and the upper edge of the first frame.
const LEFT: u64 = 60;
const TOP: u64 = 214;

/// The most frames of a picture.
pub const MOST_DRAWN: usize = 64;

const STYLE: &str = ".s0{color:#000}.s5{color:#595959}.s1{color:#0072b2}.s2{color:#c24e00}.s3{color:#00704f}.s4{color:#a02c92}\
path{stroke:currentColor;fill:none}rect{fill:currentColor}.b{color:#f3f3f3}.d{color:#e0e0e0}.h{font-size:16px}\
.p{fill:#555;font-size:10px}.e{text-anchor:end}.n{font-weight:600}.t{color:#555}";

pub fn draw(of: &Comparison<'_>) -> String {
    let set = (of.places.len() as u64 / of.sets.max(1)).max(1);
    let wide = if set < 240 { 4 } else { 2 };
    let drawn = of.drawn.len() as u64;
    let high = match drawn * of.sets {
        0..=40 => 8,
        41..=128 => 4,
        _ => 2,
    };
    let block = high * of.sets + 4;
    let height = TOP + 16 + block * drawn;
    let title = format!(
        "Level {}, {} kbit/s: where two recordings differ",
        of.level.number(),
        of.level.kilobits()
    );
    let style = format!("{STYLE}.w{{stroke-width:{high}}}");
    let mut svg = Svg::new(1064, height, &title, &style);
    head(&mut svg, of, &title);
    ruler(&mut svg, set, wide);
    for (k, number) in (0..).zip(of.drawn) {
        let y = TOP + block * k;
        svg.text("p e", LEFT - 4, y + 8, &number.to_string());
        shape(&mut svg, of, set, wide, high, y);
        for class in 0..6 {
            let path = marks(of, set, wide, high, y, *number, class);
            svg.path(&format!("w s{class}"), &path);
        }
    }
    svg.end()
}

fn head(svg: &mut Svg, of: &Comparison<'_>, title: &str) {
    svg.text("h", 12, 26, title);
    let side = |side: &Side| match &side.label {
        Some(label) => format!("{} \u{201c}{label}\u{201d}", side.name),
        None => side.name.clone(),
    };
    let share = of.differ as f64 / (of.frames * of.places.len() as u64).max(1) as f64;
    let cut = match of.drawn {
        _ if all_drawn(of) => String::new(),
        [first, .., last] if last - first < of.drawn.len() as u64 => {
            format!("; drawn are frames {first} to {last}")
        }
        some => format!("; drawn are the first {}", some.len()),
    };
    svg.text("", 12, 48, &format!("one: {}", side(&of.one)));
    svg.text("", 12, 66, &format!("other: {}", side(&of.other)));
    svg.text(
        "",
        12,
        84,
        &format!(
            "{} of {} frames differ: {} digits, {share:.2e} of all{cut}",
            differing(of),
            of.frames,
            of.differ
        ),
    );
    entry(svg, 12, 98, "s0", &format!("alignment word {}", of.words));
    let service = format!("remote alarm {}, other service {}", of.alarms, of.services);
    entry(svg, 192, 98, "s5", &service);
    for (k, sums) in of.tributaries.iter().enumerate() {
        let [control, justification, ordinary] = sums;
        let words = format!(
            "tributary {}: {} (control {control}, justification {justification}, ordinary {ordinary})",
            k + 1,
            control + justification + ordinary
        );
        let (x, y) = (12 + 520 * (k as u64 % 2), 118 + 20 * (k as u64 / 2));
        entry(svg, x, y, &format!("s{}", k + 1), &words);
    }
    svg.rect("b", [12, 158, 12, 12]);
    svg.text("p", 30, 168, "a frame's sets, one under the other, places from left to right; digits that are equal are not drawn");
    svg.rect("d", [600, 158, 12, 12]);
    svg.text("p", 618, 168, "heads of the sets: word, control and justification places");
}

/// In how many of the drawn frames something differs, or of all where all are drawn.
fn differing(of: &Comparison<'_>) -> String {
    let mut frames: Vec<u64> = of.stretches.iter().map(|stretch| stretch.frame).collect();
    frames.dedup();
    match all_drawn(of) {
        false => format!("at least {}", frames.len()),
        true => frames.len().to_string(),
    }
}

/// Whether every frame that was compared is drawn.
fn all_drawn(of: &Comparison<'_>) -> bool {
    of.drawn.len() as u64 == of.frames
}

fn entry(svg: &mut Svg, x: u64, y: u64, class: &str, words: &str) {
    svg.rect(class, [x, y, 12, 12]);
    svg.text("", x + 18, y + 11, words);
}

/// The places of a set, fifty at a time.
fn ruler(svg: &mut Svg, set: u64, wide: u64) {
    svg.text("p e", LEFT - 4, 190, "place");
    svg.text("p e", LEFT - 4, 206, "frame");
    for place in (0..set).step_by(50) {
        let x = LEFT + place * wide;
        svg.text("p", x, 190, &place.to_string());
        svg.path("t", &format!("M{x} 194v8"));
    }
}

/// A frame without digits: its sets, and their heads darker.
fn shape(svg: &mut Svg, of: &Comparison<'_>, set: u64, wide: u64, high: u64, y: u64) {
    svg.rect("b", [LEFT, y, set * wide, high * of.sets]);
    let size = usize::try_from(set).unwrap_or(1);
    for (k, places) in of.places.chunks(size).enumerate() {
        let head = places.iter().take_while(|place| place.kind != Kind::Ordinary).count() as u64;
        svg.rect("d", [LEFT, y + high * k as u64, head * wide, high]);
    }
}

/// The class of a place: its tributary, or 0 for the word and 5 for service.
fn class_of(place: &Place) -> u64 {
    match place.kind {
        Kind::Word => 0,
        Kind::RemoteAlarm | Kind::Service => 5,
        _ => place.tributary,
    }
}

/// The digits of one class that differ in a frame, each run of them a stroke along the middle of its set.
fn marks(
    of: &Comparison<'_>,
    set: u64,
    wide: u64,
    high: u64,
    y: u64,
    frame: u64,
    class: u64,
) -> String {
    let mut path = String::new();
    for stretch in of.stretches.iter().filter(|stretch| stretch.frame == frame) {
        let mut run: Option<(u64, u64)> = None;
        for place in stretch.place..stretch.place.saturating_add(stretch.count) {
            let at = usize::try_from(place).ok().and_then(|at| of.places.get(at));
            let drawn = at.map_or(false, |at| class_of(at) == class);
            run = match run {
                Some((first, next)) if drawn && next == place && place % set != 0 => {
                    Some((first, place + 1))
                }
                other => {
                    stroke(&mut path, other, set, wide, high, y);
                    drawn.then_some((place, place + 1))
                }
            };
        }
        stroke(&mut path, run, set, wide, high, y);
    }
    path
}

fn stroke(path: &mut String, run: Option<(u64, u64)>, set: u64, wide: u64, high: u64, y: u64) {
    if let Some((first, next)) = run {
        let x = LEFT + first % set * wide;
        let middle = y + high * (first / set) + high / 2;
        let _ = write!(path, "M{x} {middle}h{}", (next - first) * wide);
    }
}

#[cfg(test)]
mod tests {
    use super::super::contrast;
    use super::*;

    fn places() -> Vec<Place> {
        let place = |at: u64| Place {
            kind: match (at / 212, at % 212) {
                (0, 0..=9) => Kind::Word,
                (0, 10) => Kind::RemoteAlarm,
                (0, 11) => Kind::Service,
                (_, 0..=3) => Kind::Control,
                (3, 4..=7) => Kind::Justification,
                _ => Kind::Ordinary,
            },
            tributary: at % 4 + 1,
        };
        (0..848).map(place).collect()
    }

    fn drawn(stretches: &[Stretch]) -> String {
        let places = places();
        draw(&Comparison {
            level: Level::Two,
            sets: 4,
            places: &places,
            one: Side { name: "here.capture".into(), label: Some("Hop A".into()) },
            other: Side { name: "<there>".into(), label: None },
            frames: 8,
            differ: 4,
            drawn: &[0, 1, 2, 3, 4, 5, 6, 7],
            words: 0,
            alarms: 0,
            services: 0,
            tributaries: [[0, 0, 0], [1, 1, 2], [0, 0, 0], [0, 0, 0]],
            stretches,
        })
    }

    #[test]
    fn a_slipped_tributary_has_one_colour() {
        let at = |frame, place| Stretch { frame, place, count: 1 };
        let picture = drawn(&[at(3, 213), at(3, 641), at(3, 645), at(4, 13)]);
        assert_eq!(picture.matches("class=\"w s2\"").count(), 2);
        assert!(!picture.contains("class=\"w s1\"") && !picture.contains("class=\"w s3\""));
        assert!(picture.contains("tributary 2: 4 (control 1, justification 1, ordinary 2)"));
        assert!(
            picture.contains("here.capture \u{201c}Hop A\u{201d}")
                && picture.contains("&lt;there&gt;")
        );
        assert!(picture.contains("2 of 8 frames differ"));
    }

    #[test]
    fn a_stretch_is_drawn_in_the_colours_of_its_places() {
        let picture = drawn(&[Stretch { frame: 0, place: 210, count: 8 }]);
        for class in 1..=4 {
            let strokes = picture.split(&format!("class=\"w s{class}\" d=\"")).nth(1);
            let strokes = strokes.and_then(|rest| rest.split('"').next()).unwrap();
            assert_eq!(strokes.matches('M').count(), 2, "{strokes}");
        }
    }

    #[test]
    fn every_colour_stands_off_its_ground() {
        for colour in ["000000", "595959", "0072b2", "c24e00", "00704f", "a02c92"] {
            for ground in ["f3f3f3", "e0e0e0"] {
                assert!(contrast::of(colour, ground) >= 3.0, "{colour} on {ground}");
            }
        }
    }
}

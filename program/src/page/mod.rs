//! The verdict on a recording as one page for people who were not there: the answer in words, what it
//! is of, the numbers, the drawings, and what stands behind it. The page has no script and loads
//! nothing; it is made of what a [`Page`] holds and of nothing else.

mod drawings;
mod figures;
mod style;

use std::fmt::Write as _;

use spritbobbin::Level;

use crate::pictures::svg::escaped;
use crate::times::time;
use crate::verdict::clock::{Clock, Kept};
use crate::verdict::numbers::{grouped, ppm, ratio, so_many, tenths};
use crate::verdict::timeline::Timeline;
use crate::verdict::words::{Answer, Known};
use crate::verdict::{Against, Finding, Reading, READINGS};

/// A file that the verdict is of, with what tells it from any other.
#[derive(Clone, Debug, PartialEq, Eq)]
pub struct Named {
    /// What it is: the recording, what was sent.
    pub role: &'static str,
    /// Its name, so that it can be shown.
    pub name: String,
    pub bytes: u64,
    /// Its SHA-256 in hexadecimal digits.
    pub sha256: String,
}

/// A run of frames without a gap.
#[derive(Clone, Debug, PartialEq, Eq)]
pub struct Stretch {
    /// The digit of the recording at which it begins.
    pub digit: u64,
    pub frames: u64,
    /// Where it begins in what was sent, for each tributary, where that was looked for.
    pub begins: Option<[u64; 4]>,
    /// What its tributaries say, in short.
    pub found: [&'static str; 4],
}

/// All that the page says.
pub struct Page<'a> {
    pub level: Level,
    pub label: Option<String>,
    pub files: Vec<Named>,
    /// The day on which the page is written, and what wrote it.
    pub date: String,
    pub version: String,
    pub against: Against,
    pub answer: Answer,
    pub known: Vec<Known<'a>>,
    pub clocks: Vec<Clock>,
    pub timeline: &'a Timeline,
    /// Empty where the recording was taken as whole frames from its first digit on.
    pub stretches: Vec<Stretch>,
}

/// The page.
pub fn html(page: &Page<'_>) -> String {
    let mut out = style::head(&title(page), drawings::longest_label(page));
    out.push_str("<body>\n<main>\n");
    out.push_str(&top(page));
    out.push_str(&figures::tables(page));
    out.push_str(&stretches(page));
    for (known, clock) in page.known.iter().zip(&page.clocks) {
        out.push_str(&section(page, known, clock));
    }
    out.push_str(&behind(page));
    out.push_str("</main>\n</body>\n</html>\n");
    out
}

fn title(page: &Page<'_>) -> String {
    let of = page.files.first().map_or("", |file| file.name.as_str());
    let head = page.answer.head.trim_end_matches('.');
    match &page.label {
        Some(label) => format!("{head} - {label}, {of}"),
        None => format!("{head} - {of}"),
    }
}

/// The first screen: the answer, what it means, and what it is of.
fn top(page: &Page<'_>) -> String {
    let answer = &page.answer;
    let mut out = String::from("<header>\n");
    if let Some(label) = &page.label {
        let _ = writeln!(out, "<p class=\"site\">{}</p>", escaped(label));
    }
    let _ = writeln!(out, "<p class=\"asked\">Did the clock move, or the frame index?</p>");
    let _ = writeln!(out, "<h1 class=\"{}\">{}</h1>", answer.class, escaped(&answer.head));
    let _ = writeln!(out, "<p class=\"sum\">{}</p>", escaped(answer.meaning));
    let _ = writeln!(out, "<p>{}</p>", escaped(&answer.more.join(" ")));
    let _ = writeln!(out, "<p class=\"soft\">{}</p>", opening(page));
    out.push_str("</header>\n");
    out
}

/// What was held against what.
fn opening(page: &Page<'_>) -> String {
    let of = page.files.first().map_or("", |file| file.name.as_str());
    let frames = page.timeline.frames();
    let digits = frames.saturating_mul(page.level.frame_digits() as u64);
    format!(
        "Level {}, {} kbit/s: {} ({}) of <b>{}</b>, each tributary read by the decision of its own \
         frame, of the frame before and of the frame after, and held against {}. {}.",
        page.level.number(),
        page.level.kilobits(),
        so_many(frames, "frame"),
        time(page.level.kilobits(), digits),
        escaped(of),
        against(&page.against),
        escaped(&page.date)
    )
}

fn against(against: &Against) -> String {
    match against {
        Against::Digits(name) => format!("<b>{}</b>", escaped(name)),
        Against::Pattern(stages) => {
            format!("the test pattern of 2<sup>{stages}</sup> - 1 digits, inverted (O.150)")
        }
    }
}

/// The stretches of a recording that was begun anywhere, where there is more to say than one.
fn stretches(page: &Page<'_>) -> String {
    if page.stretches.is_empty() {
        return String::new();
    }
    let mut out = String::from("<section>\n<h2>Stretches of frames</h2>\n");
    let gaps = page.stretches.len() as u64 - 1;
    let _ = writeln!(
        out,
        "<p>The frames were found in the recording first. {} Digits are numbered from 0.</p>",
        match gaps {
            0 => "There is no gap between them.".into(),
            1 => "There is one gap; each stretch was judged on its own.".into(),
            gaps =>
                format!("There are {}; each stretch was judged on its own.", so_many(gaps, "gap")),
        }
    );
    let begins = page.stretches.iter().any(|stretch| stretch.begins.is_some());
    out.push_str("<table class=\"stretches\">\n<tr><th>frames</th><th>from digit</th>");
    if begins {
        out.push_str("<th>begins in what was sent at</th>");
    }
    out.push_str("<th>tributaries 1 to 4</th></tr>\n");
    for stretch in page.stretches.iter().take(MOST_STRETCHES) {
        let _ = write!(
            out,
            "<tr><td>{}</td><td>{}</td>",
            grouped(stretch.frames),
            grouped(stretch.digit)
        );
        if begins {
            let at = stretch.begins.map(|at| at.map(grouped).join(", ")).unwrap_or_default();
            let _ = write!(out, "<td>{at}</td>");
        }
        let _ = writeln!(out, "<td>{}</td></tr>", stretch.found.join(", "));
    }
    out.push_str("</table>\n");
    let more = page.stretches.len().saturating_sub(MOST_STRETCHES);
    if more > 0 {
        let _ = writeln!(out, "<p class=\"soft\">And {} more.</p>", grouped(more as u64));
    }
    out.push_str("</section>\n");
    out
}

/// The most stretches in the page's table.
const MOST_STRETCHES: usize = 40;

/// One tributary: the sentence, its clock, and the drawings.
fn section(page: &Page<'_>, known: &Known<'_>, clock: &Clock) -> String {
    let mut out = String::from("<section>\n");
    let _ = writeln!(out, "<h2>Tributary {}</h2>", known.number + 1);
    let _ = writeln!(
        out,
        "<p><b class=\"{}\">{}</b>{}</p>",
        class(known),
        escaped(&capital(&known.head())),
        escaped(&known.rest())
    );
    let _ = writeln!(out, "<p>Its clock: {}</p>", escaped(&clock.text()));
    if page.timeline.frames() > 0 {
        out.push_str(&drawings::readings(page, known));
        out.push_str(&drawings::decisions(page, known));
        out.push_str(&drawings::rate(page, clock));
    }
    out.push_str("</section>\n");
    out
}

/// What the colour of a verdict says.
fn class(known: &Known<'_>) -> &'static str {
    if known.finding.is_open() && known.clock_slips() == 0 {
        return "open";
    }
    match known.finding {
        Finding::Right if known.clock_slips() == 0 => "right",
        _ => "wrong",
    }
}

/// A sentence's first letter as one begins a sentence.
fn capital(text: &str) -> String {
    let mut letters = text.chars();
    match letters.next() {
        Some(first) => first.to_uppercase().chain(letters).collect(),
        None => String::new(),
    }
}

/// The files, and what is proved and what is not.
fn behind(page: &Page<'_>) -> String {
    let mut out = String::from("<section>\n<h2>What this is of</h2>\n<dl>\n");
    for file in &page.files {
        let _ = writeln!(
            out,
            "<dt>{}</dt><dd><b>{}</b>, {}<br>SHA-256 <code>{}</code></dd>",
            file.role,
            escaped(&file.name),
            so_many(file.bytes, "byte"),
            figures::in_groups(&file.sha256)
        );
    }
    if let Against::Pattern(stages) = page.against {
        let _ = writeln!(
            out,
            "<dt>sent</dt><dd>the test pattern of 2<sup>{stages}</sup> - 1 digits, inverted, as O.150 \
             defines it, from whichever digit on</dd>"
        );
    }
    let _ = writeln!(
        out,
        "<dt>written</dt><dd>{} by spritbobbin {}</dd>\n</dl>\n</section>",
        escaped(&page.date),
        escaped(&page.version)
    );
    out.push_str("<section>\n<h2>How to read it</h2>\n");
    for text in READ {
        let _ = writeln!(out, "<p>{text}</p>");
    }
    out.push_str("</section>\n<section>\n<h2>What is proved</h2>\n");
    for text in PROVED {
        let _ = writeln!(out, "<p>{text}</p>");
    }
    out.push_str("</section>\n");
    out
}

/// What a reader has to know.
const READ: [&str; 3] = [
    "A multiplexer says in each frame, by its control digits, whether each of its four tributaries has \
     a digit more or less there. One that acts on its own frame's decision is right; one that acts on \
     the decision of the frame before is late, on that of the frame after early. So each tributary is \
     taken out of the line in these three ways, and each reading is held against what was sent.",
    "A reading is explained by wrong digits and by slips. A slip is a digit that is lost or doubled; it \
     counts as much as 16 wrong digits, so that no burst of errors is taken for one. Of all \
     explanations the cheapest is given, and the reading whose explanation is cheapest decides. A \
     multiplexer that is read in the wrong way slips at nearly every change of its decisions; a clock \
     that slipped does so once, in every reading.",
    "A slip at the place of a justification digit, in a frame whose control digits did not all agree, \
     is called a wrong vote: there the line spoilt the decision, and no clock moved.",
];

/// What the theorems say, sentence by sentence, and what they do not.
const PROVED: [&str; 5] = [
    "Of the library that judged this recording it is proved, for every line and all digits, that no \
     explanation of a reading costs less than the one given, and that none of those that cost as much has \
     fewer slips. An explanation gives each digit a shift, begins at shift 0, and stays within eight \
     digits of the middle of each frame, which follows the best one from frame to frame.",
    "It is proved of a right multiplexer: where k digits of a tributary were lost or doubled before it, by \
     shifts that stay so, and where the line was damaged in fewer than half of each of the tributary's \
     groups of control digits, in e of the digits that it carries of the tributary, and anywhere else, then \
     the reading by its own frames costs at most e + 16 k. The same is proved of a late multiplexer and the \
     frame before, and of an early one and the frame after. So whoever says that a right multiplexer made \
     this line must believe in as much damage as its own frame's reading costs.",
    "It is proved that a reading costs nothing exactly where every digit of it is the one sent of its own \
     number.",
    "It is proved that where a tributary's decision is the same in every frame, and at the levels with \
     negative justification in the vote before the recording too, neither of the other two readings costs \
     more than that by its own frames; and that the frames of a recording given to the library in turn are \
     judged as if they had been given at once.",
    "Not proved, but computed by ordinary means from what the library answered: the choice of the cheapest \
     reading, what is called a wrong vote, sums over several stretches, times, rates, ratios, the drawings \
     and this page.",
];

fn reading_name(reading: Reading) -> &'static str {
    match reading {
        Reading::Own => "own frame",
        Reading::Before => "frame before",
        Reading::After => "frame after",
    }
}

/// A verdict in a word or two.
pub fn short(known: &Known<'_>) -> String {
    let slips = known.clock_slips() > 0;
    let text = match known.finding {
        Finding::Right if slips => "clock slipped",
        Finding::Right => "right",
        Finding::Late => "index late",
        Finding::Early => "index early",
        Finding::LateOrEarly => "index late or early",
        Finding::NotThere(_) => "pattern not there",
        Finding::Unlike => "not what was sent",
        _ if slips => "clock slipped",
        Finding::Ones => "all ones",
        _ => "cannot be told",
    };
    match slips && known.finding.is_index() {
        true => format!("{text}, clock slipped"),
        false => text.into(),
    }
}

/// A clock in a few words.
fn clock_words(clock: &Clock) -> (&'static str, String) {
    if clock.frames == 0 {
        return ("open", "no frames".into());
    }
    match clock.kept() {
        Kept::Within => ("right", "within its tolerance".into()),
        Kept::Outside => ("wrong", "left its tolerance".into()),
        Kept::Open => ("open", format!("give or take {} ppm", tenths(clock.one_digit))),
    }
}

/// What a reading takes, for the tables.
fn takes(known: &Known<'_>, reading: Reading) -> String {
    let read = known.of.reading(reading);
    if read.judged() == 0 && read.digits > 0 {
        return "-".into();
    }
    let wrong = match read.wrong {
        0 => "0 wrong".into(),
        wrong => format!("{} wrong <small>{}</small>", grouped(wrong), ratio(wrong, read.judged())),
    };
    format!("{wrong}<br>{}", so_many(read.slips, "slip"))
}

/// The rate's column.
fn off(clock: &Clock) -> String {
    match clock.frames {
        0 => "-".into(),
        _ => ppm(clock.off),
    }
}

/// Every reading, in the order of the columns.
fn columns() -> impl Iterator<Item = Reading> {
    READINGS.into_iter()
}

/// Today, in UTC; or the day of SOURCE_DATE_EPOCH, so that a page can be made again.
pub fn today() -> String {
    let set = std::env::var("SOURCE_DATE_EPOCH").ok().and_then(|text| text.parse::<u64>().ok());
    let now = std::time::SystemTime::now().duration_since(std::time::UNIX_EPOCH);
    let seconds = set.unwrap_or_else(|| now.map_or(0, |now| now.as_secs()));
    day(seconds / 86_400)
}

/// The date of a day, counted from 1 January 1970.
fn day(mut left: u64) -> String {
    let leap = |year: u64| year % 4 == 0 && (year % 100 != 0 || year % 400 == 0);
    let mut year = 1970;
    while year < 10_000 {
        let days = if leap(year) { 366 } else { 365 };
        if left < days {
            break;
        }
        left -= days;
        year += 1;
    }
    let february = if leap(year) { 29 } else { 28 };
    let months = [31, february, 31, 30, 31, 30, 31, 31, 30, 31, 30, 31];
    let mut month = 1;
    for days in months {
        if left < days {
            break;
        }
        left -= days;
        month += 1;
    }
    format!("{year}-{month:02}-{:02}", left + 1)
}

#[cfg(test)]
mod tests {
    use super::*;

    #[test]
    fn days_have_their_dates() {
        assert_eq!(day(0), "1970-01-01");
        assert_eq!(day(59), "1970-03-01");
        assert_eq!(day(11_016), "2000-02-29");
        assert_eq!(day(20_774), "2026-11-17");
    }
}

//! Cases of judge with a page. The bytes of a page are left to the program, but what it says of each
//! tributary and how much is drawn are worked out here.

use crate::case::{at, words, Case, Page, OLD};
use crate::inputs::level;
use crate::judging::{
    captured, clocked, grouped, line_rate, so_many_frames, time, Told, Trial, Verdict,
};
use crate::texts::{cannot, written, written_over};
use reference::judging::Reading;

const PAGE: &str = "page.html";

pub fn cases() -> Vec<Case> {
    let mut cases = Vec::new();
    for (number, frames, reading, stages) in [
        (2, 0, Reading::Own, 0),
        (2, 1, Reading::Own, 0),
        (2, 8, Reading::Before, 0),
        (2, 70, Reading::After, 0),
        (3, 65, Reading::Before, 23),
        (4, 64, Reading::Own, 15),
        (12, 130, Reading::Before, 0),
        (14, 9, Reading::After, 15),
    ] {
        let trial = Trial::new(level(number), frames, reading, stages, 900 + number);
        cases.push(paged(&trial, &format!("{frames}-frames")));
    }
    cases.push(paged(&Trial::new(level(12), 20, Reading::Before, 0, 910).after(5), "vote"));
    for (number, frames) in [(2, 1500), (12, 700)] {
        cases.push(paged(&clocked(number, frames), &format!("clocks-{frames}-frames")));
    }
    cases.extend(of_captures());
    cases.push(named());
    cases.extend(failing());
    cases
}

fn paged(trial: &Trial, name: &str) -> Case {
    let command = format!("judge {} line {} --page {PAGE}", at(&trial.level), trial.sent());
    trial
        .case(&format!("page-{name}"))
        .accepted(words(&command), &(trial.text() + &written(&[PAGE])))
        .shows(page(trial, "line", "sent", None))
}

/// With a vote before the capture and without one; an older page gives way.
fn of_captures() -> Vec<Case> {
    let mut cases = Vec::new();
    for (number, vote, earlier) in [(2, "", 0), (14, ":a", 10), (3, ":F", 0)] {
        let mut trial = Trial::new(level(number), 12, Reading::Before, 0, 920 + number);
        trial.earlier = earlier;
        let command = words(&format!("judge {} capture sent --page {PAGE}", at(vote)));
        let text = format!("label: \"site 7\"\n{}", trial.text());
        cases.push(
            Case::new(&format!("judge-page-of-capture-{number}"))
                .file("capture", &captured(&trial))
                .file("sent", &trial.buffer)
                .had(PAGE, OLD)
                .accepted(command, &(text + &written(&[PAGE])))
                .shows(page(&trial, "capture", "sent", Some("site 7"))),
        );
    }
    cases
}

/// Names that a browser would take for something else, and a label that is said.
fn named() -> Case {
    let trial = Trial::new(level(2), 3, Reading::Before, 0, 930);
    let (line, sent) = ("<script>&lt;", "a\"b'&amp;<b>.html");
    let said = trial.text().replace("against sent.", &format!("against {sent}."));
    let label = "Hop <A> & \u{e9}";
    let said = format!("label: \"{label}\"\n{said}");
    let command = ["judge", "-l", "2", line, sent, "--page", PAGE, "--label", label];
    Case::new("judge-page-of-odd-names")
        .file(line, &trial.line)
        .file(sent, &trial.buffer)
        .accepted(command.map(String::from).to_vec(), &(said + &written(&[PAGE])))
        .shows(page(&trial, line, sent, Some(label)))
}

/// A page that cannot be written; and one by the name of a file that is read, which would be lost.
fn failing() -> Vec<Case> {
    let trial = Trial::new(level(2), 2, Reading::Own, 0, 940);
    let given = |name: &str| trial.case(name);
    let over = |name: &str, command: &str, path: &str, input: &str| {
        let line = written_over("FILE.html", path, input);
        given(name)
            .file("line.html", &trial.line)
            .file("sent.html", &trial.buffer)
            .file("capture.html", &captured(&trial))
            .fails(words(command), &line)
    };
    vec![
        given("page-in-no-folder").fails(
            words("judge -l 2 line sent --page none/page.html"),
            &cannot("none/page.html", "written"),
        ),
        given("page-is-a-folder")
            .folder(PAGE)
            .fails(words("judge -l 2 line sent --page page.html"), &cannot(PAGE, "written")),
        given("page-no-line-older-page")
            .file(PAGE, OLD)
            .fails(words("judge -l 2 none sent --page page.html"), &cannot("none", "opened")),
        given("page-no-sent-older-page")
            .file(PAGE, OLD)
            .fails(words("judge -l 2 line none --page page.html"), &cannot("none", "opened")),
        over(
            "page-by-the-lines-name",
            "judge -l 2 line.html sent --page line.html",
            "line.html",
            "LINE",
        ),
        over(
            "page-by-the-name-of-what-was-sent",
            "judge -l 2 line sent.html --page ./sent.html",
            "./sent.html",
            "SENT",
        ),
        over(
            "page-by-the-captures-name",
            "judge capture.html sent --page capture.html",
            "capture.html",
            "LINE",
        ),
    ]
}

/// What the page must say, by the names of the line and of what was sent, and how many of which things
/// are drawn.
fn page(trial: &Trial, line: &str, sent: &str, label: Option<&str>) -> Page {
    let told = trial.told();
    let mut texts = vec![trial.answer_head(&told), opening(trial, line, sent)];
    texts.extend(label.map(|label| format!("{label} Did the clock move, or the frame index?")));
    texts.extend([0, 1, 2, 3].map(|j| row(trial, &told, j)));
    texts.extend([0, 1, 2, 3].map(|j| section(trial, &told, j)));
    texts.push(format!(
        "recording {line}, {} byte",
        grouped(file_bytes(trial, label.is_some(), line))
    ));
    Page { path: PAGE.into(), counts: drawn(trial, &told), texts }
}

fn file_bytes(trial: &Trial, labelled: bool, line: &str) -> usize {
    match labelled && line == "capture" {
        true => captured(trial).len(),
        false => trial.line.len(),
    }
}

fn opening(trial: &Trial, line: &str, sent: &str) -> String {
    let against = match trial.stages {
        0 => sent.into(),
        stages => format!("the test pattern of 2{stages} - 1 digits, inverted (O.150)"),
    };
    format!(
        "Level {}, {} kbit/s: {} ({}) of {line}, each tributary read by the decision of its own frame, \
         of the frame before and of the frame after, and held against {against}.",
        trial.row.level,
        line_rate(trial.row),
        so_many_frames(trial.frames()),
        time(trial.row, trial.frames())
    )
}

/// A row of the table: the verdict in short, and what each reading takes.
fn row(trial: &Trial, told: &Told, j: usize) -> String {
    let takes = |reading: usize| told.takes(j, reading);
    format!("{} {} {} {} {}", j + 1, trial.short(told, j), takes(0), takes(1), takes(2))
}

fn section(trial: &Trial, told: &Told, j: usize) -> String {
    let head = trial.head(told, j);
    let capital = head[..1].to_uppercase() + &head[1..];
    format!("Tributary {} {capital}{} Its clock: {}", j + 1, trial.rest(told, j), trial.clock(j))
}

/// How many drawings and marks the page has.
fn drawn(trial: &Trial, told: &Told) -> Vec<(&'static str, usize)> {
    let frames = trial.frames();
    let rates = if frames >= 512 { 4 } else { 0 };
    let outside = (0..4).filter(|j| rates > 0 && trial.left_parts(*j)).count();
    let some = usize::from(frames > 0);
    let is_told = |j: &usize| {
        matches!(trial.verdict(told, *j), Verdict::Right | Verdict::Late | Verdict::Early)
    };
    let told = (0..4).filter(is_told).count();
    vec![
        ("svg", some * 28 + rates),
        ("figure", some * 8 + rates),
        ("section", 8),
        ("rates", rates),
        // The mark in the caption, and the steps.
        ("out", 2 * outside),
        // In the table, and beside the drawing.
        ("best", (1 + some) * told),
    ]
}

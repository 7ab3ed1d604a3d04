//! `judge [-l LEVEL] LINE (SENT | --pattern 15|23)`: did the clock move, or the frame index? The
//! recording is held against what was sent by the library's pair of calls, and what it answers is said
//! and, where it is asked for, written as a page.

use std::path::Path;

use serde::Serialize;
use sha2::{Digest, Sha256};
use spritbobbin::{capture_bytes, write_capture, Level};

use crate::cli::Judge;
use crate::failure::Failure;
use crate::files::{self, Input, Output, Stream, CHUNK};
use crate::level;
use crate::page::{self, Named, Page};
use crate::progress::Progress;
use crate::report::{quoted, shown, written, Report, Saying};
use crate::runs::Line;
use crate::times::time;
use crate::verdict::clock::Clock;
use crate::verdict::engine::{Engine, Judged};
use crate::verdict::finding::{Finding, Stretch};
use crate::verdict::numbers::{grouped, ratio, so_many};
use crate::verdict::sent::SentFile;
use crate::verdict::slips::Slip;
use crate::verdict::words::{answer, Answer, Known};
use crate::verdict::{Against, Read, Reading, READINGS};

pub fn run(call: Judge, mut saying: Saying) -> Result<u8, Failure> {
    let mut inputs = vec![("LINE", call.line.as_path())];
    inputs.extend(call.sent.as_deref().map(|sent| ("SENT", sent)));
    let outputs: Vec<(&str, &Path)> =
        call.page.as_deref().map(|page| ("FILE.html", page)).into_iter().collect();
    files::distinct(&inputs, &outputs)?;
    saying.aside = call.page.as_deref().map_or(false, |page| files::any_standard(&[page]));
    let recording = match call.finding.find {
        true => found(&call, &saying)?,
        false => whole(&call, &saying)?,
    };
    let mut verdict = Verdict::of(&call, recording);
    if let Some(name) = &call.page {
        let output = Output::create(name)?;
        output.write_at(0, verdict.page().as_bytes())?;
        verdict.written = files::keep(vec![output])?;
    }
    let report = verdict.report();
    saying.say(&report)?;
    Ok(u8::from(call.check && !report.ok))
}

/// A recording that was judged.
struct Recording {
    level: Level,
    label: Option<Vec<u8>>,
    files: Vec<Named>,
    engine: Engine,
    /// Where it was begun anywhere: its stretches, and its digits.
    found: Option<(Vec<Stretch>, u64)>,
}

/// The stages of the pattern that a call names, or 0.
fn stages(call: &Judge) -> Result<u64, Failure> {
    match call.pattern.as_deref() {
        None => Ok(0),
        Some("15") => Ok(15),
        Some("23") => Ok(23),
        Some(word) => Err(Failure::refused(
            13,
            format!("no pattern {}; --pattern is 15 or 23.", shown(word.as_ref())),
        )),
    }
}

/// Whole frames from the first digit on.
fn whole(call: &Judge, saying: &Saying) -> Result<Recording, Failure> {
    if let Some(word) = &call.of.level {
        level::level(word)?;
    }
    let stages = stages(call)?;
    let line = Line::open(&call.line, call.of.level.as_deref(), call.after.earlier.as_deref())?;
    let sent = match &call.sent {
        Some(sent) => Some(room_for(sent, line.level, line.frames)?),
        None => None,
    };
    let mut engine = Engine::new(line.level, line.earlier, stages, sent)?;
    line.runs(*saying, |run| engine.push(run.line))?;
    engine.end()?;
    let mut files = Vec::new();
    if call.page.is_some() || saying.json {
        files.push(Named { role: "recording", name: shown(&line.name), ..of_line(&line)? });
        files.extend(of_sent(&engine)?);
    }
    Ok(Recording { level: line.level, label: line.label.clone(), files, engine, found: None })
}

/// What was sent, which must have room for every reading of so many frames.
fn room_for(name: &Path, level: Level, frames: u64) -> Result<SentFile, Failure> {
    let input = Input::open(name)?;
    let wanted = spritbobbin::span(0, frames.saturating_mul(level.room_digits() as u64)).bytes.end;
    let (bytes, quarter) = (input.bytes(), input.bytes() / 4);
    if bytes % 4 != 0 && frames == 0 {
        let name = shown(name);
        return Err(Failure::refused(
            4,
            format!("{name} has {bytes} bytes, no four equal quarters."),
        ));
    }
    if bytes % 4 != 0 || quarter < wanted {
        return Err(Failure::refused(
            4,
            format!(
                "{} has {bytes} bytes, and {frames} frames of {level} want four equal quarters of \
                 {wanted} bytes or more.",
                shown(name)
            ),
        ));
    }
    Ok(SentFile::new(input))
}

/// A recording begun anywhere: its frames are found first.
fn found(call: &Judge, saying: &Saying) -> Result<Recording, Failure> {
    let word = call.of.level.as_deref().ok_or_else(|| {
        Failure::Call("--find wants --level: a recording does not say its own.".into())
    })?;
    let level = level::level(word)?;
    let stages = stages(call)?;
    let earlier = match &call.after.earlier {
        Some(word) => Some(level::earlier(level, Some(word))?),
        None => None,
    };
    let mut stream = Stream::open(&call.line)?;
    let sent = match &call.sent {
        Some(sent) => Some(room_for(sent, level, 0)?),
        None => None,
    };
    let mut engine = Engine::new(level, 0, stages, sent)?;
    let mut finding = Finding::new(level, earlier);
    let progress = Progress::of(stream.bytes(), *saying);
    let named = call.page.is_some() || saying.json;
    let (mut hash, mut bytes) = (Sha256::new(), 0_u64);
    let mut chunk = vec![0; CHUNK];
    loop {
        let count = stream.read(&mut chunk)?;
        let piece = chunk.get(..count).unwrap_or_default();
        if piece.is_empty() {
            break;
        }
        if named {
            hash.update(piece);
        }
        bytes = bytes.saturating_add(count as u64);
        finding.feed(piece, &mut engine)?;
        progress.at(bytes);
    }
    finding.end(&mut engine)?;
    let mut files = Vec::new();
    if named {
        let sha256 = hexadecimal(hash);
        files.push(Named { role: "recording", name: shown(&call.line), bytes, sha256 });
        files.extend(of_sent(&engine)?);
    }
    let found = Some((finding.stretches, finding.taken));
    Ok(Recording { level, label: None, files, engine, found })
}

fn hexadecimal(hash: Sha256) -> String {
    hash.finalize().iter().map(|byte| format!("{byte:02x}")).collect()
}

/// For a second look at a file, of which nothing is said.
const QUIET: Saying = Saying { json: false, quiet: true, aside: false };

/// The file of a line: its length, and its hash.
fn of_line(line: &Line) -> Result<Named, Failure> {
    let mut hash = Sha256::new();
    let mut bytes = 0_u64;
    if line.captured {
        let mut all = Vec::new();
        line.runs(QUIET, |run| {
            all.extend_from_slice(run.line);
            Ok(())
        })?;
        // A capture is what its level, line and label make.
        let label = line.label.as_deref();
        let mut file = vec![0; capture_bytes(all.len(), label.map(<[u8]>::len))];
        write_capture(line.level, &all, label, &mut file)?;
        hash.update(&file);
        bytes = file.len() as u64;
    } else {
        line.runs(QUIET, |run| {
            hash.update(run.line);
            bytes = bytes.saturating_add(run.line.len() as u64);
            Ok(())
        })?;
    }
    Ok(Named { role: "", name: String::new(), bytes, sha256: hexadecimal(hash) })
}

/// The file of what was sent.
fn of_sent(engine: &Engine) -> Result<Option<Named>, Failure> {
    let input = match engine.sent() {
        Some(sent) => sent.input(),
        None => return Ok(None),
    };
    let mut hash = Sha256::new();
    let mut room = vec![0; CHUNK];
    let mut at = 0_u64;
    while at < input.bytes() {
        let left = usize::try_from(input.bytes().saturating_sub(at)).unwrap_or(usize::MAX);
        let chunk = room.get_mut(..left.min(CHUNK)).unwrap_or_default();
        input.read_at(at, chunk)?;
        hash.update(&*chunk);
        at = at.saturating_add(chunk.len() as u64);
    }
    let (name, bytes) = (shown(input.name()), input.bytes());
    Ok(Some(Named { role: "sent", name, bytes, sha256: hexadecimal(hash) }))
}

/// What is said of a recording.
struct Verdict {
    level: Level,
    label: Option<String>,
    files: Vec<Named>,
    line: String,
    against: Against,
    engine: Engine,
    found: Option<(Vec<Stretch>, u64)>,
    clocks: Vec<Clock>,
    written: Vec<String>,
}

impl Verdict {
    fn of(call: &Judge, recording: Recording) -> Verdict {
        let Recording { level, label, files, engine, found } = recording;
        let label = match (&call.label, label) {
            (Some(label), _) => Some(printed(label)),
            (None, Some(label)) => Some(unquoted(&label)),
            (None, None) => None,
        };
        let against = match (&call.sent, call.pattern.as_deref()) {
            (Some(sent), _) => Against::Digits(shown(sent)),
            (None, Some("15")) => Against::Pattern(15),
            (None, _) => Against::Pattern(23),
        };
        let clocks = (0..4).map(|j| Clock::of(level, &engine.timeline, j)).collect();
        let line = shown(&call.line);
        Verdict { level, label, files, line, against, engine, found, clocks, written: Vec::new() }
    }

    /// The tributaries of all stretches together.
    fn known(&self) -> Vec<Known<'_>> {
        let all = self.engine.totals().into_iter().zip(&self.engine.absences);
        let all = all.zip(&self.engine.located).enumerate();
        let known = all.map(|(number, ((of, absence), located))| {
            let finding = of.finding(*absence);
            let [own, before, after] = located;
            let slips = match of.best(finding) {
                Reading::Own => own,
                Reading::Before => before,
                Reading::After => after,
            };
            let stages = self.against.stages();
            Known { level: self.level, number, of, finding, slips, stages }
        });
        known.collect()
    }

    /// What each tributary of one stretch says.
    fn findings(&self, judged: &Judged) -> [&'static str; 4] {
        let mut words = ["", "", "", ""];
        let all = judged.of.iter().zip(&self.engine.absences);
        for (word, (of, absence)) in words.iter_mut().zip(all) {
            *word = of.finding(*absence).word();
        }
        words
    }

    fn frames(&self) -> u64 {
        self.engine.timeline.frames()
    }

    fn page(&self) -> String {
        let known = self.known();
        let answer = answer(&known, &self.clocks);
        let stretches = match &self.found {
            None => Vec::new(),
            Some((found, _)) => found
                .iter()
                .zip(&self.engine.stretches)
                .map(|(stretch, judged)| page::Stretch {
                    digit: stretch.digit,
                    frames: judged.frames,
                    begins: stretch.begins,
                    found: self.findings(judged),
                })
                .collect(),
        };
        page::html(&Page {
            level: self.level,
            label: self.label.as_deref().map(as_written),
            files: self.files.clone(),
            date: page::today(),
            version: env!("CARGO_PKG_VERSION").into(),
            against: self.against.clone(),
            answer,
            known,
            clocks: self.clocks.clone(),
            timeline: &self.engine.timeline,
            stretches,
        })
    }

    fn report(&self) -> Said {
        let known = self.known();
        let answer = answer(&known, &self.clocks);
        let label = self.label.as_deref().map(|label| format!("label: \"{label}\"\n"));
        let mut text = label.unwrap_or_default() + &self.head();
        text.push_str(&self.stretches_text());
        for (known, clock) in known.iter().zip(&self.clocks) {
            let number = known.number.saturating_add(1);
            text.push_str(&format!("tributary {number}: {}{}\n", known.head(), known.rest()));
            text.push_str(&format!("  clock: {}\n", clock.text()));
        }
        text.push_str(&format!("{}\n", sentence(&answer)));
        text.push_str(&written(&self.written));
        let wrong = |known: &Known<'_>| {
            known.finding.is_index() || known.finding.is_absent() || known.clock_slips() > 0
        };
        let ok = !known.iter().any(wrong) && (self.found.is_none() || self.frames() > 0);
        let tributaries =
            known.iter().zip(&self.clocks).map(|(k, clock)| Of::known(k, clock)).collect();
        Said {
            level: self.level.number(),
            kilobits: self.level.kilobits(),
            line: self.line.clone(),
            label: self.label.clone(),
            against: match &self.against {
                Against::Digits(name) => AgainstSaid { sent: Some(name.clone()), pattern: None },
                Against::Pattern(stages) => AgainstSaid { sent: None, pattern: Some(*stages) },
            },
            files: self.files.iter().map(FileSaid::of).collect(),
            frames: self.frames(),
            seconds: seconds(self.level, self.frames()),
            frames_not_reached: self.engine.unreached,
            found: self.found.is_some(),
            digits: self.found.as_ref().map_or(self.digits(self.frames()), |(_, taken)| *taken),
            stretches: self.stretches_said(),
            tributaries,
            answer: answer.word,
            sentence: sentence(&answer),
            ok,
            written: self.written.clone(),
            text,
        }
    }

    fn head(&self) -> String {
        let against = match &self.against {
            Against::Digits(name) => name.clone(),
            Against::Pattern(stages) => format!("the pattern of 2^{stages} - 1 digits, inverted"),
        };
        format!(
            "Level {}, {} kbit/s: {}, {}, held against {against}. Clocks: taking the line at {} kbit/s.\n",
            self.level.number(),
            self.level.kilobits(),
            so_many(self.frames(), "frame"),
            time(self.level.kilobits(), self.digits(self.frames())),
            self.level.kilobits()
        )
    }

    fn digits(&self, frames: u64) -> u64 {
        frames.saturating_mul(self.level.frame_digits() as u64)
    }

    /// The stretches of a recording begun anywhere, with the gaps between them.
    fn stretches_text(&self) -> String {
        let (found, taken) = match &self.found {
            Some((found, taken)) => (found, *taken),
            None => return String::new(),
        };
        if found.is_empty() {
            return format!("no frame found in {}.\n", so_many(taken, "digit"));
        }
        let mut text = String::new();
        let mut end = 0;
        for (stretch, judged) in found.iter().zip(&self.engine.stretches) {
            let gap = stretch.digit.saturating_sub(end);
            if gap > 0 && end > 0 {
                text.push_str(&format!("gap of {}\n", so_many(gap, "digit")));
            }
            text.push_str(&format!(
                "stretch of {} from digit {}, {}",
                so_many(judged.frames, "frame"),
                grouped(stretch.digit),
                time(self.level.kilobits(), stretch.digit)
            ));
            if let Some(begins) = stretch.begins {
                text.push_str(&format!(
                    "; begins in what was sent at digits {}, where {} of {} differ ({})",
                    begins.map(grouped).join(", "),
                    grouped(stretch.differ),
                    grouped(stretch.looked),
                    ratio(stretch.differ, stretch.looked)
                ));
            }
            text.push_str(&format!(": {}\n", self.findings(judged).join(", ")));
            end = stretch.digit.saturating_add(self.digits(judged.frames));
        }
        if self.engine.unreached > 0 {
            text.push_str(&format!(
                "not judged, because what was sent ends before them: {}\n",
                so_many(self.engine.unreached, "frame")
            ));
        }
        text
    }

    fn stretches_said(&self) -> Vec<StretchSaid> {
        let found = self.found.as_ref().map(|(found, _)| found.as_slice()).unwrap_or_default();
        let all = self.engine.stretches.iter().enumerate();
        all.map(|(k, judged)| {
            let at = found.get(k).copied().unwrap_or_default();
            StretchSaid {
                digit: at.digit,
                seconds: at.digit as f64 / (1000.0 * f64::from(self.level.kilobits())),
                frames: judged.frames,
                begins: at.begins,
                differ: at.differ,
                looked: at.looked,
                verdicts: self.findings(judged),
            }
        })
        .collect()
    }
}

/// The answer and what else there is to say, in a line.
fn sentence(answer: &Answer) -> String {
    let more = answer.more.iter().map(|more| format!(" {more}"));
    std::iter::once(answer.head.clone()).chain(more).collect()
}

fn seconds(level: Level, frames: u64) -> f64 {
    frames as f64 * level.frame_digits() as f64 / (1000.0 * f64::from(level.kilobits()))
}

/// A label as it was written: without the backslashes that a quoted one has.
fn as_written(label: &str) -> String {
    label.replace("\\\"", "\"").replace("\\\\", "\\")
}

/// A label as it may be shown.
fn printed(label: &str) -> String {
    unquoted(label.as_bytes())
}

/// Without the quotation marks around it.
fn unquoted(label: &[u8]) -> String {
    let text = quoted(label);
    text.strip_prefix('"').and_then(|text| text.strip_suffix('"')).unwrap_or(&text).into()
}

/// The verdict as JSON; docs/JSON.md says what each field is.
#[derive(Serialize)]
struct Said {
    level: u64,
    kilobits: u32,
    line: String,
    #[serde(skip_serializing_if = "Option::is_none")]
    label: Option<String>,
    against: AgainstSaid,
    files: Vec<FileSaid>,
    frames: u64,
    seconds: f64,
    frames_not_reached: u64,
    found: bool,
    digits: u64,
    stretches: Vec<StretchSaid>,
    tributaries: Vec<Of>,
    answer: &'static str,
    sentence: String,
    ok: bool,
    written: Vec<String>,
    #[serde(skip)]
    text: String,
}

impl Report for Said {
    fn text(&self) -> String {
        self.text.clone()
    }
}

#[derive(Serialize)]
struct AgainstSaid {
    #[serde(skip_serializing_if = "Option::is_none")]
    sent: Option<String>,
    #[serde(skip_serializing_if = "Option::is_none")]
    pattern: Option<u64>,
}

#[derive(Serialize)]
struct FileSaid {
    role: &'static str,
    name: String,
    bytes: u64,
    sha256: String,
}

impl FileSaid {
    fn of(file: &Named) -> FileSaid {
        let Named { role, name, bytes, sha256 } = file.clone();
        FileSaid { role, name, bytes, sha256 }
    }
}

#[derive(Serialize)]
struct StretchSaid {
    digit: u64,
    seconds: f64,
    frames: u64,
    #[serde(skip_serializing_if = "Option::is_none")]
    begins: Option<[u64; 4]>,
    differ: u64,
    looked: u64,
    verdicts: [&'static str; 4],
}

#[derive(Serialize)]
struct Of {
    tributary: usize,
    verdict: &'static str,
    sentence: String,
    changes: u64,
    readings: Readings,
    wrong_votes: u64,
    clock_slips: u64,
    slips: Vec<Slip>,
    clock: ClockSaid,
}

#[derive(Serialize)]
struct Readings {
    own: ReadSaid,
    before: ReadSaid,
    after: ReadSaid,
}

#[derive(Serialize)]
struct ReadSaid {
    #[serde(flatten)]
    read: Read,
    cost: u64,
    ratio: f64,
}

#[derive(Serialize)]
struct ClockSaid {
    ppm: f64,
    one_digit_ppm: f64,
    tolerance_ppm: u64,
    kept: &'static str,
    parts: Vec<PartSaid>,
    sentence: String,
}

#[derive(Serialize)]
struct PartSaid {
    first: u64,
    frames: u64,
    ppm: f64,
    outside: bool,
}

impl Of {
    fn known(known: &Known<'_>, clock: &Clock) -> Of {
        let [own, before, after] = READINGS.map(|reading| {
            let read = *known.of.reading(reading);
            let ratio = read.wrong as f64 / read.judged().max(1) as f64;
            ReadSaid { read, cost: read.cost(), ratio }
        });
        let part = |part: &crate::verdict::clock::Part| PartSaid {
            first: part.first,
            frames: part.frames,
            ppm: part.off as f64 / 10.0,
            outside: part.left,
        };
        Of {
            tributary: known.number.saturating_add(1),
            verdict: known.finding.word(),
            sentence: format!("{}{}", known.head(), known.rest()),
            changes: known.of.changes,
            readings: Readings { own, before, after },
            wrong_votes: known.slips.votes(),
            clock_slips: known.clock_slips(),
            slips: known.slips.slips.clone(),
            clock: ClockSaid {
                ppm: clock.off as f64 / 10.0,
                one_digit_ppm: clock.one_digit as f64 / 10.0,
                tolerance_ppm: clock.tolerance,
                kept: clock.kept().word(),
                parts: clock.parts.iter().map(part).collect(),
                sentence: clock.text(),
            },
        }
    }
}

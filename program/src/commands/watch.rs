//! `watch`: up to 64 recordings, each with a receiver of its own, and a table of what they are at their ends. The recordings are
//! looked through side by side, as many at a time as there are processors.

use std::ffi::OsStr;
use std::os::unix::ffi::OsStrExt;
use std::path::PathBuf;
use std::sync::atomic::{AtomicUsize, Ordering};
use std::sync::Mutex;
use std::thread;

use serde::Serialize;
use spritbobbin::{digits_in, read_notes, Frame, Level, Receiver, MOST_LINES};

use crate::cli::Watch;
use crate::failure::Failure;
use crate::files::{self, Stream, CHUNK};
use crate::level;
use crate::report::{shown, Report, Saying};

/// A line at its recording's end.
#[derive(Clone, Debug, Serialize)]
struct AtItsEnd {
    line: usize,
    level: u64,
    aligned: bool,
    alarm: bool,
    frames: u64,
    dissent: u64,
    words_tested: u64,
    recording: String,
}

#[derive(Serialize)]
struct Watched {
    lines: Vec<AtItsEnd>,
    aligned: usize,
}

impl Report for Watched {
    fn text(&self) -> String {
        let head =
            "line  level  aligned  alarm      frames     dissent    words tested  recording\n";
        let yes = |yes: bool| if yes { "yes" } else { "no" };
        let row = |one: &AtItsEnd| {
            format!(
                "{:>4}{:>7}{:>9}{:>7}{:>12}{:>12}{:>16}  {}\n",
                one.line,
                one.level,
                yes(one.aligned),
                yes(one.alarm),
                one.frames,
                one.dissent,
                one.words_tested,
                one.recording
            )
        };
        let rows: String = self.lines.iter().map(row).collect();
        format!("{head}{rows}aligned lines: {}\n", self.aligned)
    }
}

pub fn run(call: Watch, saying: Saying) -> Result<u8, Failure> {
    if call.lines.len() > MOST_LINES {
        return Err(Failure::Call(format!(
            "{} recordings are too many: watch takes up to {MOST_LINES}.",
            call.lines.len()
        )));
    }
    let asked: Result<Vec<(Level, PathBuf)>, Failure> =
        call.lines.iter().map(|word| asked(word)).collect();
    let asked = asked?;
    let names: Vec<_> = asked.iter().map(|(_, name)| ("RECORDING", name.as_path())).collect();
    files::distinct(&names, &[])?;
    let mut streams = Vec::new();
    for (line, (level, name)) in asked.into_iter().enumerate() {
        streams.push((line, level, Stream::open(&name)?));
    }
    let mut lines = all(streams)?;
    lines.sort_by_key(|one| one.line);
    let aligned = lines.iter().filter(|one| one.aligned).count();
    let good = aligned == lines.len();
    saying.say(&Watched { lines, aligned })?;
    Ok(u8::from(call.check && !good))
}

/// The level and the recording that a word names.
fn asked(word: &OsStr) -> Result<(Level, PathBuf), Failure> {
    let mut parts = word.as_bytes().splitn(2, |byte| *byte == b'=');
    match (parts.next(), parts.next()) {
        (Some(of), Some(name)) if !name.is_empty() => {
            Ok((level::level(&String::from_utf8_lossy(of))?, OsStr::from_bytes(name).into()))
        }
        _ => Err(Failure::Call(format!(
            "{} is no LEVEL=RECORDING, as 2=north.",
            shown(word.as_ref())
        ))),
    }
}

/// Every recording, each by one of as many threads as there are processors.
fn all(streams: Vec<(usize, Level, Stream)>) -> Result<Vec<AtItsEnd>, Failure> {
    let workers = thread::available_parallelism().map_or(1, usize::from).min(streams.len());
    let count = streams.len();
    let waiting: Vec<Mutex<Option<(usize, Level, Stream)>>> =
        streams.into_iter().map(|one| Mutex::new(Some(one))).collect();
    let (next, ends) = (AtomicUsize::new(0), Mutex::new(Vec::new()));
    thread::scope(|scope| {
        for _ in 0..workers {
            scope.spawn(|| {
                while let Some(one) = waiting.get(next.fetch_add(1, Ordering::Relaxed)) {
                    let taken = one.lock().ok().and_then(|mut one| one.take());
                    let Some((line, level, stream)) = taken else { continue };
                    let end = at_its_end(line, level, stream);
                    if let Ok(mut ends) = ends.lock() {
                        ends.push((line, end));
                    }
                }
            });
        }
    });
    let mut ends = ends.into_inner().unwrap_or_default();
    ends.sort_by_key(|(line, _)| *line);
    let ends: Vec<AtItsEnd> = ends.into_iter().map(|(_, end)| end).collect::<Result<_, _>>()?;
    if ends.len() != count {
        return Err(Failure::File(
            "a recording was not looked through: a fault of the program.".into(),
        ));
    }
    Ok(ends)
}

/// One recording from the beginning to the end.
fn at_its_end(line: usize, level: Level, mut stream: Stream) -> Result<AtItsEnd, Failure> {
    let mut receiver = Receiver::new(level);
    let mut chunk = vec![0; CHUNK];
    let mut end = AtItsEnd {
        line,
        level: level.number(),
        aligned: false,
        alarm: false,
        frames: 0,
        dissent: 0,
        words_tested: 0,
        recording: shown(stream.name()),
    };
    loop {
        let count = stream.read(&mut chunk)?;
        if count == 0 {
            end.aligned = receiver.is_aligned();
            end.alarm = receiver.has_alarm();
            return Ok(end);
        }
        let piece = chunk.get(..count).unwrap_or_default();
        let all = usize::try_from(digits_in(count as u64)).unwrap_or(0);
        let mut first = 0;
        while first < all {
            let taken = receiver.take(piece, first, all.saturating_sub(first))?;
            if taken.digits == 0 {
                break;
            }
            first = first.saturating_add(taken.digits);
            end.words_tested = end.words_tested.saturating_add(taken.words as u64);
            if let Some(frame) = &taken.frame {
                end.frames = end.frames.saturating_add(1);
                end.dissent = end.dissent.saturating_add(dissent(frame)?);
            }
        }
    }
}

/// The control digits of a frame that differ from the majority of their group, of all four tributaries together.
fn dissent(frame: &Frame) -> Result<u64, Failure> {
    let noted = read_notes(frame.level(), frame.bytes(), &mut [0])?;
    Ok(noted.dissent.iter().map(|digits| *digits as u64).sum())
}

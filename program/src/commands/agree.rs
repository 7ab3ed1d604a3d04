//! `agree`: both engines read the notes of a line, take it apart by them and make a line of what came out, with the national bits set, which
//! multiplexing asks for; after each call what they answer and every byte that they leave is compared.

use serde::Serialize;
use spritbobbin::{vote_after, Level, Note, Refusal, MOST_FRAMES};

use crate::cli::{Agree, Engine};
use crate::failure::Failure;
use crate::report::{Report, Saying};
use crate::runs::{Line, Run};

#[derive(Serialize)]
struct Agreed {
    level: u64,
    frames: u64,
    compared: Compared,
    agree: bool,
}

/// The bytes that were compared after each call.
#[derive(Default, Serialize)]
struct Compared {
    read_notes: u64,
    extract: u64,
    multiplex: u64,
}

impl Report for Agreed {
    fn text(&self) -> String {
        let Compared { read_notes, extract, multiplex } = self.compared;
        format!(
            "Level {}: {} frames, by the quick engine and by the plain one.\n\
             bytes compared after read_notes: {read_notes}\n\
             bytes compared after extract:    {extract}\n\
             bytes compared after multiplex:  {multiplex}\n\
             The two engines agree, in every byte and in what each call answered.\n",
            self.level, self.frames
        )
    }
}

pub fn run(call: Agree, saying: Saying) -> Result<u8, Failure> {
    let line = Line::open(&call.line, Some(&call.of.level), call.after.earlier.as_deref())?;
    let mut compared = Compared::default();
    let mut earlier = line.earlier;
    line.runs(saying, |run| {
        earlier = one_run(line.level, earlier, run, &mut compared)?;
        Ok(())
    })?;
    let (level, frames) = (line.level.number(), line.frames);
    saying.say(&Agreed { level, frames, compared, agree: true })?;
    Ok(0)
}

/// What a call answered, and the bytes that it left.
type Left<T> = (Result<T, Refusal>, Vec<u8>);

/// The three calls on a run, and the vote of its last frame.
fn one_run(level: Level, earlier: u8, run: Run<'_>, sums: &mut Compared) -> Result<u8, Failure> {
    let count = run.line.len() / level.frame_bytes();
    let read = |engine: Engine| -> Left<_> {
        let mut notes = vec![0; count];
        (engine.read_notes(level, run.line, &mut notes), notes)
    };
    let notes = same("read_notes", run.first, count, read, &mut sums.read_notes)?;
    let take = |engine: Engine| -> Left<_> {
        let mut buffer = vec![0; level.buffer_bytes(count)];
        (engine.extract(level, earlier, run.line, &notes, &mut buffer), buffer)
    };
    let buffer = same("extract", run.first, count, take, &mut sums.extract)?;
    let set: Vec<u8> = notes.iter().map(|note| Note(*note).with_national(level).0).collect();
    let make = |engine: Engine| -> Left<_> {
        let mut line = vec![0; run.line.len()];
        (engine.multiplex(level, earlier, &mut line, &set, &buffer), line)
    };
    same("multiplex", run.first, count, make, &mut sums.multiplex)?;
    Ok(vote_after(earlier, &notes))
}

/// What both left, where both left and answered the same.
fn same<T: PartialEq>(
    call: &str,
    first: u64,
    count: usize,
    by: impl Fn(Engine) -> Left<T>,
    compared: &mut u64,
) -> Result<Vec<u8>, Failure> {
    let (quick, plain) = (by(Engine::Quick), by(Engine::Plain));
    if quick != plain || quick.0.is_err() {
        let last = first.saturating_add(count.min(MOST_FRAMES) as u64).saturating_sub(1);
        return Err(Failure::Differ(format!(
            "the two engines differ, in {call} of frames {first} to {last}; report it, with this file."
        )));
    }
    *compared = compared.saturating_add(quick.1.len() as u64);
    Ok(quick.1)
}

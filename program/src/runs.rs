//! A line from its first frame to its last, 64 frames at a time, and the quarters of the tributaries carried on from run to run.

use std::path::{Path, PathBuf};

use spritbobbin::{Level, MOST_FRAMES};

use crate::captures::{self, Captured};
use crate::failure::Failure;
use crate::files::Input;
use crate::level;
use crate::listening::{self, Stretch};
use crate::progress::Progress;
use crate::report::{shown, Saying};

/// A line: a file of whole frames, or that of a capture.
#[derive(Debug)]
pub struct Line {
    pub name: PathBuf,
    pub level: Level,
    /// The vote of the frame before its first.
    pub earlier: u8,
    pub frames: u64,
    /// The label of a capture.
    pub label: Option<Vec<u8>>,
    pub captured: bool,
    /// The frames before which frames are missing, where they were found in a recording.
    gaps: Vec<u64>,
    from: From,
}

#[derive(Debug)]
enum From {
    File(Input),
    Memory(Vec<u8>),
}

/// Some frames of a line, at most 64.
#[derive(Clone, Copy, Debug)]
pub struct Run<'a> {
    /// The number of the first.
    pub first: u64,
    pub line: &'a [u8],
    /// Frames are missing before it: the vote before its first frame is not known.
    pub behind_gap: bool,
}

impl Line {
    /// Opens a line of the level that is said, or a capture where none is.
    pub fn open(name: &Path, of: Option<&str>, earlier: Option<&str>) -> Result<Line, Failure> {
        match of {
            Some(word) => {
                let of = level::level(word)?;
                Line::of_level(name, of, level::earlier(of, earlier)?)
            }
            None => Line::of_capture(name, earlier),
        }
    }

    /// The same; or where that is asked for, the frames that are found in a recording, and where they were.
    pub fn open_or_find(
        name: &Path,
        of: Option<&str>,
        earlier: Option<&str>,
        find: bool,
        saying: Saying,
    ) -> Result<(Line, Option<Vec<Stretch>>), Failure> {
        if !find {
            return Ok((Line::open(name, of, earlier)?, None));
        }
        let Some(word) = of else {
            return Err(Failure::Call(
                "--find wants --level: a recording does not say its own.".into(),
            ));
        };
        let of = level::level(word)?;
        let (line, stretches) = listening::found(name, of, level::earlier(of, earlier)?, saying)?;
        Ok((line, Some(stretches)))
    }

    fn of_level(name: &Path, level: Level, earlier: u8) -> Result<Line, Failure> {
        Line::of_input(Input::open(name)?, level, earlier)
    }

    /// A line in an input that is open.
    pub fn of_input(input: Input, level: Level, earlier: u8) -> Result<Line, Failure> {
        let (bytes, frame) = (input.bytes(), level.frame_bytes() as u64);
        let name = input.name().to_path_buf();
        if bytes.checked_rem(frame) != Some(0) {
            let todo = match captures::is_one(&input)? {
                true => "It is a capture: leave --level out, or write its line with show.",
                false => {
                    "In a recording begun anywhere find the frames first, with find or --find."
                }
            };
            return Err(Failure::refused(
                2,
                format!(
                    "{} has {bytes} bytes, no whole number of frames; a frame of {level} has {frame} bytes. {todo}",
                    shown(&name)
                ),
            ));
        }
        let frames = bytes / frame.max(1);
        let from = From::File(input);
        let gaps = Vec::new();
        Ok(Line { name, level, earlier, frames, label: None, captured: false, gaps, from })
    }

    fn of_capture(name: &Path, earlier: Option<&str>) -> Result<Line, Failure> {
        let captured = captures::open(name)?;
        let earlier = level::earlier(captured.level, earlier)?;
        Ok(Line { earlier, ..Line::of_captured(name, captured) })
    }

    /// The line of a capture that was read.
    pub fn of_captured(name: &Path, captured: Captured) -> Line {
        let Captured { level, line, label } = captured;
        let frames = (line.len() / level.frame_bytes()) as u64;
        let (name, gaps, from) = (name.into(), Vec::new(), From::Memory(line));
        Line { name, level, earlier: 0, frames, label, captured: true, gaps, from }
    }

    /// The same line, of frames that were found in these stretches.
    pub fn in_stretches(self, stretches: &[Stretch]) -> Line {
        let gaps = stretches.iter().skip(1).map(|stretch| stretch.first).collect();
        Line { gaps, ..self }
    }

    /// The frames from this number on, as many as the slice has room for.
    pub fn read(&self, first: u64, slice: &mut [u8]) -> Result<(), Failure> {
        let at = first.saturating_mul(self.level.frame_bytes() as u64);
        match &self.from {
            From::File(input) => input.read_at(at, slice),
            From::Memory(line) => {
                let at = usize::try_from(at).unwrap_or(usize::MAX);
                let end = at.saturating_add(slice.len());
                if let Some(frames) = line.get(at..end) {
                    slice.copy_from_slice(frames);
                }
                Ok(())
            }
        }
    }

    /// Hands on every frame in order, at most 64 at a time and none together with one behind a gap, and says how far it is.
    pub fn runs(
        &self,
        saying: Saying,
        mut each: impl FnMut(Run<'_>) -> Result<(), Failure>,
    ) -> Result<(), Failure> {
        let frame = self.level.frame_bytes();
        let progress = Progress::of(Some(self.bytes()), saying);
        let mut room = Vec::new();
        let mut first: u64 = 0;
        while first < self.frames {
            let count = self.frames.saturating_sub(first).min(AT_ONCE);
            room.resize(usize::try_from(count).unwrap_or(0).saturating_mul(frame), 0);
            self.read(first, &mut room)?;
            let mut rest = room.as_slice();
            while !rest.is_empty() {
                let (behind_gap, most) = self.without_gap(first);
                let (line, more) = rest.split_at(frame.saturating_mul(most).min(rest.len()));
                each(Run { first, line, behind_gap })?;
                first = first.saturating_add((line.len() / frame) as u64);
                rest = more;
            }
            progress.at(first.saturating_mul(frame as u64));
        }
        Ok(())
    }

    /// Whether this frame stands behind a gap, and how many from it on stand together, at most 64.
    fn without_gap(&self, frame: u64) -> (bool, usize) {
        let passed = self.gaps.partition_point(|gap| *gap <= frame);
        let (passed, later) = self.gaps.split_at(passed);
        let together = later.first().map_or(u64::MAX, |gap| gap.saturating_sub(frame));
        (passed.last() == Some(&frame), in_run(together))
    }

    /// The bytes of all frames.
    pub fn bytes(&self) -> u64 {
        self.frames.saturating_mul(self.level.frame_bytes() as u64)
    }
}

/// The frames that are read at once: whole runs.
const AT_ONCE: u64 = 16 * MOST_FRAMES as u64;

/// The frames of the next run, of so many that are left.
pub fn in_run(left: u64) -> usize {
    usize::try_from(left).unwrap_or(MOST_FRAMES).min(MOST_FRAMES)
}

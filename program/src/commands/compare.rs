//! `compare`: where two captures differ, or two lines or recordings, between which the frame offset is found.

use std::path::Path;

use serde::Serialize;
use spritbobbin::{compare_lines, compare_stretch, Differences, Level, MOST_LISTED};

use crate::captures;
use crate::cli::Compare;
use crate::commands::frame::differing;
use crate::failure::Failure;
use crate::files::{self, Output};
use crate::listening;
use crate::overlaps::{overlaps, unfit, Overlap};
use crate::pictures::comparison::{draw, Comparison, Side, Stretch, MOST_DRAWN};
use crate::places;
use crate::progress::Progress;
use crate::report::{quoted, shown, written, Report, Saying};
use crate::runs::{in_run, Line};

/// The differing digits of one tributary.
#[derive(Clone, Copy, Debug, Default, Serialize)]
struct OfTributary {
    control: u64,
    justification: u64,
    ordinary: u64,
}

/// One of the first differing digits: its frame, counted in the first file.
#[derive(Clone, Copy, Debug, Serialize)]
struct Listed {
    frame: u64,
    place: usize,
    kind: &'static str,
    tributary: usize,
}

/// Frames that were compared with as many of the other file, and the digits that differ.
#[derive(Clone, Copy, Debug, Serialize)]
struct Overlapping {
    #[serde(flatten)]
    frames: Overlap,
    differing: u64,
}

#[derive(Debug, Serialize)]
struct Compared {
    level: u64,
    kilobits: u32,
    frames: u64,
    /// Of lines: how many frames the other begins later in the first; less than 0 where the first begins later in the other.
    #[serde(skip_serializing_if = "Option::is_none")]
    offset: Option<i64>,
    /// Of recordings with gaps, in its place: which frames were compared, and how many were not, of each.
    #[serde(skip_serializing_if = "Option::is_none")]
    overlaps: Option<Vec<Overlapping>>,
    #[serde(skip_serializing_if = "Option::is_none")]
    not_compared: Option<[u64; 2]>,
    differing: u64,
    word: u64,
    remote_alarm: u64,
    national: u64,
    tributaries: [OfTributary; 4],
    first: Vec<Listed>,
    written: Vec<String>,
}

pub fn run(call: Compare, mut saying: Saying) -> Result<u8, Failure> {
    let outputs: Vec<_> = call.svg.as_deref().map(|svg| ("FILE", svg)).into_iter().collect();
    files::distinct(&[("ONE", &call.one), ("OTHER", &call.other)], &outputs)?;
    saying.aside = outputs.iter().any(|(_, svg)| files::any_standard(&[svg]));
    let Opened { one, other, found } = opened(&call, saying)?;
    // What cannot be written is found out before it is all compared.
    let picture = call.svg.as_deref().map(Output::create).transpose()?;
    let all = match call.of.level {
        Some(_) => overlaps(&one, found.0.as_deref(), &other, found.1.as_deref())?,
        None => vec![Overlap { first: 0, first_other: 0, frames: one.frames }],
    };
    let gaps = [&found.0, &found.1].iter().any(|found| found.as_ref().map_or(0, Vec::len) > 1);
    let pair = Pair { one: &one, other: &other, overlaps: all };
    let mut compared = pair.compared(saying)?;
    // Where nothing is compared there is no offset.
    let nothing = call.find && compared.frames == 0;
    if gaps || nothing {
        let left = |line: &Line| line.frames.saturating_sub(compared.frames);
        compared.not_compared = Some([left(&one), left(&other)]);
    } else {
        compared.overlaps = None;
        let offset = pair.overlaps.first().map_or(0, Overlap::offset);
        compared.offset = call.of.level.as_ref().map(|_| offset);
    }
    if let Some(mut picture) = picture {
        picture.append(pair.drawn(&compared)?.as_bytes())?;
        compared.written = files::keep(vec![picture])?;
    }
    saying.say(&compared)?;
    Ok(u8::from(call.check && (compared.differing > 0 || nothing)))
}

/// Where the frames of a recording were.
type Found = Option<Vec<listening::Stretch>>;

/// Both lines, and where their frames were found.
struct Opened {
    one: Line,
    other: Line,
    found: (Found, Found),
}

/// Both lines: of two captures of one level and length, or of two files of the level that is said.
fn opened(call: &Compare, saying: Saying) -> Result<Opened, Failure> {
    if let Some(word) = call.of.level.as_deref() {
        let open = |name: &Path| Line::open_or_find(name, Some(word), None, call.find, saying);
        let ((one, found), (other, found_other)) = (open(&call.one)?, open(&call.other)?);
        return Ok(Opened { one, other, found: (found, found_other) });
    }
    if call.find {
        return Err(Failure::Call(
            "--find wants --level: a recording does not say its own.".into(),
        ));
    }
    // Both files are read before either is judged.
    let (one, other) = (captures::open(&call.one), captures::open(&call.other));
    if let (Err(Failure::Refused { .. }), Err(Failure::File(_))) = (&one, &other) {
        other?;
        return Err(Failure::Call("one of the files cannot be read.".into()));
    }
    let (one, other) = (one?, other?);
    let (first, second) = (shown(&call.one), shown(&call.other));
    if one.level != other.level {
        let (a, b) = (one.level.number(), other.level.number());
        let text = format!(
            "{first} is of level {a}, that of {second}: {b}; give two captures of one level."
        );
        return Err(Failure::refused(1, text));
    }
    if one.line.len() != other.line.len() {
        let (a, b) = (one.line.len(), other.line.len());
        let text =
            format!("the line of {first} has this many bytes: {a}, that of {second}: {b}; give two captures of as many frames.");
        return Err(Failure::refused(2, text));
    }
    let (one, other) = (Line::of_captured(&call.one, one), Line::of_captured(&call.other, other));
    Ok(Opened { one, other, found: (None, None) })
}

/// Two lines, and which frames are held against each other.
struct Pair<'a> {
    one: &'a Line,
    other: &'a Line,
    overlaps: Vec<Overlap>,
}

impl Pair<'_> {
    /// So many frames of both, from this one of an overlap on.
    fn read(
        &self,
        overlap: &Overlap,
        frame: u64,
        count: usize,
    ) -> Result<(Vec<u8>, Vec<u8>), Failure> {
        let bytes = self.one.level.frame_bytes().saturating_mul(count);
        let (mut one, mut other) = (vec![0; bytes], vec![0; bytes]);
        self.one.read(overlap.first.saturating_add(frame), &mut one)?;
        self.other.read(overlap.first_other.saturating_add(frame), &mut other)?;
        Ok((one, other))
    }

    fn compared(&self, saying: Saying) -> Result<Compared, Failure> {
        let level = self.one.level;
        let mut all = Compared::none(level);
        let mut listed = Vec::new();
        let progress = Progress::of(Some(self.one.bytes()), saying);
        for overlap in &self.overlaps {
            let before = all.differing;
            let mut frame = 0;
            while frame < overlap.frames {
                let count = in_run(overlap.frames.saturating_sub(frame));
                let (one, other) = self.read(overlap, frame, count)?;
                let found = compare_lines(level, &one, &other).map_err(unfit)?;
                all.add(level, overlap.first.saturating_add(frame), &found)?;
                frame = frame.saturating_add(count as u64);
                let number = overlap.first.saturating_add(frame);
                progress.at(number.saturating_mul(level.frame_bytes() as u64));
            }
            all.frames = all.frames.saturating_add(overlap.frames);
            let differing = all.differing.saturating_sub(before);
            listed.push(Overlapping { frames: *overlap, differing });
        }
        all.overlaps = Some(listed);
        Ok(all)
    }

    /// The picture of the first frames.
    fn drawn(&self, compared: &Compared) -> Result<String, Failure> {
        let level = self.one.level;
        let named = places::all(level)?;
        let (mut stretches, mut drawn) = (Vec::new(), Vec::new());
        let frames =
            self.overlaps.iter().flat_map(|one| (0..one.frames).map(move |frame| (one, frame)));
        for (overlap, frame) in frames.take(MOST_DRAWN) {
            let (one, other) = self.read(overlap, frame, 1)?;
            let number = overlap.first.saturating_add(frame);
            drawn.push(number);
            let mut put = |place: usize, count: usize| {
                stretches.push(Stretch { frame: number, place: place as u64, count: count as u64 });
            };
            halved(level, &one, &other, 0, level.frame_digits(), &mut put)?;
        }
        let places: Vec<_> = named.iter().map(places::drawn).collect();
        Ok(draw(&Comparison {
            level,
            sets: places::sets(&named),
            places: &places,
            one: side(self.one),
            other: side(self.other),
            frames: compared.frames,
            differ: compared.differing,
            drawn: &drawn,
            words: compared.word,
            alarms: compared.remote_alarm,
            services: compared.national,
            tributaries: compared.tributaries.map(|of| [of.control, of.justification, of.ordinary]),
            stretches: &stretches,
        }))
    }
}

fn side(line: &Line) -> Side {
    Side { name: shown(&line.name), label: line.label.as_deref().map(quoted) }
}

/// Every place of a stretch of a frame at which two lines differ, found by halves: the library counts.
fn halved(
    level: Level,
    one: &[u8],
    other: &[u8],
    first: usize,
    end: usize,
    put: &mut impl FnMut(usize, usize),
) -> Result<(), Failure> {
    let count = compare_stretch(level, one, other, first..end).map_err(unfit)?.all;
    let all = end.saturating_sub(first);
    if count == all {
        if all > 0 {
            put(first, all);
        }
        return Ok(());
    }
    if count > 0 {
        let middle = first.saturating_add(all / 2);
        halved(level, one, other, first, middle, put)?;
        halved(level, one, other, middle, end, put)?;
    }
    Ok(())
}

impl Compared {
    fn none(level: Level) -> Compared {
        Compared {
            level: level.number(),
            kilobits: level.kilobits(),
            frames: 0,
            offset: None,
            overlaps: None,
            not_compared: None,
            differing: 0,
            word: 0,
            remote_alarm: 0,
            national: 0,
            tributaries: [OfTributary::default(); 4],
            first: Vec::new(),
            written: Vec::new(),
        }
    }

    /// Adds the differences of frames from this one on.
    fn add(&mut self, level: Level, first: u64, found: &Differences) -> Result<(), Failure> {
        let add = |sum: &mut u64, more: usize| *sum = sum.saturating_add(more as u64);
        add(&mut self.differing, found.all);
        add(&mut self.word, found.word);
        add(&mut self.remote_alarm, found.remote_alarm);
        add(&mut self.national, found.national);
        for (sum, more) in self.tributaries.iter_mut().zip(&found.tributaries) {
            add(&mut sum.control, more.control);
            add(&mut sum.justification, more.justification);
            add(&mut sum.ordinary, more.ordinary);
        }
        for at in found.first.iter() {
            if self.first.len() < MOST_LISTED {
                let (kind, tributary) = differing(level, at.place)?;
                let frame = first.saturating_add(at.frame as u64);
                self.first.push(Listed { frame, place: at.place, kind, tributary });
            }
        }
        Ok(())
    }
}

impl Report for Compared {
    fn text(&self) -> String {
        let Compared { level, kilobits, frames, differing, .. } = self;
        let mut text = format!("Level {level}, {kilobits} kbit/s\nframes compared: {frames}\n");
        text += &match self.offset {
            None => String::new(),
            Some(0) => "frame offset: none, frame 0 of one is frame 0 of the other\n".into(),
            Some(offset) => {
                let side = if offset > 0 { "first" } else { "second" };
                let frame = offset.unsigned_abs();
                format!("frame offset: frame {frame} of the {side} file is frame 0 of the other\n")
            }
        };
        text += &self.overlaps_text();
        text += &format!("differing digits: {differing}\n");
        if *differing > 0 {
            text += &self.table();
        }
        text + &written(&self.written)
    }
}

impl Compared {
    /// Which frames were compared, where there is more to say than one offset.
    fn overlaps_text(&self) -> String {
        let mut text = String::new();
        for Overlapping { frames, differing } in self.overlaps.iter().flatten() {
            let Overlap { first, first_other, frames } = frames;
            let last = |first: &u64| first.saturating_add(*frames).saturating_sub(1);
            let (end, end_other) = (last(first), last(first_other));
            text += &format!(
                "frames {first} to {end} of the first file are frames {first_other} to {end_other} of the second, \
                 differing digits: {differing}\n"
            );
        }
        if let Some([one, other]) = self.not_compared {
            text +=
                &format!("frames not compared: {one} of the first file, {other} of the second\n");
        }
        text
    }

    /// The sums by kind, and the first places.
    fn table(&self) -> String {
        let mut text = format!(
            "\n  alignment word  {:>6}\n  remote alarm    {:>6}\n  national        {:>6}\n",
            self.word, self.remote_alarm, self.national
        );
        text += "                  control  justification  ordinary\n";
        for (number, of) in (1..).zip(&self.tributaries) {
            let OfTributary { control, justification, ordinary } = of;
            text += &format!(
                "  tributary {number}     {control:>7}{justification:>15}{ordinary:>10}\n"
            );
        }
        if self.differing > self.first.len() as u64 {
            text += &format!("\nThe first {}:", self.first.len());
        }
        text += "\n  frame  place  which is\n";
        for Listed { frame, place, kind, tributary } in &self.first {
            let whose = match tributary {
                0 => String::new(),
                number => format!(", tributary {number}"),
            };
            text += &format!("{frame:>7}{place:>7}  {kind}{whose}\n");
        }
        text
    }
}

//! A recording of any length, stretch by stretch, held against what was sent by the pair of calls: at
//! most 64 frames at a time, fewer at first, so that short recordings are drawn frame by frame. Where a
//! reading slips, the run is fed again from the state before it, frame by frame, to see where.

use spritbobbin::{read_notes, vote_after, Level, MOST_FRAMES};

use super::pair::Pair;
use super::places::Places;
use super::sent::{Lent, SentFile};
use super::slips::{Located, Slip};
use super::timeline::Timeline;
use super::{Absence, Reading, Tributary, READINGS};
use crate::failure::Failure;

/// Frames by which the absence of a pattern is looked into.
const LOOKED: u64 = 256;

/// What a stretch of frames came to.
#[derive(Clone, Copy, Debug)]
pub struct Judged {
    pub frames: u64,
    pub of: [Tributary; 4],
}

/// A verdict under way.
pub struct Engine {
    level: Level,
    stages: u64,
    places: Places,
    sent: Option<SentFile>,
    pair: Pair,
    /// The same recording held against the other pattern and against zeros, at its begin.
    others: Option<Others>,
    /// Frames that came and were not fed yet.
    waiting: Vec<u8>,
    /// The run before, for slips that are seen only after it.
    last: Option<Run>,
    /// How the stretch at hand stands, and its frames.
    now: [Tributary; 4],
    frames: u64,
    /// Whether what was sent has ended before the stretch.
    ended: bool,
    /// The sum of the stretches before it.
    before: [Tributary; 4],
    pub stretches: Vec<Judged>,
    pub timeline: Timeline,
    /// For each tributary and reading the first slips.
    pub located: [[Located; 3]; 4],
    pub absences: [Absence; 4],
    /// Frames that what was sent does not reach.
    pub unreached: u64,
}

/// Some frames that were fed, with the state before them.
struct Run {
    pair: Pair,
    now: [Tributary; 4],
    /// The number of the first frame in its stretch.
    first: u64,
    line: Vec<u8>,
    next: Option<u8>,
}

/// What else a tributary might be that does not carry the pattern.
struct Others {
    other: Pair,
    other_now: [Tributary; 4],
    zeros: Pair,
    zeros_now: [Tributary; 4],
    room: Vec<u8>,
}

/// Where a frame of a run ends in each reading.
struct End {
    frame: u64,
    /// How everything stood before it and after it.
    before: [Tributary; 4],
    after: [Tributary; 4],
}

impl Engine {
    /// Before the first frame.
    pub fn new(
        level: Level,
        earlier: u8,
        stages: u64,
        sent: Option<SentFile>,
    ) -> Result<Engine, Failure> {
        let mut engine = Engine {
            level,
            stages,
            places: Places::of(level)?,
            sent,
            pair: Pair::new(level, earlier, stages)?,
            others: None,
            waiting: Vec::new(),
            last: None,
            now: [Tributary::default(); 4],
            frames: 0,
            ended: false,
            before: [Tributary::default(); 4],
            stretches: Vec::new(),
            timeline: Timeline::default(),
            located: Default::default(),
            absences: [Absence::Unknown; 4],
            unreached: 0,
        };
        engine.others = engine.fresh_others(earlier)?;
        Ok(engine)
    }

    fn fresh_others(&self, earlier: u8) -> Result<Option<Others>, Failure> {
        if self.stages == 0 {
            return Ok(None);
        }
        let other = if self.stages == 15 { 23 } else { 15 };
        // As many zeros as the frames that are looked at can have, and some more for the lanes.
        let room = self.level.buffer_bytes(LOOKED as usize).saturating_add(64);
        Ok(Some(Others {
            other: Pair::new(self.level, earlier, other)?,
            other_now: [Tributary::default(); 4],
            zeros: Pair::new(self.level, earlier, 0)?,
            zeros_now: [Tributary::default(); 4],
            room: vec![0; room],
        }))
    }

    pub fn sent(&self) -> Option<&SentFile> {
        self.sent.as_ref()
    }

    /// A new stretch, after a frame of this vote, which begins in what was sent at these digits.
    pub fn begin(&mut self, earlier: u8, begins: [u64; 4]) -> Result<(), Failure> {
        self.pair = Pair::new(self.level, earlier, self.stages)?;
        if let Some(sent) = &mut self.sent {
            sent.begin_at(begins);
        }
        if self.timeline.frames() == 0 {
            self.others = self.fresh_others(earlier)?;
        }
        self.timeline.gap();
        Ok(())
    }

    /// Whole frames, which come after those that came before.
    pub fn push(&mut self, frames: &[u8]) -> Result<(), Failure> {
        self.waiting.extend_from_slice(frames);
        self.drain(false)
    }

    /// The end of a stretch.
    pub fn end(&mut self) -> Result<(), Failure> {
        self.drain(true)?;
        self.waiting.clear();
        let of = self.now;
        self.stretches.push(Judged { frames: self.frames, of });
        self.before = self.totals();
        self.now = [Tributary::default(); 4];
        self.frames = 0;
        self.ended = false;
        self.last = None;
        self.tell_absences();
        Ok(())
    }

    /// All stretches together, so far.
    pub fn totals(&self) -> [Tributary; 4] {
        let mut all = self.before;
        for (all, now) in all.iter_mut().zip(&self.now) {
            *all = all.with(now);
        }
        all
    }

    fn drain(&mut self, last: bool) -> Result<(), Failure> {
        let bytes = self.level.frame_bytes();
        let mut at = 0;
        loop {
            let have = self.waiting.len().saturating_sub(at) / bytes;
            let want = usize::try_from(self.timeline.wanted()).unwrap_or(MOST_FRAMES);
            let want = want.min(MOST_FRAMES);
            let count = match have > want {
                true => want,
                false if last && have > 0 => have,
                false => break,
            };
            let end = at + count * bytes;
            let next = self.vote(self.waiting.get(end..end + bytes))?;
            let line = self.waiting.get(at..end).unwrap_or_default().to_vec();
            let ahead = self.waiting.get(end..end + bytes).map(<[u8]>::to_vec);
            self.feed(line, next, ahead)?;
            at = end;
        }
        self.waiting.drain(..at);
        Ok(())
    }

    /// The vote of a frame, where there is one.
    fn vote(&self, frame: Option<&[u8]>) -> Result<Option<u8>, Failure> {
        let frame = match frame {
            Some(frame) => frame,
            None => return Ok(None),
        };
        let mut notes = [0];
        read_notes(self.level, frame, &mut notes)?;
        Ok(Some(vote_after(0, &notes)))
    }

    /// One run of frames.
    fn feed(
        &mut self,
        line: Vec<u8>,
        next: Option<u8>,
        ahead: Option<Vec<u8>>,
    ) -> Result<(), Failure> {
        let count = (line.len() / self.level.frame_bytes()) as u64;
        let run = Run { pair: self.pair.clone(), now: self.now, first: self.frames, line, next };
        let mut pair = self.pair.clone();
        let after = match self.ended {
            true => None,
            false => self.fed(&mut pair, &run.now, &run.line, next, count)?,
        };
        let after = match after {
            Some(after) => after,
            None => {
                self.ended = true;
                self.unreached = self.unreached.saturating_add(count);
                return Ok(());
            }
        };
        self.pair = pair;
        self.now = after;
        self.frames = self.frames.saturating_add(count);
        self.look(&run.line, next, count)?;
        self.locate(&run, ahead.as_deref())?;
        let totals = self.totals();
        self.timeline.add(self.timeline.frames().saturating_add(count), &totals);
        self.last = Some(run);
        Ok(())
    }

    /// Feeds frames to a pair that stands so. Nothing where what was sent has ended.
    fn fed(
        &mut self,
        pair: &mut Pair,
        now: &[Tributary; 4],
        line: &[u8],
        next: Option<u8>,
        count: u64,
    ) -> Result<Option<[Tributary; 4]>, Failure> {
        let more = count.saturating_mul(self.level.room_digits() as u64);
        let lent = match &mut self.sent {
            Some(sent) => sent.lend(now, more)?,
            None => Some(Lent { quarters: &[], first: 0 }),
        };
        match lent {
            Some(lent) => Ok(Some(pair.feed(line, next, lent.quarters, lent.first)?)),
            None => Ok(None),
        }
    }

    /// The recording's begin, held against what else it might be.
    fn look(&mut self, line: &[u8], next: Option<u8>, count: u64) -> Result<(), Failure> {
        if let Some(others) = &mut self.others {
            if self.timeline.frames().saturating_add(count) <= LOOKED && self.stretches.is_empty() {
                others.other_now = others.other.feed(line, next, &[], 0)?;
                others.zeros_now = others.zeros.feed(line, next, &others.room, 0)?;
            }
        }
        Ok(())
    }

    fn tell_absences(&mut self) {
        let others = match &self.others {
            Some(others) => others,
            None => return,
        };
        let other = if self.stages == 15 { 23 } else { 15 };
        let all = self.before.iter().zip(&others.other_now).zip(&others.zeros_now);
        for (absence, ((of, by_other), by_zeros)) in self.absences.iter_mut().zip(all) {
            let taken = |of: &Tributary| of.readings.iter().any(|read| read.judged() > 0);
            let zeros = by_zeros.reading(Reading::Own);
            *absence = match (taken(of), taken(by_other)) {
                (true, true) => Absence::Ones,
                (false, true) => Absence::Other(other),
                (false, false) if zeros.digits > 0 && zeros.cost() == 0 => Absence::Zeros,
                _ => Absence::Unknown,
            };
        }
    }

    /// Where readings slipped in a run that was fed: by feeding it again, frame by frame.
    fn locate(&mut self, run: &Run, ahead: Option<&[u8]>) -> Result<(), Failure> {
        let stretch = self.stretches.len();
        let moved = |engine: &Engine, j: usize, reading: Reading| {
            let slips = |four: &[Tributary; 4]| four.get(j).map(|of| of.reading(reading).slips);
            let open = engine.slips_of(j, reading).map_or(false, Located::is_open);
            open && slips(&run.now) != slips(&engine.now)
        };
        if !(0..4).any(|j| READINGS.into_iter().any(|reading| moved(self, j, reading))) {
            return Ok(());
        }
        let ends = self.ends_of(run)?;
        for (k, end) in ends.iter().enumerate() {
            for j in 0..4 {
                for reading in READINGS {
                    let slip = match self.step(end, j, reading) {
                        Some((before, after)) if after.1 > before.1 => {
                            let here = ends.get(..=k).unwrap_or_default();
                            self.slip(here, run, ahead, j, reading, after.1 - before.1)?
                        }
                        Some((_, after)) => {
                            if let Some(located) = self.slips_of_mut(j, reading) {
                                located.cut_to(stretch, after.1);
                            }
                            None
                        }
                        None => None,
                    };
                    if let (Some(slip), Some(located)) = (slip, self.slips_of_mut(j, reading)) {
                        located.push(slip);
                    }
                }
            }
        }
        Ok(())
    }

    /// Shift and slips of a reading before and after a frame, where the slips changed.
    fn step(&self, end: &End, j: usize, reading: Reading) -> Option<((i64, u64), (i64, u64))> {
        let of = |four: &[Tributary; 4]| four.get(j).map(|of| *of.reading(reading));
        let (before, after) = (of(&end.before)?, of(&end.after)?);
        let changed = before.slips != after.slips;
        changed.then_some(((before.shift, before.slips), (after.shift, after.slips)))
    }

    fn slips_of(&self, j: usize, reading: Reading) -> Option<&Located> {
        self.located.get(j).and_then(|three| three.get(reading.number()))
    }

    fn slips_of_mut(&mut self, j: usize, reading: Reading) -> Option<&mut Located> {
        self.located.get_mut(j).and_then(|three| three.get_mut(reading.number()))
    }

    /// Every frame of a run on its own.
    fn ends_of(&mut self, run: &Run) -> Result<Vec<End>, Failure> {
        let bytes = self.level.frame_bytes();
        let mut pair = run.pair.clone();
        let mut now = run.now;
        let mut ends = Vec::new();
        for (k, frame) in run.line.chunks(bytes).enumerate() {
            let start = (k + 1) * bytes;
            let next = match run.line.get(start..start + bytes) {
                Some(frame) => self.vote(Some(frame))?,
                None => run.next,
            };
            let after = match self.fed(&mut pair, &now, frame, next, 1)? {
                Some(after) => after,
                None => break,
            };
            ends.push(End { frame: run.first + k as u64, before: now, after });
            now = after;
        }
        Ok(ends)
    }

    /// The slip that the last of these frames shows.
    fn slip(
        &mut self,
        ends: &[End],
        run: &Run,
        ahead: Option<&[u8]>,
        j: usize,
        reading: Reading,
        slips: u64,
    ) -> Result<Option<Slip>, Failure> {
        let of = |four: &[Tributary; 4]| four.get(j).map(|of| *of.reading(reading));
        let last = match ends.last() {
            Some(last) => last,
            None => return Ok(None),
        };
        let (before, after) = match (of(&last.before), of(&last.after)) {
            (Some(before), Some(after)) => (before, after),
            _ => return Ok(None),
        };
        let digit = after.entered;
        let starts = |end: &&End| of(&end.before).map_or(false, |read| read.digits <= digit);
        let mut found = ends.iter().rev().find(starts).map(|end| (end.frame, end.before));
        // It may have been in the run before, which is then fed again too.
        if found.is_none() {
            if let Some(run) = self.last.take() {
                let ends = self.ends_of(&run)?;
                found = ends.iter().rev().find(starts).map(|end| (end.frame, end.before));
                self.last = Some(run);
            }
        }
        let (frame, at) = match found {
            Some((frame, before)) => (frame, of(&before).map_or(0, |read| read.digits)),
            None => (run.first, digit),
        };
        let vote = self.places.is_justification(j, digit.saturating_sub(at))
            && self.is_split(run, ahead, frame, j, reading)?;
        let judged = self.timeline.frames().saturating_sub(run.first);
        Ok(Some(Slip {
            stretch: self.stretches.len(),
            digit,
            frame: judged.saturating_add(frame),
            step: after.shift.saturating_sub(before.shift),
            slips,
            vote,
        }))
    }

    /// Whether the control digits did not all agree by which this frame acts in a reading.
    fn is_split(
        &self,
        run: &Run,
        ahead: Option<&[u8]>,
        frame: u64,
        j: usize,
        reading: Reading,
    ) -> Result<bool, Failure> {
        let acts = match reading {
            Reading::Own => Some(frame),
            Reading::Before => frame.checked_sub(1),
            Reading::After => frame.checked_add(1),
        };
        let earlier = acts.and_then(|acts| acts.checked_sub(1));
        let earlier = earlier.filter(|_| self.level.looks_at_earlier());
        for acts in [acts, earlier].into_iter().flatten() {
            if let Some(bytes) = self.frame(run, ahead, acts) {
                let noted = read_notes(self.level, bytes, &mut [0])?;
                if noted.dissent.get(j).map_or(false, |dissent| *dissent > 0) {
                    return Ok(true);
                }
            }
        }
        Ok(false)
    }

    /// A frame of the run, of the one before it, or the one after it.
    fn frame<'a>(&'a self, run: &'a Run, ahead: Option<&'a [u8]>, frame: u64) -> Option<&'a [u8]> {
        let bytes = self.level.frame_bytes();
        let from = |run: &'a Run| {
            let k = usize::try_from(frame.checked_sub(run.first)?).ok()?;
            run.line.get(k.checked_mul(bytes)?..k.checked_add(1)?.checked_mul(bytes)?)
        };
        let after = run.first.saturating_add((run.line.len() / bytes) as u64);
        let ahead = ahead.filter(|_| frame == after);
        from(run).or_else(|| self.last.as_ref().and_then(from)).or(ahead)
    }
}

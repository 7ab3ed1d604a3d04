//! The frames of a recording that was begun anywhere, as the library's receiver hands them over, and
//! where each stretch of them begins in what was sent.

use spritbobbin::{begins, extract, read_notes, vote_after, Level, Receiver};

use super::engine::Engine;
use super::places::Places;
use super::sent::SentFile;
use crate::failure::Failure;

/// The bytes of a quarter that are looked at at a time for where a stretch begins.
const WINDOW: usize = 64 * 1024;

/// Digits before and after the place where the next stretch is expected that are looked at first.
const NEAR: u64 = 16 * 1024;

/// A stretch that was found.
#[derive(Clone, Copy, Debug, Default)]
pub struct Stretch {
    /// The digit of the recording at which its first frame that is judged begins.
    pub digit: u64,
    /// Where it begins in what was sent.
    pub begins: Option<[u64; 4]>,
    /// How many of so many digits differ there, of the four tributaries together.
    pub differ: u64,
    pub looked: u64,
}

/// Frames that are found, and judged as they come.
pub struct Finding {
    level: Level,
    receiver: Receiver,
    earlier: Option<u8>,
    /// The digits of the recording that were taken.
    pub taken: u64,
    /// Where the last frame ended.
    end: Option<u64>,
    /// A stretch's first frame, where it only says the vote before the next.
    vote: Option<u8>,
    fresh: bool,
    pub stretches: Vec<Stretch>,
    pub frames: u64,
}

impl Finding {
    /// With the vote before the first frame, where it is known.
    pub fn new(level: Level, earlier: Option<u8>) -> Finding {
        Finding {
            level,
            receiver: Receiver::new(level),
            earlier,
            taken: 0,
            end: None,
            vote: None,
            fresh: true,
            stretches: Vec::new(),
            frames: 0,
        }
    }

    /// The next bytes of the recording.
    pub fn feed(&mut self, bytes: &[u8], engine: &mut Engine) -> Result<(), Failure> {
        let all = usize::try_from(spritbobbin::digits_in(bytes.len() as u64)).unwrap_or(usize::MAX);
        let mut first = 0;
        while first < all {
            let taken = self.receiver.take(bytes, first, all.saturating_sub(first))?;
            if taken.digits == 0 {
                break;
            }
            first = first.saturating_add(taken.digits);
            self.taken = self.taken.saturating_add(taken.digits as u64);
            if let Some(frame) = &taken.frame {
                self.frame(frame.bytes(), engine)?;
            }
        }
        Ok(())
    }

    /// The end of the recording.
    pub fn end(&mut self, engine: &mut Engine) -> Result<(), Failure> {
        if !self.fresh {
            engine.end()?;
            self.fresh = true;
        }
        Ok(())
    }

    fn frame(&mut self, frame: &[u8], engine: &mut Engine) -> Result<(), Failure> {
        let digit = self.taken.saturating_sub(self.level.frame_digits() as u64);
        if self.end != Some(digit) {
            self.end(engine)?;
            self.vote = None;
        }
        self.end = Some(self.taken);
        self.frames = self.frames.saturating_add(1);
        if self.fresh {
            // A frame acts on the vote before it at levels 12 and 14, which the first does not have.
            let known = self.earlier.take().filter(|_| self.stretches.is_empty());
            let known = if self.level.looks_at_earlier() { self.vote.or(known) } else { Some(0) };
            match known {
                Some(vote) => self.begin(frame, digit, vote, engine)?,
                None => {
                    let mut notes = [0];
                    read_notes(self.level, frame, &mut notes)?;
                    self.vote = Some(vote_after(0, &notes));
                    return Ok(());
                }
            }
        }
        engine.push(frame)
    }

    /// A stretch begins with this frame.
    fn begin(
        &mut self,
        frame: &[u8],
        digit: u64,
        vote: u8,
        engine: &mut Engine,
    ) -> Result<(), Failure> {
        let mut stretch = Stretch { digit, ..Stretch::default() };
        let mut at = [0; 4];
        if let Some(sent) = engine.sent() {
            let expected = self.expected(digit, engine);
            let found = Search::of(self.level, frame, vote)?.in_file(sent, expected)?;
            at = found.map(|found| found.at);
            stretch.begins = Some(at);
            stretch.differ = found.iter().map(|found| found.differ).sum();
            stretch.looked = found.iter().map(|found| found.looked).sum();
        }
        engine.begin(vote, at)?;
        self.stretches.push(stretch);
        self.fresh = false;
        Ok(())
    }

    /// Where a stretch that begins at this digit of the recording should begin in what was sent, from
    /// where the one before it did.
    fn expected(&self, digit: u64, engine: &Engine) -> Option<[u64; 4]> {
        let last = self.stretches.last()?;
        let begins = last.begins?;
        let came = engine.stretches.last()?;
        let frames = digit.checked_sub(last.digit)? / self.level.frame_digits() as u64;
        let mut at = begins;
        for (at, of) in at.iter_mut().zip(&came.of) {
            // As many digits a frame as the stretch had.
            let digits = of.readings.first().map_or(0, |own| own.digits);
            let more = u128::from(digits) * u128::from(frames) / u128::from(came.frames.max(1));
            *at = at.saturating_add(u64::try_from(more).ok()?);
        }
        Some(at)
    }
}

/// Where a tributary's first digits were found: their number, and how many differ there.
#[derive(Clone, Copy, Debug, Default)]
struct Found {
    at: u64,
    differ: u64,
    looked: u64,
}

impl Found {
    /// So few differ that no other place is as good: digits that have nothing to do with each other
    /// differ in half of all places.
    fn is_sure(&self) -> bool {
        self.differ.saturating_mul(8) <= self.looked
    }
}

/// The first digits of each tributary of a stretch: those before its first justification place, which
/// are the same whatever the multiplexer acts on.
struct Search {
    digits: Vec<u8>,
    counts: [u64; 4],
}

impl Search {
    fn of(level: Level, frame: &[u8], vote: u8) -> Result<Search, Failure> {
        let mut notes = [0];
        let mut digits = vec![0; level.buffer_bytes(1)];
        read_notes(level, frame, &mut notes)?;
        extract(level, vote, frame, &notes, &mut digits)?;
        Ok(Search { digits, counts: Places::of(level)?.firsts() })
    }

    fn in_file(&self, sent: &SentFile, expected: Option<[u64; 4]>) -> Result<[Found; 4], Failure> {
        let quarter = (self.digits.len() / 4).max(1);
        let mut four = [Found::default(); 4];
        let all = four.iter_mut().zip(self.digits.chunks(quarter)).zip(self.counts);
        for (j, ((found, digits), count)) in all.enumerate() {
            let near = match expected.and_then(|four| four.get(j).copied()) {
                Some(at) => {
                    Some(self.from(sent, j, digits, count, at.saturating_sub(NEAR), at + NEAR)?)
                }
                None => None,
            };
            *found = match near.filter(Found::is_sure) {
                Some(near) => near,
                None => self.from(sent, j, digits, count, 0, u64::MAX)?,
            };
        }
        Ok(four)
    }

    /// The best place between two digits of a quarter; the first that is sure ends the search.
    fn from(
        &self,
        sent: &SentFile,
        j: usize,
        digits: &[u8],
        count: u64,
        low: u64,
        high: u64,
    ) -> Result<Found, Failure> {
        let mut best = Found { at: 0, differ: count, looked: count };
        let mut room = vec![0; WINDOW];
        let mut at = spritbobbin::whole_bytes(low);
        // Windows overlap by the digits that are looked for.
        let overlap = spritbobbin::span(0, count).bytes.end;
        while spritbobbin::digits_in(at) < high {
            let bytes = sent.bytes_of(j, at, &mut room)?;
            let window = room.get(..bytes).unwrap_or_default();
            if spritbobbin::digits_in(bytes as u64) < count {
                break;
            }
            let tried =
                spritbobbin::digits_in(bytes as u64).saturating_sub(count).saturating_add(1);
            let found = begins(digits, count as usize, window, 0, tried as usize)?;
            if (found.differing as u64) < best.differ {
                let at = spritbobbin::digits_in(at).saturating_add(found.at as u64);
                best = Found { at, differ: found.differing as u64, looked: count };
            }
            if best.is_sure() || bytes < WINDOW {
                break;
            }
            at = at.saturating_add((WINDOW as u64).saturating_sub(overlap));
        }
        Ok(best)
    }
}

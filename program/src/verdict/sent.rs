//! What was sent, read along with the recording: a part of each quarter around what the next frames
//! need, so that memory is bounded whatever the length.

use spritbobbin::copy_digits;

use super::{Tributary, READINGS};
use crate::failure::Failure;
use crate::files::Input;

/// The bytes of a quarter that are held at a time, where what is needed is not more.
const HELD: u64 = 512 * 1024;

/// How far a reading may move away, in 64 frames, from where its digits are counted to be.
const ROOM: u64 = 1024;

/// The file of the digits sent, and where in each quarter the stretch at hand begins.
pub struct SentFile {
    input: Input,
    /// The bytes of a quarter.
    quarter: u64,
    begins: [u64; 4],
    /// Whether frames that it does not reach are left out, as where its begin was looked for.
    bounded: bool,
    held: Vec<u8>,
    /// The digits that are held of each quarter: the number of the first, and how many.
    first: u64,
    digits: u64,
}

/// Digits as the pair takes them: four quarters, and the number of their first digit.
pub struct Lent<'a> {
    pub quarters: &'a [u8],
    pub first: u64,
}

impl SentFile {
    pub fn new(input: Input) -> SentFile {
        let quarter = input.bytes() / 4;
        SentFile {
            input,
            quarter,
            begins: [0; 4],
            bounded: false,
            held: Vec::new(),
            first: 0,
            digits: 0,
        }
    }

    pub fn input(&self) -> &Input {
        &self.input
    }

    /// The stretch at hand begins with these digits.
    pub fn begin_at(&mut self, begins: [u64; 4]) {
        self.begins = begins;
        self.bounded = true;
        self.held.clear();
        self.digits = 0;
    }

    /// How many digits there are of every tributary, from where the stretch begins.
    pub fn left(&self) -> u64 {
        let most = self.begins.iter().max().copied().unwrap_or(0);
        spritbobbin::digits_in(self.quarter).saturating_sub(most)
    }

    /// The digits that readings which stand so need for so many digits more. Nothing where there are
    /// not so many.
    pub fn lend(&mut self, now: &[Tributary; 4], more: u64) -> Result<Option<Lent<'_>>, Failure> {
        let at = |of: &Tributary| {
            READINGS.map(|reading| {
                let read = of.reading(reading);
                match read.shift {
                    shift if shift < 0 => read.digits.saturating_sub(shift.unsigned_abs()),
                    shift => read.digits.saturating_add(shift.unsigned_abs()),
                }
            })
        };
        let places = now.iter().flat_map(at);
        let (low, high) = places.fold((u64::MAX, 0), |(low, high), at| (low.min(at), high.max(at)));
        let low = low.saturating_sub(ROOM);
        let high = high.saturating_add(more);
        if self.bounded && high > self.left() {
            return Ok(None);
        }
        let high = high.saturating_add(ROOM).min(self.left());
        if low < self.first || high > self.first.saturating_add(self.digits) {
            self.hold(low, high)?;
        }
        Ok(Some(Lent { quarters: &self.held, first: self.first }))
    }

    /// Reads these digits of every quarter, and as many after them as are held at a time.
    fn hold(&mut self, low: u64, high: u64) -> Result<(), Failure> {
        let first = spritbobbin::digits_in(spritbobbin::whole_bytes(low));
        let needed = high.saturating_sub(first);
        let digits = needed.saturating_mul(2).max(spritbobbin::digits_in(HELD));
        let digits = digits.min(self.left().saturating_sub(first));
        let bytes = spritbobbin::span(0, digits).bytes.end;
        let each = usize::try_from(bytes).unwrap_or(usize::MAX);
        self.held.clear();
        self.held.resize(each.saturating_mul(4), 0);
        for (j, (to, begin)) in self.held.chunks_mut(each.max(1)).zip(self.begins).enumerate() {
            let from = spritbobbin::span(begin.saturating_add(first), digits);
            let start = self.quarter.saturating_mul(j as u64);
            let at = start.saturating_add(from.bytes.start);
            let count = from.bytes.end.saturating_sub(from.bytes.start);
            if from.first == 0 {
                let count = usize::try_from(count).unwrap_or(usize::MAX);
                if let Some(to) = to.get_mut(..count) {
                    self.input.read_at(at, to)?;
                }
                continue;
            }
            let mut room = vec![0; usize::try_from(count).unwrap_or(usize::MAX)];
            self.input.read_at(at, &mut room)?;
            let (first, digits) = (from.first as usize, digits as usize);
            copy_digits(to, 0, &room, first, digits)?;
        }
        self.first = first;
        self.digits = digits;
        Ok(())
    }

    /// Some digits of one quarter from a byte on, for looking where a stretch begins.
    pub fn bytes_of(&self, j: usize, at: u64, room: &mut [u8]) -> Result<usize, Failure> {
        let left = self.quarter.saturating_sub(at);
        let count = usize::try_from(left).unwrap_or(usize::MAX).min(room.len());
        if let Some(room) = room.get_mut(..count) {
            self.input.read_at(self.quarter.saturating_mul(j as u64).saturating_add(at), room)?;
        }
        Ok(count)
    }
}

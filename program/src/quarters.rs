//! The four quarters of a file of tributaries: read on from digit to digit, and written behind one another, wherever in a byte a run ends.

use std::fs::File;
use std::os::unix::fs::FileExt;

use spritbobbin::{copy_digits, digits_in, span, whole_bytes};

use crate::failure::Failure;
use crate::files::{Input, Output, Window};

/// The bytes of a quarter that are written at once.
const WINDOW: u64 = 256 * 1024;

/// Digits that are read from some bytes of a file.
#[derive(Debug)]
pub struct DigitsIn<'a> {
    window: Window<'a>,
    /// The digits that were used.
    used: u64,
}

impl<'a> DigitsIn<'a> {
    /// Those of so many bytes from a place on.
    pub fn new(from: &'a Input, start: u64, bytes: u64) -> DigitsIn<'a> {
        DigitsIn { window: Window::new(from, start, bytes), used: 0 }
    }

    /// The four quarters of a file.
    pub fn quarters(from: &'a Input) -> [DigitsIn<'a>; 4] {
        let quarter = from.bytes() / 4;
        [0, 1, 2, 3].map(|j| DigitsIn::new(from, quarter.saturating_mul(j), quarter))
    }

    /// Puts the next so many digits at the begin of a slice. They are used only as [`used`](Self::used) says.
    pub fn fill(&mut self, to: &mut [u8], count: usize) -> Result<(), Failure> {
        let left = digits_in(self.window.bytes()).saturating_sub(self.used);
        let count = usize::try_from(left).unwrap_or(usize::MAX).min(count);
        let wanted = span(self.used, count as u64);
        let from = self.window.get(wanted.bytes)?;
        copy_digits(to, 0, from, usize::try_from(wanted.first).unwrap_or(0), count)?;
        Ok(())
    }

    /// So many of the digits were used.
    pub fn used(&mut self, count: usize) {
        self.used = self.used.saturating_add(count as u64);
    }
}

/// Four tributaries' digits, each written behind its own.
#[derive(Debug)]
pub struct QuartersOut {
    output: Output,
    /// The bytes of a quarter, where they are known before the end.
    quarter: Option<u64>,
    parts: [Part; 4],
}

/// The digits of one quarter that are not written yet, behind so many bytes that are.
#[derive(Debug)]
struct Part {
    waiting: Vec<u8>,
    digits: u64,
    written: u64,
    /// Where they go while the quarter's place is not known.
    aside: Option<File>,
}

impl QuartersOut {
    /// Quarters of so many bytes; or of a length that is only known at the end.
    pub fn new(output: Output, quarter: Option<u64>) -> Result<QuartersOut, Failure> {
        let part = || -> Result<Part, Failure> {
            let aside = if quarter.is_none() { Some(output.unnamed()?) } else { None };
            let bytes = usize::try_from(WINDOW).unwrap_or(0);
            Ok(Part { waiting: vec![0; bytes], digits: 0, written: 0, aside })
        };
        let parts = [part()?, part()?, part()?, part()?];
        Ok(QuartersOut { output, quarter, parts })
    }

    /// Puts the first so many digits of each quarter of a buffer behind those that came before.
    pub fn put(&mut self, buffer: &[u8], digits: [usize; 4]) -> Result<(), Failure> {
        let quarter = buffer.len() / 4;
        let QuartersOut { output, quarter: place, parts } = self;
        let slices = buffer.chunks(quarter.max(1));
        for ((j, part), (slice, count)) in (0_u64..).zip(parts).zip(slices.zip(digits)) {
            let start = place.map_or(0, |bytes| bytes.saturating_mul(j));
            if digits_in(part.waiting.len() as u64) < part.digits.saturating_add(count as u64) {
                part.flush(output, start)?;
            }
            let at = usize::try_from(part.digits).unwrap_or(usize::MAX);
            copy_digits(&mut part.waiting, at, slice, 0, count)?;
            part.digits = part.digits.saturating_add(count as u64);
        }
        Ok(())
    }

    /// Writes what waits, and makes every quarter so long with zeros.
    pub fn end(self, quarter: u64) -> Result<Output, Failure> {
        let QuartersOut { mut output, parts, .. } = self;
        for (j, mut part) in (0_u64..).zip(parts) {
            let start = quarter.saturating_mul(j);
            let at = if part.aside.is_some() { 0 } else { start };
            part.flush(&mut output, at)?;
            part.rest(&output, at)?;
            if let Some(mut file) = part.aside.take() {
                output.pour_at(start, &mut file)?;
            }
        }
        output.set_length(quarter.saturating_mul(4))?;
        Ok(output)
    }
}

impl Part {
    /// Writes the whole bytes, and keeps the digits of the last.
    fn flush(&mut self, output: &mut Output, start: u64) -> Result<(), Failure> {
        let bytes = whole_bytes(self.digits);
        let whole = usize::try_from(bytes).unwrap_or(0);
        let last: Vec<u8> = self.waiting.get(whole).copied().into_iter().collect();
        let left = self.digits.saturating_sub(digits_in(bytes));
        if self.aside.is_some() {
            self.write(output, start, self.waiting.get(..whole).unwrap_or_default())?;
        } else {
            let full = std::mem::take(&mut self.waiting);
            self.waiting = output.write_behind(start.saturating_add(self.written), full, whole)?;
        }
        // Whatever stands in it is written over, or stands behind the digits.
        self.waiting.resize(usize::try_from(WINDOW).unwrap_or(0), 0);
        copy_digits(&mut self.waiting, 0, &last, 0, usize::try_from(left).unwrap_or(0))?;
        self.digits = left;
        self.written = self.written.saturating_add(bytes);
        Ok(())
    }

    /// Writes the byte that is not full, with zeros behind its digits.
    fn rest(&mut self, output: &Output, start: u64) -> Result<(), Failure> {
        let mut last = [0];
        let digits = usize::try_from(self.digits).unwrap_or(0);
        copy_digits(&mut last, 0, &self.waiting, 0, digits)?;
        self.write(output, start, if digits > 0 { &last } else { &[] })
    }

    fn write(&self, output: &Output, start: u64, slice: &[u8]) -> Result<(), Failure> {
        match &self.aside {
            Some(file) => file
                .write_all_at(slice, self.written)
                .map_err(|why| Failure::not_whole(output.name(), &why)),
            None => output.write_at(start.saturating_add(self.written), slice),
        }
    }
}

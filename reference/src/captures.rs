//! Captures kept in a file: the writer and the reader.

use std::ops::{Range, RangeInclusive};

use crate::level::{row, MOST_FRAMES};

#[derive(Clone, Debug, Default, PartialEq, Eq)]
pub struct Written {
    pub refusal: u64,
    /// The file's bytes.
    pub bytes: u64,
    /// The named byte, which is 0 in every answer of the writer.
    pub byte: u64,
}

#[derive(Clone, Debug, Default, PartialEq, Eq)]
pub struct Read {
    pub refusal: u64,
    pub level: u64,
    /// Where the line stands in the file.
    pub line: Range<usize>,
    /// Where the label stands, if there is one.
    pub label: Option<Range<usize>>,
    /// Where the field at fault begins or should begin, under 9 only.
    pub byte: u64,
}

/// The fields in their order: tag, and how many bytes each may have. The last may be left out.
const FIELDS: [(u8, RangeInclusive<usize>); 3] = [(1, 1..=1), (2, 0..=0xFFFF), (3, 0..=32)];

/// Whether a line of so many bytes is refused with 1, with 2, or not.
fn line_refusal(level: u64, bytes: usize) -> u64 {
    match row(level) {
        None => 1,
        Some(row) if bytes % row.frame_bytes() != 0 => 2,
        Some(row) if (bytes / row.frame_bytes()) as u64 > MOST_FRAMES => 2,
        Some(_) => 0,
    }
}

/// Writes a capture at the beginning of the file.
pub fn write_capture(level: u64, line: &[u8], label: Option<&[u8]>, file: &mut [u8]) -> Written {
    let refused = |refusal| Written { refusal, ..Written::default() };
    let refusal = line_refusal(level, line.len());
    if refusal != 0 {
        return refused(refusal);
    }
    if label.map_or(false, |label| label.len() > 32) {
        return refused(9);
    }
    let mut bytes = Vec::new();
    let level = [level as u8];
    let bodies = [Some(&level[..]), Some(line), label];
    for ((tag, _), body) in FIELDS.into_iter().zip(bodies) {
        if let Some(body) = body {
            bytes.push(tag);
            bytes.extend((body.len() as u16).to_be_bytes());
            bytes.extend(body);
        }
    }
    if file.len() < bytes.len() {
        return refused(4);
    }
    file[..bytes.len()].copy_from_slice(&bytes);
    Written { refusal: 0, bytes: bytes.len() as u64, byte: 0 }
}

/// Reads a capture.
pub fn read_capture(file: &[u8]) -> Read {
    let refused = |refusal, byte: usize| Read { refusal, byte: byte as u64, ..Read::default() };
    let mut bodies = match bodies(file) {
        Ok(bodies) => bodies.into_iter(),
        Err(byte) => return refused(9, byte),
    };
    let (first, line) = (bodies.next().unwrap_or_default(), bodies.next().unwrap_or_default());
    let level = u64::from(file[first.start]);
    match line_refusal(level, line.len()) {
        0 => Read { refusal: 0, level, line, label: bodies.next(), byte: 0 },
        refusal => refused(refusal, 0),
    }
}

/// Where the bodies of the fields stand, or where the field at fault begins or should begin.
fn bodies(file: &[u8]) -> Result<Vec<Range<usize>>, usize> {
    let (mut found, mut at) = (Vec::new(), 0);
    for (tag, lengths) in FIELDS {
        if tag == 3 && at == file.len() {
            break;
        }
        let body = body(file, at, tag).filter(|body| lengths.contains(&body.len())).ok_or(at)?;
        at = body.end;
        found.push(body);
    }
    if at == file.len() {
        Ok(found)
    } else {
        Err(at)
    }
}

/// Where the body of the field of this tag stands that begins there, if it is there whole.
fn body(file: &[u8], at: usize, tag: u8) -> Option<Range<usize>> {
    match *file.get(at..)? {
        [first, high, low, ..] if first == tag => {
            let body = at + 3..at + 3 + usize::from(u16::from_be_bytes([high, low]));
            file.get(body.clone()).map(|_| body)
        }
        _ => None,
    }
}

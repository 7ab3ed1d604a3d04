//! Captures: lines kept in files.

use crate::raw::{self, count};
use crate::{Level, Refusal};

/// The most bytes of a capture's label.
pub const MOST_LABEL_BYTES: usize = 32;

/// What a capture holds, lent from the file that was read.
#[derive(Clone, Copy, Debug, PartialEq, Eq, Hash)]
pub struct Capture<'a> {
    /// The level.
    pub level: Level,
    /// The line: 0 to 64 whole frames.
    pub line: &'a [u8],
    /// The site label, if there is one. A label of no bytes is not the same as none.
    pub label: Option<&'a [u8]>,
}

/// How many bytes the file of a line and a label of so many bytes has.
///
/// ```
/// assert_eq!(spritbobbin::capture_bytes(106, None), 113);
/// assert_eq!(spritbobbin::capture_bytes(106, Some(5)), 121);
/// ```
pub fn capture_bytes(line: usize, label: Option<usize>) -> usize {
    line.saturating_add(label.map_or(7, |bytes| bytes.saturating_add(10)))
}

/// Writes a capture at the beginning of a buffer and gives the file's bytes. Bytes after the file
/// stay as they were.
///
/// # Errors
///
/// In this order: [`Refusal::Line`], [`Refusal::Label`], [`Refusal::File`]. The buffer is then as it
/// was.
///
/// # Examples
///
/// ```
/// use spritbobbin::{read_capture, write_capture, Level};
///
/// # fn main() -> Result<(), spritbobbin::Refusal> {
/// let (line, mut file) = ([0xF4; 106], [0; 200]);
/// let bytes = write_capture(Level::Two, &line, Some(b"north"), &mut file)?;
/// assert_eq!(bytes, 121);
/// assert_eq!(file[..7], [0x01, 0x00, 0x01, 0x02, 0x02, 0x00, 0x6A]);
///
/// let capture = read_capture(&file[..bytes])?;
/// assert_eq!((capture.level, capture.line), (Level::Two, &line[..]));
/// assert_eq!(capture.label, Some(&b"north"[..]));
/// # Ok(())
/// # }
/// ```
pub fn write_capture(
    level: Level,
    line: &[u8],
    label: Option<&[u8]>,
    file: &mut [u8],
) -> Result<usize, Refusal> {
    let mut answer = [0; 2];
    let words = label.unwrap_or_default();
    // Sound: each pointer comes with the length of its own slice, and the borrow that may be
    // written is exclusive, so nothing overlaps.
    let number = unsafe {
        raw::spritbobbin_capture_write(
            level.number(),
            line.as_ptr(),
            line.len(),
            words.as_ptr(),
            words.len(),
            u64::from(label.is_some()),
            file.as_mut_ptr(),
            file.len(),
            &mut answer,
        )
    };
    let needed = capture_bytes(line.len(), label.map(<[u8]>::len));
    match number {
        0 => Ok(count(answer[0])),
        1 => Err(Refusal::Level { number: level.number() }),
        2 => Err(Refusal::Line { level, bytes: line.len() }),
        9 => Err(Refusal::Label { bytes: words.len() }),
        4 => Err(Refusal::File { bytes: file.len(), needed }),
        _ => Err(Refusal::Unknown { number }),
    }
}

/// Reads a capture: the file must hold it whole, with nothing after it. Nothing is copied.
///
/// # Errors
///
/// In this order: [`Refusal::Field`], [`Refusal::Level`], [`Refusal::Line`]. What the library does not
/// say under a refusal, the level's number and the line's bytes, is taken from where an accepted run
/// of fields has it.
///
/// # Examples
///
/// ```
/// use spritbobbin::{read_capture, Refusal};
///
/// let cut_off = [0x01, 0x00, 0x01, 0x02, 0x02, 0x00, 0x01]; // a line of one byte, missing
/// assert_eq!(read_capture(&cut_off), Err(Refusal::Field { byte: 4 }));
/// ```
pub fn read_capture(file: &[u8]) -> Result<Capture<'_>, Refusal> {
    let mut answer = [0; 7];
    // Sound: the pointer comes with its slice's length, and the file is not written.
    let number = unsafe { raw::spritbobbin_capture_read(file.as_ptr(), file.len(), &mut answer) };
    let [_, line, line_bytes, labelled, label, label_bytes, byte] = answer.map(count);
    match number {
        0 => Ok(Capture {
            level: Level::try_from(answer[0])?,
            line: &file[line..line + line_bytes],
            label: (labelled == 1).then(|| &file[label..label + label_bytes]),
        }),
        9 => Err(Refusal::Field { byte }),
        1 => Err(Refusal::Level { number: u64::from(file[3]) }),
        2 => Err(Refusal::Line {
            level: Level::try_from(u64::from(file[3]))?,
            bytes: usize::from(u16::from_be_bytes([file[5], file[6]])),
        }),
        _ => Err(Refusal::Unknown { number }),
    }
}

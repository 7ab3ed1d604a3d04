//! Multiplexing, reading notes and extracting by notes, from a known start.

use crate::digits::{pack, unpack};
use crate::frame::{self, Waiting};
use crate::level::{row, Row, MOST_FRAMES};

/// What multiplexing, and extracting by notes, answer.
#[derive(Clone, Debug, Default, PartialEq, Eq)]
pub struct Counted {
    pub refusal: u64,
    /// The first frame whose note is wrong, under 5 and 10 only; 0 for a wrong earlier vote.
    pub frame: u64,
    pub counts: [u64; 4],
}

/// What reading notes answers.
#[derive(Clone, Debug, Default, PartialEq, Eq)]
pub struct Noted {
    pub refusal: u64,
    /// Alignment digits that differ from the word, over all frames.
    pub alignment: u64,
    /// Each tributary's control digits that differ from their majority, over all frames.
    pub dissent: [u64; 4],
}

/// The refusals 1 to 3, of a line and its notes.
pub fn frames_refusal(level: u64, line_bytes: u64, notes_bytes: u64) -> u64 {
    let frame_bytes = match row(level) {
        Some(row) => row.frame_bytes() as u64,
        None => return 1,
    };
    let frames = line_bytes / frame_bytes;
    if line_bytes % frame_bytes != 0 || frames > MOST_FRAMES {
        return 2;
    }
    if notes_bytes != frames {
        return 3;
    }
    0
}

/// The refusals 1 to 4, which depend only on the level and on lengths. It takes lengths
/// and not slices, so that it also answers for lengths that no memory holds.
pub fn length_refusal(level: u64, line_bytes: u64, notes_bytes: u64, buffer_bytes: u64) -> u64 {
    let refusal = frames_refusal(level, line_bytes, notes_bytes);
    let row = match row(level).filter(|_| refusal == 0) {
        Some(row) => row,
        None => return refusal,
    };
    // Wider numbers: eight times a quarter need not fit in 64 bits.
    let room = u128::from(buffer_bytes / 4) * 8;
    let needed = u128::from(notes_bytes) * row.most_digits() as u128;
    if buffer_bytes % 4 != 0 || room < needed {
        return 4;
    }
    0
}

/// The refusals 1 to 5 of a call that goes by notes, or the level's row.
fn judge<'a>(
    level: u64,
    earlier: u64,
    line: &[u8],
    notes: &[u8],
    buffer: &[u8],
) -> Result<&'a Row, Counted> {
    let lengths = [line.len(), notes.len(), buffer.len()].map(|n| n as u64);
    let refusal = length_refusal(level, lengths[0], lengths[1], lengths[2]);
    let row = match row(level).filter(|_| refusal == 0) {
        Some(row) => row,
        None => return Err(Counted { refusal, ..Counted::default() }),
    };
    let wrong = if wrong_earlier(row, earlier) { Some(0) } else { first_wrong_note(row, notes) };
    match wrong {
        Some(frame) => Err(Counted { refusal: 5, frame: frame as u64, counts: [0; 4] }),
        None => Ok(row),
    }
}

/// Whether the vote before frame 0 has more than four bits, where it is looked at.
pub fn wrong_earlier(row: &Row, earlier: u64) -> bool {
    row.negative_places && earlier > 15
}

/// The notes, each after the one before it, the first after the earlier vote.
pub fn with_before(earlier: u64, notes: &[u8]) -> impl Iterator<Item = (u8, u8)> + '_ {
    // An earlier vote that does not fit a byte is one that is not looked at.
    let before = std::iter::once(earlier as u8).chain(notes.iter().copied());
    before.zip(notes.iter().copied())
}

/// Writes the line of the notes and of the four quarters' first digits. `earlier` is the vote
/// before frame 0.
pub fn multiplex(
    level: u64,
    earlier: u64,
    line: &mut [u8],
    notes: &[u8],
    buffer: &[u8],
) -> Counted {
    let row = match judge(level, earlier, line, notes, buffer) {
        Ok(row) => row,
        Err(refused) => return refused,
    };
    // After 5 over all notes, and of multiplexing alone: request 14.
    if let Some(frame) = first_note_without_national(row, notes) {
        return Counted { refusal: 10, frame: frame as u64, counts: [0; 4] };
    }
    // At most so many digits of a quarter are looked at, however long it is.
    let most = notes.len() * row.most_digits();
    let quarter = buffer.len() / 4;
    let mut waiting: Vec<Waiting> =
        (0..4).map(|j| unpack(&buffer[j * quarter..(j + 1) * quarter], most).into()).collect();
    let mut digits = Vec::new();
    for (before, note) in with_before(earlier, notes) {
        digits.extend(frame::fill(row, before, note, &mut waiting));
    }
    line.copy_from_slice(&pack(&digits));
    let counts = [0, 1, 2, 3].map(|j| (most - waiting[j].len()) as u64);
    Counted { refusal: 0, frame: 0, counts }
}

/// Writes the line of a multiplexer that is a frame late: it sends by the decisions of the note before
/// and the service digits of a frame's own note, and says the decisions of its own.
pub fn late_multiplex(
    level: u64,
    earlier: u64,
    line: &mut [u8],
    notes: &[u8],
    buffer: &[u8],
) -> Counted {
    let late: Vec<u8> =
        with_before(earlier, notes).map(|(before, note)| before & 0x0F | note & 0xF0).collect();
    let answer = multiplex(level, earlier, line, &late, buffer);
    if let Some(row) = row(level).filter(|_| answer.refusal == 0) {
        for (note, bytes) in notes.iter().zip(line.chunks_mut(row.frame_bytes())) {
            let mut digits = unpack(bytes, row.frame_digits);
            frame::say(row, *note, &mut digits);
            bytes.copy_from_slice(&pack(&digits));
        }
    }
    answer
}

/// Reads the notes of the line.
pub fn read_notes(level: u64, line: &[u8], notes: &mut [u8]) -> Noted {
    let refusal = frames_refusal(level, line.len() as u64, notes.len() as u64);
    let mut answer = Noted { refusal, ..Noted::default() };
    if let Some(row) = row(level).filter(|_| refusal == 0) {
        for (note, bytes) in notes.iter_mut().zip(line.chunks(row.frame_bytes())) {
            let read = frame::read(row, &unpack(bytes, row.frame_digits));
            *note = read.note;
            answer.alignment += read.alignment;
            (0..4).for_each(|j| answer.dissent[j] += read.dissent[j]);
        }
    }
    answer
}

/// Extracts the four tributaries by the notes and the vote before frame 0; the rest of each
/// quarter is zero.
pub fn extract(level: u64, earlier: u64, line: &[u8], notes: &[u8], buffer: &mut [u8]) -> Counted {
    let row = match judge(level, earlier, line, notes, buffer) {
        Ok(row) => row,
        Err(refused) => return refused,
    };
    let mut tributaries: [Vec<u8>; 4] = Default::default();
    let votes = with_before(earlier, notes);
    for ((before, note), bytes) in votes.zip(line.chunks(row.frame_bytes())) {
        let taken = frame::take(row, before, note, &unpack(bytes, row.frame_digits));
        (0..4).for_each(|j| tributaries[j].extend(&taken[j]));
    }
    let quarter = buffer.len() / 4;
    buffer.fill(0);
    let mut answer = Counted::default();
    for (j, digits) in tributaries.iter().enumerate() {
        let bytes = pack(digits);
        buffer[j * quarter..][..bytes.len()].copy_from_slice(&bytes);
        answer.counts[j] = digits.len() as u64;
    }
    answer
}

/// The first frame whose note has a bit for a service digit that the level lacks.
fn first_wrong_note(row: &Row, notes: &[u8]) -> Option<usize> {
    notes.iter().position(|&note| u32::from(note) >= 1 << row.note_bits())
}

/// The first frame whose note does not say 1 for every national digit that the level has.
fn first_note_without_national(row: &Row, notes: &[u8]) -> Option<usize> {
    notes.iter().position(|&note| note & row.national_bits() != row.national_bits())
}

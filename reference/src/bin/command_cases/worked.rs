//! What send, take and find must make of their inputs, frame by frame, however many
//! frames there are.

use reference::digits::{pack, unpack};
use reference::frame::{self, Action, Waiting};
use reference::history::{self, HandedOver};
use reference::level::Row;
use reference::{feed, fresh, State};

/// The votes before a line's first frame.
pub const NONE_BEFORE: u8 = 0;

/// Of each tributary: its digits, the frames in which it is stuffed, and those whose negative
/// place carries a digit of it.
#[derive(Default)]
pub struct Counts {
    pub digits: [usize; 4],
    pub stuffed: [usize; 4],
    pub negative: [usize; 4],
}

impl Counts {
    fn of(row: &Row, before: u8, notes: &[u8], digits: [usize; 4]) -> Counts {
        let frames = |action| frames(row, before, notes, action);
        Counts { digits, stuffed: frames(Action::Stuffed), negative: frames(Action::Negative) }
    }
}

pub struct Sent {
    pub line: Vec<u8>,
    pub counts: Counts,
}

/// Sends the frames of the notes, from a buffer of four equal quarters with room enough.
pub fn send(row: &Row, notes: &[u8], buffer: &[u8]) -> Sent {
    send_after(row, NONE_BEFORE, notes, buffer)
}

/// The same where these are the votes before the first frame.
pub fn send_after(row: &Row, earlier: u8, notes: &[u8], buffer: &[u8]) -> Sent {
    let quarter = buffer.len() / 4;
    let digits_of = |j: usize| unpack(&buffer[j * quarter..(j + 1) * quarter], 8 * quarter);
    let mut waiting: Vec<Waiting> = (0..4).map(|j| digits_of(j).into()).collect();
    let mut line = Vec::new();
    let mut before = earlier;
    for &note in notes {
        line.extend(pack(&frame::fill(row, before, note, &mut waiting)));
        before = note;
    }
    let digits = [0, 1, 2, 3].map(|j| 8 * quarter - waiting[j].len());
    Sent { line, counts: Counts::of(row, earlier, notes, digits) }
}

/// In how many frames this is done for each tributary.
pub fn frames(row: &Row, earlier: u8, notes: &[u8], wanted: Action) -> [usize; 4] {
    let before: Vec<u8> = [&[earlier], notes].concat();
    let acts = |j: usize| {
        before
            .iter()
            .zip(notes)
            .filter(move |(&before, &note)| frame::action(row, before, note, j) == wanted)
    };
    [0, 1, 2, 3].map(|j| acts(j).count())
}

/// What frames say, taken apart one after the other.
#[derive(Default)]
pub struct Taken {
    pub notes: Vec<u8>,
    pub tributaries: [Vec<u8>; 4],
    pub counts: Counts,
    pub alignment: u64,
    pub dissent: [u64; 4],
}

/// Takes whole frames apart that stand one after the other.
pub fn take(row: &Row, line: &[u8]) -> Taken {
    take_after(row, NONE_BEFORE, line)
}

/// The same where these are the votes before the first frame.
pub fn take_after(row: &Row, earlier: u8, line: &[u8]) -> Taken {
    let frames = line.chunks(row.frame_bytes()).map(|bytes| unpack(bytes, row.frame_digits));
    let read: Vec<_> = frames.map(|digits| frame::read(row, &digits)).collect();
    let notes: Vec<u8> = read.iter().map(|one| one.note).collect();
    let mut all = take_by_after(row, earlier, line, &notes);
    all.alignment = read.iter().map(|one| one.alignment).sum();
    all.dissent = [0, 1, 2, 3].map(|j| read.iter().map(|one| one.dissent[j]).sum());
    all
}

/// Takes the frames that were found apart: each stretch by itself, the first after these votes and every other as if nothing
/// had come before it.
pub fn take_found(row: &Row, earlier: u8, found: &Found) -> Taken {
    let mut all = Taken::default();
    for (k, (_, frames)) in found.stretches(row).into_iter().enumerate() {
        let before = if k == 0 { earlier } else { NONE_BEFORE };
        let line: Vec<u8> = found.frames[frames]
            .iter()
            .flat_map(|one| one.bytes[..row.frame_bytes()].to_vec())
            .collect();
        let one = take_after(row, before, &line);
        all.notes.extend(one.notes);
        all.alignment += one.alignment;
        for j in 0..4 {
            all.tributaries[j].extend(&one.tributaries[j]);
            all.counts.digits[j] += one.counts.digits[j];
            all.counts.stuffed[j] += one.counts.stuffed[j];
            all.counts.negative[j] += one.counts.negative[j];
            all.dissent[j] += one.dissent[j];
        }
    }
    all
}

/// The same by notes that are given.
pub fn take_by(row: &Row, line: &[u8], notes: &[u8]) -> Taken {
    take_by_after(row, NONE_BEFORE, line, notes)
}

/// The same by notes that are given, after these votes.
pub fn take_by_after(row: &Row, earlier: u8, line: &[u8], notes: &[u8]) -> Taken {
    let mut all = Taken { notes: notes.to_vec(), ..Taken::default() };
    let mut before = earlier;
    for (bytes, &note) in line.chunks(row.frame_bytes()).zip(notes) {
        let one = frame::take(row, before, note, &unpack(bytes, row.frame_digits));
        before = note;
        (0..4).for_each(|j| all.tributaries[j].extend(&one[j]));
    }
    let digits = [0, 1, 2, 3].map(|j| all.tributaries[j].len());
    all.counts = Counts::of(row, earlier, notes, digits);
    all
}

/// Four quarters of so many bytes, each with its digits and then zeros.
pub fn quarters(tributaries: &[Vec<u8>; 4], bytes: usize) -> Vec<u8> {
    let mut buffer = Vec::new();
    for (j, digits) in tributaries.iter().enumerate() {
        buffer.extend(pack(digits));
        assert!(buffer.len() <= (j + 1) * bytes, "a quarter is too short for its digits");
        buffer.resize((j + 1) * bytes, 0);
    }
    buffer
}

/// Where alignment is found or lost: the first digit of the word that decides it. Where the
/// alarm begins or ends: the last digit of the stretch that decides it.
#[derive(Clone, Copy, Debug, PartialEq)]
pub enum Event {
    Found(usize),
    Lost(usize),
    AlarmBegins(usize),
    AlarmEnds(usize),
}

#[derive(Default)]
pub struct Found {
    pub events: Vec<Event>,
    pub frames: Vec<HandedOver>,
    /// How many words were tested.
    pub words: usize,
    /// The mode at the end, as the receiver's state has it.
    pub mode: u64,
}

impl Found {
    /// The frames handed over as a line.
    pub fn line(&self, row: &Row) -> Vec<u8> {
        self.frames.iter().flat_map(|frame| frame.bytes[..row.frame_bytes()].to_vec()).collect()
    }

    /// The frames without a gap between them: the digit at which the first begins, and their numbers.
    pub fn stretches(&self, row: &Row) -> Vec<(usize, std::ops::Range<usize>)> {
        let mut stretches: Vec<(usize, std::ops::Range<usize>)> = Vec::new();
        for (k, frame) in self.frames.iter().enumerate() {
            let begin = frame.after - row.frame_digits;
            match stretches.last_mut() {
                Some((_, frames)) if self.frames[k - 1].after == begin => frames.end = k + 1,
                _ => stretches.push((begin, k..k + 1)),
            }
        }
        stretches
    }

    /// Where alignment is found and lost.
    pub fn alignment(&self) -> Vec<Event> {
        let of_alignment = |event: &&Event| matches!(event, Event::Found(_) | Event::Lost(_));
        self.events.iter().filter(of_alignment).copied().collect()
    }
}

/// Feeds the recording to a fresh receiver, up to each digit at which its mode or the alarm
/// can change.
/// The frames, the words tested and the last state must be those that the search through all
/// digits gives.
pub fn find(row: &Row, stream: &[u8]) -> Found {
    let digits = unpack(stream, 8 * stream.len());
    let (_, mut state) = fresh(row.level);
    let mut found = Found::default();
    let mut at = 0;
    while at < digits.len() {
        let end = (at + step(row, &digits, at, &state)).min(digits.len());
        let piece = &stream[at / 8..(end + 7) / 8];
        let fed = feed(&state, piece, (at % 8) as u64, (end - at) as u64);
        assert_eq!(fed.refusal, 0, "a piece is refused");
        at += fed.taken as usize;
        found.words += fed.words as usize;
        if fed.ready {
            found.frames.push(HandedOver { after: at, bytes: fed.state.frame });
        }
        match (state.mode, fed.state.mode) {
            (2, 3) => found.events.push(Event::Found(at - row.word_length())),
            (3..=6, 0) => found.events.push(Event::Lost(at - row.word_length())),
            _ => {}
        }
        match (state.alarm, fed.state.alarm) {
            (0, 1) => found.events.push(Event::AlarmBegins(at - 1)),
            (1, 0) => found.events.push(Event::AlarmEnds(at - 1)),
            _ => {}
        }
        state = fed.state;
    }
    found.mode = state.mode;
    assert!(history::whole(row.level, &digits) == (found.frames.clone(), found.words, state));
    found
}

/// How many digits on the mode or the alarm can change: at the next word while hunting, else
/// at the check; and at the stretch's end. A piece stays within what one call takes.
fn step(row: &Row, digits: &[u8], at: usize, state: &State) -> usize {
    let stretch = row.frame_digits - state.stretch_digits as usize;
    if state.mode != 0 {
        return stretch.min(row.frame_digits - state.place as usize);
    }
    let word = row.word_digits();
    let last = digits.len().min(at + stretch);
    let end = (at + 1..last).find(|&end| digits[..end].ends_with(&word));
    end.unwrap_or(last) - at
}

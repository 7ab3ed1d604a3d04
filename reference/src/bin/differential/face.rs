//! The product's C face, and the calls made through it with guards around all that is lent.

use crate::call::Pair;
use crate::call::{
    finder_numbers, state_numbers, Call, Copying, Hunt, Lending, Outcome, Piece, Search, Trace,
    Whole, Worn, Writing,
};

#[rustfmt::skip]
extern "C" {
    pub fn spritbobbin_multiplex(
        level: u64, earlier: u64, line: *mut u8, line_bytes: usize,
        notes: *const u8, notes_bytes: usize, buffer: *const u8, buffer_bytes: usize,
        answer: *mut u64,
    ) -> u64;
    pub fn spritbobbin_read_notes(
        level: u64, line: *const u8, line_bytes: usize, notes: *mut u8, notes_bytes: usize,
        answer: *mut u64,
    ) -> u64;
    pub fn spritbobbin_extract(
        level: u64, earlier: u64, line: *const u8, line_bytes: usize,
        notes: *const u8, notes_bytes: usize, buffer: *mut u8, buffer_bytes: usize,
        answer: *mut u64,
    ) -> u64;
    fn spritbobbin_plain_multiplex(
        level: u64, earlier: u64, line: *mut u8, line_bytes: usize,
        notes: *const u8, notes_bytes: usize, buffer: *const u8, buffer_bytes: usize,
        answer: *mut u64,
    ) -> u64;
    fn spritbobbin_plain_read_notes(
        level: u64, line: *const u8, line_bytes: usize, notes: *mut u8, notes_bytes: usize,
        answer: *mut u64,
    ) -> u64;
    fn spritbobbin_plain_extract(
        level: u64, earlier: u64, line: *const u8, line_bytes: usize,
        notes: *const u8, notes_bytes: usize, buffer: *mut u8, buffer_bytes: usize,
        answer: *mut u64,
    ) -> u64;
    pub fn spritbobbin_receiver_fresh(level: u64, state: *mut u64, frame: *mut u8) -> u64;
    pub fn spritbobbin_receiver_feed(
        state: *mut u64, frame: *mut u8, piece: *const u8, piece_bytes: usize,
        first: u64, count: u64, answer: *mut u64,
    ) -> u64;
    pub fn spritbobbin_line_digit(line: *const u8, line_bytes: usize, place: u64) -> u64;
    pub fn spritbobbin_capture_write(
        level: u64, line: *const u8, line_bytes: usize, label: *const u8, label_bytes: usize,
        labelled: u64, file: *mut u8, file_bytes: usize, answer: *mut u64,
    ) -> u64;
    pub fn spritbobbin_capture_read(file: *const u8, file_bytes: usize, answer: *mut u64) -> u64;
    pub fn spritbobbin_multiframe_build(
        multiframe: *mut u8, multiframe_bytes: usize, channels: *const u8, channels_bytes: usize,
        signalling: *const u8, signalling_bytes: usize, spare: *const u8, spare_bytes: usize,
        answer: *mut u64,
    ) -> u64;
    pub fn spritbobbin_multiframe_apart(
        multiframe: *const u8, multiframe_bytes: usize, channels: *mut u8, channels_bytes: usize,
        signalling: *mut u8, signalling_bytes: usize, spare: *mut u8, spare_bytes: usize,
    ) -> u64;
    pub fn spritbobbin_finder_fresh(state: *mut u64) -> u64;
    pub fn spritbobbin_finder_feed(
        state: *mut u64, piece: *const u8, piece_bytes: usize, first: u64, count: u64,
        answer: *mut u64,
    ) -> u64;
    pub fn spritbobbin_compare(
        one: *const u8, one_bytes: usize, other: *const u8, other_bytes: usize,
        answer: *mut u64, places: *mut u64,
    ) -> u64;
    pub fn spritbobbin_compare_lines(
        level: u64, one: *const u8, one_bytes: usize, other: *const u8, other_bytes: usize,
        answer: *mut u64, places: *mut u64,
    ) -> u64;
    pub fn spritbobbin_compare_stretch(
        level: u64, one: *const u8, one_bytes: usize, other: *const u8, other_bytes: usize,
        first: u64, count: u64, answer: *mut u64,
    ) -> u64;
    pub fn spritbobbin_rack_feed(
        records: *mut u64, number: usize, line: u64, piece: *const u8, piece_bytes: usize,
        first: u64, count: u64, answer: *mut u64,
    ) -> u64;
    pub fn spritbobbin_rack_reset(records: *mut u64, number: usize, line: u64, level: u64) -> u64;
    pub fn spritbobbin_swap(
        level: u64, earlier: u64, tributary: u64, line: *mut u8, line_bytes: usize,
        notes: *const u8, notes_bytes: usize, buffer: *const u8, buffer_bytes: usize,
        answer: *mut u64,
    ) -> u64;
    pub fn spritbobbin_repair(
        level: u64, earlier: u64, national: u64, line: *mut u8, line_bytes: usize,
        answer: *mut u64,
    ) -> u64;
    pub fn spritbobbin_judge(
        level: u64, earlier: u64, line: *const u8, line_bytes: usize, pattern: u64,
        buffer: *const u8, buffer_bytes: usize, answer: *mut u64,
    ) -> u64;
    pub fn spritbobbin_verdict_fresh(
        level: u64, earlier: u64, pattern: u64, state: *mut u64,
    ) -> u64;
    pub fn spritbobbin_verdict_feed(
        state: *mut u64, line: *const u8, line_bytes: usize, next: u64,
        sent: *const u8, sent_bytes: usize, first: u64, answer: *mut u64,
    ) -> u64;
    pub fn spritbobbin_copy_digits(
        to: *mut u8, to_bytes: usize, at: u64, from: *const u8, from_bytes: usize,
        first: u64, count: u64,
    ) -> u64;
    pub fn spritbobbin_late_multiplex(
        level: u64, earlier: u64, line: *mut u8, line_bytes: usize,
        notes: *const u8, notes_bytes: usize, buffer: *const u8, buffer_bytes: usize,
        answer: *mut u64,
    ) -> u64;
    pub fn spritbobbin_begins(
        read: *const u8, read_bytes: usize, digits: u64, sent: *const u8, sent_bytes: usize,
        first: u64, count: u64, answer: *mut u64,
    ) -> u64;
    pub fn spritbobbin_multiframe_start(
        frames: *const u8, frames_bytes: usize, answer: *mut u64,
    ) -> u64;
    pub fn spritbobbin_place(level: u64, place: u64, answer: *mut u64) -> u64;
    pub fn spritbobbin_multiframe_place(place: u64, answer: *mut u64) -> u64;
    pub fn spritbobbin_version() -> u64;
    pub fn spritbobbin_rack_aligned(records: *const u64, number: usize, answer: *mut u64) -> u64;
}

/// One of the two engines' calls.
type Building = unsafe extern "C" fn(
    u64,
    u64,
    *mut u8,
    usize,
    *const u8,
    usize,
    *const u8,
    usize,
    *mut u64,
) -> u64;
type Reading = unsafe extern "C" fn(u64, *const u8, usize, *mut u8, usize, *mut u64) -> u64;
type Extracting = unsafe extern "C" fn(
    u64,
    u64,
    *const u8,
    usize,
    *const u8,
    usize,
    *mut u8,
    usize,
    *mut u64,
) -> u64;

/// The numbers of a verdict's state.
pub const VERDICT_STATE: usize = 683;

/// What stands in an array of numbers before the call, so that one left unwritten is seen.
pub const UNWRITTEN: u64 = 0xA5A5_A5A5_A5A5_A5A5;

/// Elements of guard on either side of what is lent.
const GUARDS: usize = 64;

/// What is lent, with guards before and after it.
pub struct Lent<T> {
    name: &'static str,
    all: Vec<T>,
    guard: T,
}

impl<T: Copy + PartialEq> Lent<T> {
    fn with_guard(name: &'static str, inner: &[T], guard: T) -> Lent<T> {
        let all = [&[guard; GUARDS], inner, &[guard; GUARDS]].concat();
        Lent { name, all, guard }
    }

    pub fn pointer(&mut self) -> *mut T {
        self.all[GUARDS..].as_mut_ptr()
    }

    pub fn count(&self) -> usize {
        self.all.len() - 2 * GUARDS
    }

    pub fn inner(&self) -> &[T] {
        &self.all[GUARDS..GUARDS + self.count()]
    }

    /// The name, if a guard was written over.
    pub fn broken(&self) -> Option<&'static str> {
        let (before, after) = (&self.all[..GUARDS], &self.all[GUARDS + self.count()..]);
        let intact = before.iter().chain(after).all(|guard| *guard == self.guard);
        (!intact).then_some(self.name)
    }
}

/// Bytes to lend.
pub fn bytes(name: &'static str, inner: &[u8]) -> Lent<u8> {
    Lent::with_guard(name, inner, 0x5C)
}

/// Numbers to lend.
pub fn numbers(name: &'static str, inner: &[u64]) -> Lent<u64> {
    Lent::with_guard(name, inner, 0x5C5C_5C5C_5C5C_5C5C)
}

pub fn by_face(call: &Call) -> Outcome {
    match call {
        Call::Multiplex(with) => alike(
            multiplex(with, spritbobbin_multiplex),
            multiplex(with, spritbobbin_plain_multiplex),
        ),
        Call::ReadNotes(with) => alike(
            read_notes(with, spritbobbin_read_notes),
            read_notes(with, spritbobbin_plain_read_notes),
        ),
        Call::Extract(with) => {
            alike(extract(with, spritbobbin_extract), extract(with, spritbobbin_plain_extract))
        }
        Call::Fresh(level) => fresh(*level),
        Call::Feed(piece) => feed(piece),
        Call::LineDigit(line, place) => line_digit(line, *place),
        Call::CaptureWrite(with) => capture_write(with),
        Call::CaptureRead(file) => capture_read(file),
        Call::MultiframeBuild(with) => multiframe_build(with),
        Call::MultiframeApart(with) => multiframe_apart(with),
        Call::FinderFresh => finder_fresh(),
        Call::FinderFeed(hunt) => finder_feed(hunt),
        Call::Compare(one, other) => compare(one, other),
        Call::CompareLines(pair) => compare_lines(pair),
        Call::CompareStretch(pair, first, count) => compare_stretch(pair, *first, *count),
        Call::Swap(with, tributary) => swap(with, *tributary),
        Call::Repair(worn) => repair(worn),
        Call::Judge(trace) => judge(trace),
        Call::Copy(with) => copy_digits(with),
        Call::LateMultiplex(with) => multiplex(with, spritbobbin_late_multiplex),
        Call::Begins(search) => begins(search),
        Call::MultiframeStart(frames) => multiframe_start(frames),
    }
}

fn outcome(returned: u64, arrays: &[Lent<u64>], slices: &[Lent<u8>]) -> Outcome {
    let numbers = arrays.iter().map(|array| array.inner()).collect::<Vec<_>>().concat();
    let lent = slices.iter().map(|slice| (slice.name, slice.inner().to_vec())).collect();
    let broken = arrays.iter().filter_map(Lent::broken);
    let outside = broken.chain(slices.iter().filter_map(Lent::broken)).collect();
    Outcome { returned, numbers, lent, outside }
}

/// The outcome of the quick engine, with a mark where the plain one's is another.
fn alike(mut quick: Outcome, plain: Outcome) -> Outcome {
    if quick != plain {
        quick.outside.push("the plain engine's outcome");
    }
    quick
}

fn multiplex(with: &Lending, by: Building) -> Outcome {
    let mut line = bytes("line", &with.line);
    let mut notes = bytes("notes", &with.notes);
    let mut buffer = bytes("buffer", &with.buffer);
    let mut answer = numbers("answer", &[UNWRITTEN; 5]);
    // Sound if the face keeps to what it is lent: every pointer comes with its own count.
    let refusal = unsafe {
        let (l, n, b) = (line.pointer(), notes.pointer(), buffer.pointer());
        let (lc, nc, bc) = (line.count(), notes.count(), buffer.count());
        by(with.level, with.earlier, l, lc, n, nc, b, bc, answer.pointer())
    };
    outcome(refusal, &[answer], &[line, notes, buffer])
}

fn read_notes(with: &Lending, by: Reading) -> Outcome {
    let mut line = bytes("line", &with.line);
    let mut notes = bytes("notes", &with.notes);
    let mut answer = numbers("answer", &[UNWRITTEN; 5]);
    // Sound as above.
    let refusal = unsafe {
        let (l, n) = (line.pointer(), notes.pointer());
        let (lc, nc) = (line.count(), notes.count());
        by(with.level, l, lc, n, nc, answer.pointer())
    };
    outcome(refusal, &[answer], &[line, notes])
}

fn extract(with: &Lending, by: Extracting) -> Outcome {
    let mut line = bytes("line", &with.line);
    let mut notes = bytes("notes", &with.notes);
    let mut buffer = bytes("buffer", &with.buffer);
    let mut answer = numbers("answer", &[UNWRITTEN; 5]);
    // Sound as above.
    let refusal = unsafe {
        let (l, n, b) = (line.pointer(), notes.pointer(), buffer.pointer());
        let (lc, nc, bc) = (line.count(), notes.count(), buffer.count());
        by(with.level, with.earlier, l, lc, n, nc, b, bc, answer.pointer())
    };
    outcome(refusal, &[answer], &[line, notes, buffer])
}

fn swap(with: &Lending, tributary: u64) -> Outcome {
    let mut line = bytes("line", &with.line);
    let mut notes = bytes("notes", &with.notes);
    let mut buffer = bytes("buffer", &with.buffer);
    let mut answer = numbers("answer", &[UNWRITTEN; 1]);
    // Sound as above.
    let refusal = unsafe {
        let (l, n, b, a) = (line.pointer(), notes.pointer(), buffer.pointer(), answer.pointer());
        let (lc, nc, bc) = (line.count(), notes.count(), buffer.count());
        spritbobbin_swap(with.level, with.earlier, tributary, l, lc, n, nc, b, bc, a)
    };
    outcome(refusal, &[answer], &[line, notes, buffer])
}

fn repair(worn: &Worn) -> Outcome {
    let mut line = bytes("line", &worn.line);
    let mut answer = numbers("answer", &[UNWRITTEN; 10]);
    // Sound as above.
    let refusal = unsafe {
        let (l, lc, a) = (line.pointer(), line.count(), answer.pointer());
        spritbobbin_repair(worn.level, worn.earlier, worn.national, l, lc, a)
    };
    outcome(refusal, &[answer], &[line])
}

fn judge(trace: &Trace) -> Outcome {
    let mut line = bytes("line", &trace.line);
    let mut buffer = bytes("buffer", &trace.buffer);
    let mut answer = numbers("answer", &[UNWRITTEN; 20]);
    // Sound as above.
    let refusal = unsafe {
        let (l, b, a) = (line.pointer(), buffer.pointer(), answer.pointer());
        let (lc, bc) = (line.count(), buffer.count());
        spritbobbin_judge(trace.level, trace.earlier, l, lc, trace.pattern, b, bc, a)
    };
    outcome(refusal, &[answer], &[line, buffer])
}

fn copy_digits(with: &Copying) -> Outcome {
    let (mut to, mut from) = (bytes("to", &with.to), bytes("from", &with.from));
    // Sound as above.
    let refusal = unsafe {
        let (t, f, tc, fc) = (to.pointer(), from.pointer(), to.count(), from.count());
        spritbobbin_copy_digits(t, tc, with.at, f, fc, with.first, with.count)
    };
    outcome(refusal, &[], &[to, from])
}

fn begins(search: &Search) -> Outcome {
    let (mut read, mut sent) = (bytes("read", &search.read), bytes("sent", &search.sent));
    let mut answer = numbers("answer", &[UNWRITTEN; 2]);
    // Sound as above.
    let refusal = unsafe {
        let (r, s, a) = (read.pointer(), sent.pointer(), answer.pointer());
        let (rc, sc) = (read.count(), sent.count());
        spritbobbin_begins(r, rc, search.digits, s, sc, search.first, search.count, a)
    };
    outcome(refusal, &[answer], &[read, sent])
}

fn multiframe_start(frames: &[u8]) -> Outcome {
    let mut frames = bytes("frames", frames);
    let mut answer = numbers("answer", &[UNWRITTEN; 1]);
    // Sound as above.
    let refusal =
        unsafe { spritbobbin_multiframe_start(frames.pointer(), frames.count(), answer.pointer()) };
    outcome(refusal, &[answer], &[frames])
}

fn fresh(level: u64) -> Outcome {
    let mut state = numbers("state", &[UNWRITTEN; 9]);
    let mut frame = bytes("frame store", &[0xA5; 366]);
    // Sound as above; the two arrays have the lengths that the face asks for.
    let refusal = unsafe { spritbobbin_receiver_fresh(level, state.pointer(), frame.pointer()) };
    outcome(refusal, &[state], &[frame])
}

fn feed(piece: &Piece) -> Outcome {
    let mut state = numbers("state", &state_numbers(&piece.state));
    let mut frame = bytes("frame store", &piece.state.frame);
    let mut slice = bytes("slice", &piece.slice);
    let mut answer = numbers("answer", &[UNWRITTEN; 4]);
    // Sound as above.
    let refusal = unsafe {
        let (s, f, p, a) = (state.pointer(), frame.pointer(), slice.pointer(), answer.pointer());
        spritbobbin_receiver_feed(s, f, p, slice.count(), piece.first, piece.count, a)
    };
    outcome(refusal, &[answer, state], &[frame, slice])
}

fn line_digit(line: &[u8], place: u64) -> Outcome {
    let mut line = bytes("line", line);
    // Sound as above.
    let digit = unsafe { spritbobbin_line_digit(line.pointer(), line.count(), place) };
    outcome(digit, &[], &[line])
}

fn capture_write(with: &Writing) -> Outcome {
    let mut line = bytes("line", &with.line);
    let mut label = bytes("label", &with.label);
    let mut file = bytes("file", &with.file);
    let mut answer = numbers("answer", &[UNWRITTEN; 2]);
    // Sound as above.
    let refusal = unsafe {
        let (l, n, f) = (line.pointer(), label.pointer(), file.pointer());
        let (lc, nc, fc) = (line.count(), label.count(), file.count());
        let (level, labelled) = (with.level, with.labelled);
        spritbobbin_capture_write(level, l, lc, n, nc, labelled, f, fc, answer.pointer())
    };
    outcome(refusal, &[answer], &[line, label, file])
}

fn capture_read(file: &[u8]) -> Outcome {
    let mut file = bytes("file", file);
    let mut answer = numbers("answer", &[UNWRITTEN; 7]);
    // Sound as above.
    let refusal =
        unsafe { spritbobbin_capture_read(file.pointer(), file.count(), answer.pointer()) };
    outcome(refusal, &[answer], &[file])
}

fn multiframe_build(with: &Whole) -> Outcome {
    let mut multiframe = bytes("multiframe", &with.multiframe);
    let mut channels = bytes("channels", &with.channels);
    let mut signalling = bytes("signalling", &with.signalling);
    let mut spare = bytes("spare", &with.spare);
    let mut answer = numbers("answer", &[UNWRITTEN; 1]);
    // Sound as above.
    let refusal = unsafe {
        let (m, c) = (multiframe.pointer(), channels.pointer());
        let (s, x) = (signalling.pointer(), spare.pointer());
        let (mc, cc, sc, xc) =
            (multiframe.count(), channels.count(), signalling.count(), spare.count());
        spritbobbin_multiframe_build(m, mc, c, cc, s, sc, x, xc, answer.pointer())
    };
    outcome(refusal, &[answer], &[multiframe, channels, signalling, spare])
}

fn multiframe_apart(with: &Whole) -> Outcome {
    let mut multiframe = bytes("multiframe", &with.multiframe);
    let mut channels = bytes("channels", &with.channels);
    let mut signalling = bytes("signalling", &with.signalling);
    let mut spare = bytes("spare", &with.spare);
    // Sound as above.
    let refusal = unsafe {
        let (m, c) = (multiframe.pointer(), channels.pointer());
        let (s, x) = (signalling.pointer(), spare.pointer());
        let (mc, cc, sc, xc) =
            (multiframe.count(), channels.count(), signalling.count(), spare.count());
        spritbobbin_multiframe_apart(m, mc, c, cc, s, sc, x, xc)
    };
    outcome(refusal, &[], &[multiframe, channels, signalling, spare])
}

fn finder_fresh() -> Outcome {
    let mut state = numbers("state", &[UNWRITTEN; 4]);
    // Sound as above.
    let refusal = unsafe { spritbobbin_finder_fresh(state.pointer()) };
    outcome(refusal, &[state], &[])
}

fn finder_feed(hunt: &Hunt) -> Outcome {
    let mut state = numbers("state", &finder_numbers(&hunt.state));
    let mut slice = bytes("slice", &hunt.slice);
    let mut answer = numbers("answer", &[UNWRITTEN; 2]);
    // Sound as above.
    let refusal = unsafe {
        let (s, p, a) = (state.pointer(), slice.pointer(), answer.pointer());
        spritbobbin_finder_feed(s, p, slice.count(), hunt.first, hunt.count, a)
    };
    outcome(refusal, &[answer, state], &[slice])
}

fn compare(one: &[u8], other: &[u8]) -> Outcome {
    let (mut one, mut other) = (bytes("one", one), bytes("other", other));
    let mut answer = numbers("answer", &[UNWRITTEN; 19]);
    let mut places = numbers("places", &[UNWRITTEN; 128]);
    // Sound as above.
    let refusal = unsafe {
        let (o, p, a, l) = (one.pointer(), other.pointer(), answer.pointer(), places.pointer());
        spritbobbin_compare(o, one.count(), p, other.count(), a, l)
    };
    outcome(refusal, &[answer, places], &[one, other])
}

fn compare_lines(pair: &Pair) -> Outcome {
    let (mut one, mut other) = (bytes("one", &pair.one), bytes("other", &pair.other));
    let mut answer = numbers("answer", &[UNWRITTEN; 17]);
    let mut places = numbers("places", &[UNWRITTEN; 128]);
    // Sound as above.
    let refusal = unsafe {
        let (o, p, a, l) = (one.pointer(), other.pointer(), answer.pointer(), places.pointer());
        spritbobbin_compare_lines(pair.level, o, one.count(), p, other.count(), a, l)
    };
    outcome(refusal, &[answer, places], &[one, other])
}

fn compare_stretch(pair: &Pair, first: u64, count: u64) -> Outcome {
    let (mut one, mut other) = (bytes("one", &pair.one), bytes("other", &pair.other));
    let mut answer = numbers("answer", &[UNWRITTEN; 16]);
    // Sound as above.
    let refusal = unsafe {
        let (o, p, a) = (one.pointer(), other.pointer(), answer.pointer());
        spritbobbin_compare_stretch(pair.level, o, one.count(), p, other.count(), first, count, a)
    };
    outcome(refusal, &[answer], &[one, other])
}

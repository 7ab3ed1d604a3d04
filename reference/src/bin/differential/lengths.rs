//! Lengths far beyond what a call accepts, which a cut to 32 bits would make small, and
//! then pointers and lengths that lend no memory at all.

use crate::beginnings;
use crate::call::{compared_numbers, counted_numbers, judged_numbers, read_numbers};
use crate::copying;
use crate::face::spritbobbin_line_digit;
use crate::face::{self, spritbobbin_capture_read, spritbobbin_capture_write, spritbobbin_compare};
use crate::face::{spritbobbin_extract, spritbobbin_finder_feed, spritbobbin_judge};
use crate::face::{spritbobbin_multiplex, spritbobbin_read_notes, spritbobbin_receiver_feed};
use crate::face::{spritbobbin_repair, spritbobbin_swap, UNWRITTEN};
use crate::judging;
use crate::multiframes;
use crate::rack;
use crate::repairing;
use crate::swapping;
use crate::verdict;
use crate::Run;
use reference::judge;
use reference::read_notes;
use reference::{
    extract, feed, feed_refusal, frames_refusal, fresh, length_refusal, line_digit, multiplex,
};
use reference::{finder_feed, finder_refusal, FinderState};
use reference::{repair_refusal, swap, swap_refusal, Swapped};
use std::alloc::{alloc_zeroed, dealloc, Layout};

/// 2 to the 32.
const WIDE: usize = 1 << 32;

/// The levels and their neighbours.
const NUMBERS: [u64; 10] = [1, 2, 3, 4, 5, 11, 12, 13, 14, 15];

/// Earlier votes at their border; where lengths are at fault none is looked at.
const EARLIER: [u64; 4] = [0, 15, 16, u64::MAX];

/// The numbers of a fresh state of level 2.
const FRESH: [u64; 9] = [2, 0, 0, 0, 0, 0, 0, 0, 0];

pub fn part(run: &mut Run) {
    match Memory::new(WIDE + (1 << 20)) {
        Some(mut memory) => long_lengths(run, &mut memory),
        None => println!("this machine lends no 4 GiB: long lengths left out"),
    }
    if !run.lent_only {
        // Said before, because a face may well stop the program here.
        println!("now null pointers and lengths that no memory holds (left out by lent-only)");
        null_pointers(run);
        false_lengths(run);
        multiframes::false_lengths(run);
    }
}

/// Memory of zeros that costs nothing as long as nobody touches it.
struct Memory {
    start: *mut u8,
    layout: Layout,
}

impl Memory {
    fn new(count: usize) -> Option<Memory> {
        let layout = Layout::array::<u8>(count).ok()?;
        // Sound: the layout is not empty.
        let start = unsafe { alloc_zeroed(layout) };
        (!start.is_null()).then_some(Memory { start, layout })
    }

    fn slice(&mut self, count: usize) -> &mut [u8] {
        // Sound: within the memory, which is written before and borrowed as long as this is.
        unsafe { std::slice::from_raw_parts_mut(self.start, count.min(self.layout.size())) }
    }
}

impl Drop for Memory {
    fn drop(&mut self) {
        // Sound: made by `alloc_zeroed` with this layout.
        unsafe { dealloc(self.start, self.layout) }
    }
}

fn long_lengths(run: &mut Run, memory: &mut Memory) {
    for (level, frame_bytes) in [(2, 106), (3, 192), (4, 366), (12, 132), (14, 272)] {
        for line in [WIDE, WIDE + 2, WIDE + frame_bytes, WIDE + 64 * frame_bytes] {
            long_line(run, level, memory.slice(line));
        }
        for notes in [WIDE, WIDE + 1, WIDE + 2] {
            long_notes(run, level, frame_bytes, memory.slice(notes));
        }
        for over in [0, 1, 2, 4, 100, 104, 128, 132, 192, 268, 272, 364] {
            long_buffer(run, level, frame_bytes, memory.slice(WIDE + over));
        }
    }
    for slice in [WIDE, WIDE + 1, WIDE + 2, WIDE + 65_536] {
        long_piece(run, memory.slice(slice));
    }
    for level in NUMBERS {
        for long in [WIDE, WIDE + 1, WIDE + 106, WIDE + 192, WIDE + 366, WIDE + 132, WIDE + 272] {
            long_capture(run, level, memory.slice(long));
        }
    }
}

/// A writer's call with pointers and lengths only; line and label, if asked for, are zeros.
fn raw_write(
    level: u64,
    [line, label]: [(*const u8, usize); 2],
    labelled: u64,
    file: (*mut u8, usize),
) -> Vec<u64> {
    let mut answer = [UNWRITTEN; 2];
    // Sound as above.
    let refusal = unsafe {
        let at = answer.as_mut_ptr();
        spritbobbin_capture_write(
            level, line.0, line.1, label.0, label.1, labelled, file.0, file.1, at,
        )
    };
    [&[refusal], &answer[..]].concat()
}

fn raw_read(file: *const u8, bytes: usize) -> Vec<u64> {
    let mut answer = [UNWRITTEN; 7];
    // Sound as above.
    let refusal = unsafe { spritbobbin_capture_read(file, bytes, answer.as_mut_ptr()) };
    [&[refusal], &answer[..]].concat()
}

/// What the writer answers for lengths, with room enough for any file that it accepts.
fn written(level: u64, line: u64, label: u64, labelled: u64) -> [u64; 3] {
    match length_refusal(level, line, line / frame_bytes(level), u64::MAX / 8 * 4) {
        0 if labelled != 0 && label > 32 => [9, 0, 0],
        0 => [0, 7 + line + if labelled == 0 { 0 } else { 3 + label }, 0],
        refusal => [refusal, 0, 0],
    }
}

fn frame_bytes(level: u64) -> u64 {
    reference::level::row(level).map_or(1, |row| row.frame_bytes() as u64)
}

/// A long line, a long label with and without a yes, a long file.
fn long_capture(run: &mut Run, level: u64, long: &mut [u8]) {
    let (bytes, at) = (long.len() as u64, (long.as_ptr(), long.len()));
    let small = [0_u8; 8];
    let (empty, mut file) = ((small.as_ptr(), 0), [0_u8; 400]);
    let inputs = format!("level {level}, long slice {bytes} bytes");
    let room = (file.as_mut_ptr(), file.len());
    run.expect(
        "capture_write",
        &inputs,
        &written(level, bytes, 0, 0),
        &raw_write(level, [at, empty], 0, room),
    );
    run.expect(
        "capture_write",
        &inputs,
        &written(level, 0, bytes, 0),
        &raw_write(level, [empty, at], 0, room),
    );
    run.expect(
        "capture_write",
        &inputs,
        &written(level, 0, bytes, 1),
        &raw_write(level, [empty, at], 1, room),
    );
    let (refusal, numbers) = read_numbers(long);
    run.expect(
        "capture_read",
        &inputs,
        &[&[refusal], &numbers[..]].concat(),
        &raw_read(at.0, at.1),
    );
    long_comparison(run, &inputs, long);
    let room = (long.as_mut_ptr(), long.len());
    run.expect(
        "capture_write",
        &inputs,
        &written(level, 0, 0, 0),
        &raw_write(level, [empty; 2], 0, room),
    );
    long[..7].fill(0);
    untouched(run, &inputs, long);
}

/// A long file first, second, and twice.
fn long_comparison(run: &mut Run, inputs: &str, long: &[u8]) {
    let good = [1, 0, 1, 2, 2, 0, 0];
    for (one, other) in [(long, &good[..]), (&good[..], long), (long, long)] {
        let (refusal, numbers) = compared_numbers(&reference::compare(one, other));
        let received = raw_compare((one.as_ptr(), one.len()), (other.as_ptr(), other.len()));
        run.expect("compare", inputs, &[&[refusal], &numbers[..]].concat(), &received);
    }
}

fn raw_compare(one: (*const u8, usize), other: (*const u8, usize)) -> Vec<u64> {
    let (mut answer, mut places) = ([UNWRITTEN; 19], [UNWRITTEN; 128]);
    // Sound as above.
    let refusal = unsafe {
        let (a, l) = (answer.as_mut_ptr(), places.as_mut_ptr());
        spritbobbin_compare(one.0, one.1, other.0, other.1, a, l)
    };
    [&[refusal], &answer[..], &places[..]].concat()
}

/// A call through the face whose slices are only given by pointer and length.
fn raw_multiplex(
    level: u64,
    earlier: u64,
    line: &mut [u8],
    notes: &[u8],
    buffer: &[u8],
) -> Vec<u64> {
    let mut answer = [UNWRITTEN; 5];
    // Sound if the face keeps to what it is lent.
    let refusal = unsafe {
        let (l, n, b) = (line.as_mut_ptr(), notes.as_ptr(), buffer.as_ptr());
        let (lc, nc, bc) = (line.len(), notes.len(), buffer.len());
        spritbobbin_multiplex(level, earlier, l, lc, n, nc, b, bc, answer.as_mut_ptr())
    };
    [&[refusal], &answer[..]].concat()
}

fn raw_extract(level: u64, earlier: u64, line: &[u8], notes: &[u8], buffer: &mut [u8]) -> Vec<u64> {
    let mut answer = [UNWRITTEN; 5];
    // Sound as above.
    let refusal = unsafe {
        let (l, n, b) = (line.as_ptr(), notes.as_ptr(), buffer.as_mut_ptr());
        let (lc, nc, bc) = (line.len(), notes.len(), buffer.len());
        spritbobbin_extract(level, earlier, l, lc, n, nc, b, bc, answer.as_mut_ptr())
    };
    [&[refusal], &answer[..]].concat()
}

fn raw_read_notes(level: u64, line: &[u8], notes: &mut [u8]) -> Vec<u64> {
    let mut answer = [UNWRITTEN; 5];
    // Sound as above.
    let refusal = unsafe {
        let (l, n, lc, nc) = (line.as_ptr(), notes.as_mut_ptr(), line.len(), notes.len());
        spritbobbin_read_notes(level, l, lc, n, nc, answer.as_mut_ptr())
    };
    [&[refusal], &answer[..]].concat()
}

fn multiplexed(level: u64, earlier: u64, line: &mut [u8], notes: &[u8], buffer: &[u8]) -> Vec<u64> {
    let answer = multiplex(level, earlier, line, notes, buffer);
    [vec![answer.refusal], counted_numbers(&answer)].concat()
}

fn extracted(level: u64, earlier: u64, line: &[u8], notes: &[u8], buffer: &mut [u8]) -> Vec<u64> {
    let answer = extract(level, earlier, line, notes, buffer);
    [vec![answer.refusal], counted_numbers(&answer)].concat()
}

fn noted(level: u64, line: &[u8], notes: &mut [u8]) -> Vec<u64> {
    let answer = read_notes(level, line, notes);
    [&[answer.refusal, answer.alignment], &answer.dissent[..]].concat()
}

/// Swaps tributary 2. Of a line that is too long only the beginning is held beside the face's.
fn long_swap(
    run: &mut Run,
    inputs: &str,
    level: u64,
    line: &mut [u8],
    notes: &[u8],
    buffer: &[u8],
) {
    let mut ours = line[..line.len().min(1 << 16)].to_vec();
    let lengths = [line.len(), notes.len(), buffer.len()].map(|n| n as u64);
    let mut answer = [UNWRITTEN];
    let expected = match swap_refusal(level, 3, 2, lengths) {
        0 => swap(level, 3, 2, &mut ours, notes, buffer),
        refusal => Swapped { refusal, taken: 0 },
    };
    // Sound if the face keeps to what it is lent.
    let refusal = unsafe {
        let (l, n, b) = (line.as_mut_ptr(), notes.as_ptr(), buffer.as_ptr());
        let (lc, nc, bc) = (line.len(), notes.len(), buffer.len());
        spritbobbin_swap(level, 3, 2, l, lc, n, nc, b, bc, answer.as_mut_ptr())
    };
    run.expect("swap", inputs, &[expected.refusal, expected.taken], &[refusal, answer[0]]);
    let wide = |line: &[u8]| line.iter().map(|&byte| u64::from(byte)).collect::<Vec<_>>();
    let theirs = wide(&line[..ours.len()]);
    run.expect("swap", &format!("{inputs}: the line"), &wide(&ours), &theirs);
}

/// The beginning of long memory must still be zero: all calls that may write it are refused.
fn untouched(run: &mut Run, inputs: &str, long: &[u8]) {
    if long[..1 << 16].iter().any(|byte| *byte != 0) {
        println!("DISAGREEMENT: a refused call wrote; {inputs}");
        run.end_with_disagreement();
    }
}

fn long_line(run: &mut Run, level: u64, line: &mut [u8]) {
    let inputs = format!("level {level}, line {} bytes, 1 note, buffer 4096", line.len());
    let expected = multiplexed(level, u64::MAX, line, &[0], &[0; 4096]);
    run.expect(
        "multiplex",
        &inputs,
        &expected,
        &raw_multiplex(level, u64::MAX, line, &[0], &[0; 4096]),
    );
    run.expect(
        "read_notes",
        &inputs,
        &noted(level, line, &mut [0]),
        &raw_read_notes(level, line, &mut [0]),
    );
    let expected = extracted(level, u64::MAX, line, &[0], &mut [0; 4096]);
    run.expect(
        "extract",
        &inputs,
        &expected,
        &raw_extract(level, u64::MAX, line, &[0], &mut [0; 4096]),
    );
    long_swap(run, &inputs, level, line, &[0], &[0; 4096]);
    let mut answer = [UNWRITTEN; 10];
    // Sound as above.
    let refusal = unsafe {
        let (at, bytes) = (line.as_mut_ptr(), line.len());
        spritbobbin_repair(level, u64::MAX, 1, at, bytes, answer.as_mut_ptr())
    };
    let expected = [&[repair_refusal(level, u64::MAX, line.len() as u64)], &[0; 10][..]].concat();
    run.expect("repair", &inputs, &expected, &[&[refusal], &answer[..]].concat());
    for pattern in [0, 15] {
        long_judge(run, level, line, pattern, &[0; 4096]);
    }
    untouched(run, &inputs, line);
}

fn long_notes(run: &mut Run, level: u64, frame_bytes: usize, notes: &mut [u8]) {
    let inputs = format!("level {level}, one frame, {} notes, buffer 4096", notes.len());
    let mut line = vec![0; frame_bytes];
    let expected = multiplexed(level, u64::MAX, &mut line, notes, &[0; 4096]);
    run.expect(
        "multiplex",
        &inputs,
        &expected,
        &raw_multiplex(level, u64::MAX, &mut line, notes, &[0; 4096]),
    );
    let expected = noted(level, &line, notes);
    run.expect("read_notes", &inputs, &expected, &raw_read_notes(level, &line, notes));
    let expected = extracted(level, u64::MAX, &line, notes, &mut [0; 4096]);
    run.expect(
        "extract",
        &inputs,
        &expected,
        &raw_extract(level, u64::MAX, &line, notes, &mut [0; 4096]),
    );
    long_swap(run, &inputs, level, &mut line, notes, &[0; 4096]);
    untouched(run, &inputs, notes);
}

/// Multiplexing may accept a long buffer, whose quarters then begin far apart.
/// Extraction is asked only where it refuses: else it would clear 4 GiB.
fn long_buffer(run: &mut Run, level: u64, frame_bytes: usize, buffer: &mut [u8]) {
    let inputs = format!("level {level}, one frame, 1 note, buffer {}", buffer.len());
    if buffer.len() % 4 != 0 {
        let line = vec![0; frame_bytes];
        let expected = extracted(level, u64::MAX, &line, &[0], buffer);
        run.expect(
            "extract",
            &inputs,
            &expected,
            &raw_extract(level, u64::MAX, &line, &[0], buffer),
        );
        untouched(run, &inputs, buffer);
    }
    let quarter = buffer.len() / 4;
    for j in 0..4 {
        buffer[j * quarter..][..100].copy_from_slice(&run.random.bytes(100));
    }
    let (mut ours, mut theirs) = (vec![0; frame_bytes], vec![0; frame_bytes]);
    let note = 5 | reference::level::row(level).map_or(0, |row| row.national_bits());
    let expected = multiplexed(level, 3, &mut ours, &[note], buffer);
    let sent = raw_multiplex(level, 3, &mut theirs, &[note], buffer);
    run.expect("multiplex", &inputs, &expected, &sent);
    let wide = |line: Vec<u8>| line.into_iter().map(u64::from).collect::<Vec<_>>();
    run.expect("multiplex", &format!("{inputs}: the line"), &wide(ours), &wide(theirs.clone()));
    long_swap(run, &inputs, level, &mut theirs, &[5], buffer);
    for pattern in [0, 15, 23] {
        long_judge(run, level, &theirs, pattern, buffer);
    }
    for j in 0..4 {
        buffer[j * quarter..][..100].fill(0);
    }
}

/// A long line, or a long buffer, of which only what a line's frames have is read.
fn long_judge(run: &mut Run, level: u64, line: &[u8], pattern: u64, buffer: &[u8]) {
    let inputs =
        format!("level {level}, line {}, pattern {pattern}, buffer {}", line.len(), buffer.len());
    let expected = judge(level, 3, line, pattern, buffer);
    let mut answer = [UNWRITTEN; 20];
    // Sound if the face keeps to what it is lent.
    let refusal = unsafe {
        let (l, b, a) = (line.as_ptr(), buffer.as_ptr(), answer.as_mut_ptr());
        spritbobbin_judge(level, 3, l, line.len(), pattern, b, buffer.len(), a)
    };
    let expected = [vec![expected.refusal], judged_numbers(&expected)].concat();
    run.expect("judge", &inputs, &expected, &[&[refusal], &answer[..]].concat());
}

fn long_piece(run: &mut Run, slice: &[u8]) {
    let inputs = format!("fresh state of level 2, slice {} bytes", slice.len());
    for (first, count) in [(0, 0), (0, 16), (0, 1 << 32), (1 << 33, 1 << 33)] {
        let state = fresh(2).1;
        let expected = feed(&state, slice, first, count);
        let received = raw_feed(slice.as_ptr(), slice.len(), first, count);
        run.expect("receiver_feed", &inputs, &[expected.refusal, 0, 0, 0, 0], &received);
        let expected = finder_feed(&FinderState::default(), slice, first, count);
        let received = raw_hunt(slice.as_ptr(), slice.len(), first, count);
        run.expect("finder_feed", &inputs, &[expected.refusal, 0, 0], &received);
    }
    for place in [0, 1 << 32, 1 << 35, u64::MAX] {
        // Sound as above.
        let digit = unsafe { spritbobbin_line_digit(slice.as_ptr(), slice.len(), place) };
        run.expect("line_digit", &inputs, &[line_digit(slice, place)], &[digit]);
    }
}

/// Feeds a fresh state of level 2 and checks that a refused call leaves it so.
fn raw_feed(piece: *const u8, piece_bytes: usize, first: u64, count: u64) -> Vec<u64> {
    let mut state = face::numbers("state", &FRESH);
    let mut frame = face::bytes("frame store", &[0; 366]);
    let mut answer = face::numbers("answer", &[UNWRITTEN; 4]);
    // Sound as above; where the length is false the call must be refused unread.
    let refusal = unsafe {
        let (s, f, a) = (state.pointer(), frame.pointer(), answer.pointer());
        spritbobbin_receiver_feed(s, f, piece, piece_bytes, first, count, a)
    };
    let kept = state.inner() == FRESH && frame.inner() == [0; 366];
    let written = if kept { &[][..] } else { &[UNWRITTEN] };
    [&[refusal], answer.inner(), written].concat()
}

/// The same for the finder.
fn raw_hunt(piece: *const u8, piece_bytes: usize, first: u64, count: u64) -> Vec<u64> {
    let mut state = face::numbers("state", &[0; 4]);
    let mut answer = face::numbers("answer", &[UNWRITTEN; 2]);
    // Sound as above.
    let refusal = unsafe {
        let (s, a) = (state.pointer(), answer.pointer());
        spritbobbin_finder_feed(s, piece, piece_bytes, first, count, a)
    };
    let written = if state.inner() == [0; 4] { &[][..] } else { &[UNWRITTEN] };
    [&[refusal], answer.inner(), written].concat()
}

/// Nothing lent, by a null pointer and the length 0, as C programs do.
fn null_pointers(run: &mut Run) {
    let (null, null_mut) = (std::ptr::null(), std::ptr::null_mut());
    for level in NUMBERS {
        for earlier in EARLIER {
            null_lines(run, level, earlier);
            repairing::by_length(run, level, earlier, 0);
            for pattern in [0, 15, 23, 1, u64::MAX] {
                judging::by_lengths(run, level, earlier, pattern, [0; 2]);
                verdict::by_lengths(run, level, pattern, earlier, [0; 2]);
            }
            for tributary in [0, 1, 4, 5] {
                swapping::by_lengths(run, level, earlier, tributary, [0; 3]);
            }
        }
        let refusal = frames_refusal(level, 0, 0);
        for labelled in [0, 1] {
            let none = if refusal == 0 { [4, 0, 0] } else { [refusal, 0, 0] };
            let wrote = raw_write(level, [(null, 0); 2], labelled, (null_mut, 0));
            run.expect("capture_write", &format!("level {level}, null pointers"), &none, &wrote);
        }
    }
    run.expect("capture_read", "null file", &[9, 0, 0, 0, 0, 0, 0, 0], &raw_read(null, 0));
    let good = [1, 0, 1, 2, 2, 0, 0];
    let good = (good.as_ptr(), good.len());
    for (one, other, file) in
        [((null, 0), good, 1), (good, (null, 0), 2), ((null, 0), (null, 0), 1)]
    {
        let expected = [&[9, file], &[0; 18][..], &[UNWRITTEN; 128]].concat();
        run.expect("compare", "null file", &expected, &raw_compare(one, other));
    }
    for (first, count) in [(0, 0), (0, 1), (1, 0), (u64::MAX, 1)] {
        let expected = [feed_refusal(&fresh(2).1, 0, first, count), 0, 0, 0, 0];
        run.expect("receiver_feed", "null piece", &expected, &raw_feed(null, 0, first, count));
        let expected = [finder_refusal(&FinderState::default(), 0, first, count), 0, 0];
        run.expect("finder_feed", "null piece", &expected, &raw_hunt(null, 0, first, count));
        // Sound as above.
        let digit = unsafe { spritbobbin_line_digit(null, 0, first) };
        run.expect("line_digit", "null line", &[2], &[digit]);
    }
    copying::by_lengths(run, [0; 2]);
    beginnings::by_lengths(run, [0; 2]);
    rack::no_records(run);
}

/// The calls on a line, its notes and a buffer, with none of them.
fn null_lines(run: &mut Run, level: u64, earlier: u64) {
    let (null, null_mut) = (std::ptr::null(), std::ptr::null_mut());
    let (mut answer, mut read, mut back) = ([UNWRITTEN; 5], [UNWRITTEN; 5], [UNWRITTEN; 5]);
    let inputs = format!("level {level}, earlier {earlier}, null pointers");
    // Sound if the face makes no slice of a null pointer.
    let (sent, noted, taken) = unsafe {
        let (a, r, b) = (answer.as_mut_ptr(), read.as_mut_ptr(), back.as_mut_ptr());
        (
            spritbobbin_multiplex(level, earlier, null_mut, 0, null, 0, null, 0, a),
            spritbobbin_read_notes(level, null, 0, null_mut, 0, r),
            spritbobbin_extract(level, earlier, null, 0, null, 0, null_mut, 0, b),
        )
    };
    let expected = multiplexed(level, earlier, &mut [], &[], &[]);
    run.expect("multiplex", &inputs, &expected, &[&[sent], &answer[..]].concat());
    let none = [frames_refusal(level, 0, 0), 0, 0, 0, 0, 0];
    run.expect("read_notes", &inputs, &none, &[&[noted], &read[..]].concat());
    let expected = extracted(level, earlier, &[], &[], &mut []);
    run.expect("extract", &inputs, &expected, &[&[taken], &back[..]].concat());
}

/// Lengths that no memory holds. Each of these calls is refused for its lengths alone, so a
/// face that judges them first never reads or writes there.
fn false_lengths(run: &mut Run) {
    let lengths = [1 << 62, (1 << 63) - 1, 1 << 63, u64::MAX - 105, u64::MAX - 3, u64::MAX];
    for level in NUMBERS {
        let frame = frame_bytes(level);
        for long in lengths {
            one_false_length(run, level, [long, 1, 4 * frame]);
            one_false_length(run, level, [frame, long, 4 * frame]);
            one_false_length(run, level, [frame, 1, long]);
            one_false_length(run, level, [long, long, long]);
            for lengths in [[long, 1, frame], [frame, long, frame], [long; 3], [frame, 2, long]] {
                swapping::by_lengths(run, level, 16, 1, lengths);
            }
            repairing::by_length(run, level, 16, long);
            for pattern in [0, 15, 23, 1] {
                for earlier in [0, 16] {
                    for lengths in [[long, long], [long, 4 * frame], [frame, long], [0, long]] {
                        judging::by_lengths(run, level, earlier, pattern, lengths);
                        verdict::by_lengths(run, level, pattern, 17 * earlier, lengths);
                    }
                }
            }
            // The most bytes that eight times over do not fit in 64 bits, and room enough.
            swapping::by_lengths(run, level, 16, 4, [frame, 1, long]);
            false_capture(run, level, long);
        }
    }
    let memory = [0; 4096];
    for number in [65, 1 << 32, (1 << 32) + 1, (1 << 54) - 1] {
        rack::false_number(run, number);
    }
    for long in lengths {
        for lengths in [[long, 8], [8, long], [long, long]] {
            copying::by_lengths(run, lengths);
            beginnings::by_lengths(run, lengths);
        }
        let expected = [feed_refusal(&fresh(2).1, long, 0, 8), 0, 0, 0, 0];
        let fed = raw_feed(memory.as_ptr(), long as usize, 0, 8);
        run.expect("receiver_feed", &format!("slice of {long} bytes"), &expected, &fed);
        let expected = [finder_refusal(&FinderState::default(), long, 0, 8), 0, 0];
        let hunted = raw_hunt(memory.as_ptr(), long as usize, 0, 8);
        run.expect("finder_feed", &format!("slice of {long} bytes"), &expected, &hunted);
        // Sound as there.
        let digit = unsafe { spritbobbin_line_digit(memory.as_ptr(), long as usize, 0) };
        run.expect("line_digit", &format!("line of {long} bytes"), &[2], &[digit]);
    }
}

/// Refused for the length of line or label; a label that is not asked for is not looked at.
fn false_capture(run: &mut Run, level: u64, long: u64) {
    let (memory, mut file) = ([0_u8; 8], [0_u8; 64]);
    let (empty, at) = ((memory.as_ptr(), 0), (memory.as_ptr(), long as usize));
    let inputs = format!("level {level}, line or label {long} bytes");
    let room = (file.as_mut_ptr(), file.len());
    if length_refusal(level, long, long / frame_bytes(level), u64::MAX / 8 * 4) != 0 {
        run.expect(
            "capture_write",
            &inputs,
            &written(level, long, 0, 0),
            &raw_write(level, [at, empty], 0, room),
        );
    }
    run.expect(
        "capture_write",
        &inputs,
        &written(level, 0, long, 1),
        &raw_write(level, [empty, at], 1, room),
    );
    run.expect(
        "capture_write",
        &inputs,
        &written(level, 0, long, 0),
        &raw_write(level, [empty, at], 0, room),
    );
}

fn one_false_length(run: &mut Run, level: u64, [line, notes, buffer]: [u64; 3]) {
    let refusal = length_refusal(level, line, notes, buffer);
    if refusal == 0 {
        return;
    }
    let (mut memory, mut sent, mut taken) = ([0_u8; 4096], [UNWRITTEN; 5], [UNWRITTEN; 5]);
    let inputs =
        format!("level {level}, earlier 16, line {line}, notes {notes}, buffer {buffer} bytes");
    let (at, l, n, b) = (memory.as_mut_ptr(), line as usize, notes as usize, buffer as usize);
    // Sound if the face judges lengths before it reads or writes; nothing is lent but a
    // little memory that all three pointers share.
    let numbers = unsafe {
        [
            spritbobbin_multiplex(level, 16, at, l, at, n, at, b, sent.as_mut_ptr()),
            spritbobbin_extract(level, 16, at, l, at, n, at, b, taken.as_mut_ptr()),
        ]
    };
    run.expect("multiplex", &inputs, &[refusal, 0, 0, 0, 0, 0], &[&numbers[..1], &sent].concat());
    run.expect("extract", &inputs, &[refusal, 0, 0, 0, 0, 0], &[&numbers[1..], &taken].concat());
    let unread = frames_refusal(level, line, notes);
    if unread != 0 {
        let mut read = [UNWRITTEN; 5];
        // Sound as above.
        let number = unsafe { spritbobbin_read_notes(level, at, l, at, n, read.as_mut_ptr()) };
        run.expect(
            "read_notes",
            &inputs,
            &[unread, 0, 0, 0, 0, 0],
            &[&[number], &read[..]].concat(),
        );
    }
}

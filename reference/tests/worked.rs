//! The worked cases of the specification, each refusal at its border, and the smallest
//! inputs on which two careful readers could differ.

use reference::digits::{pack, unpack};
use reference::frame::{self, Place};
use reference::level::{row, Row};
use reference::random::Random;
use reference::{
    extract, feed, fresh, history, line_digit, multiplex, read_notes, Counted, Fed, Noted, State,
};

const WORD: &str = "1111010000";

/// An earlier vote that would be refused at levels 12 and 14; levels 2 to 4 do not look at it.
const NOT_LOOKED_AT: u64 = u64::MAX;

/// An earlier vote that the level accepts.
fn earlier(level: u64) -> u64 {
    match level {
        12 | 14 => 0,
        _ => NOT_LOOKED_AT,
    }
}

/// The national digits of an accepted send, as the bits of a note: all 1 at levels 2 to 4, and
/// none at levels 12 and 14.
fn national(level: u64) -> u8 {
    match level {
        2 | 3 => 0x20,
        4 => 0xE0,
        _ => 0,
    }
}

/// Multiplexes from quarters that are zero.
fn from_zero(level: u64, line: usize, notes: &[u8], buffer: usize) -> (Counted, Vec<u8>) {
    from_zero_after(level, earlier(level), line, notes, buffer)
}

/// The same after an earlier vote.
fn from_zero_after(
    level: u64,
    earlier: u64,
    line: usize,
    notes: &[u8],
    buffer: usize,
) -> (Counted, Vec<u8>) {
    let mut bytes = vec![0xA5; line];
    let answer = multiplex(level, earlier, &mut bytes, notes, &vec![0; buffer]);
    if answer.refusal != 0 {
        assert_eq!(bytes, vec![0xA5; line], "a refused call wrote to the line");
    }
    (answer, bytes)
}

fn refusal(level: u64, line: usize, notes: &[u8], buffer: usize) -> u64 {
    let (answer, _) = from_zero(level, line, notes, buffer);
    if answer.refusal != 0 {
        assert_eq!(answer.counts, [0; 4]);
    }
    if answer.refusal != 5 && answer.refusal != 10 {
        assert_eq!(answer.frame, 0);
    }
    answer.refusal
}

/// Notes read and tributaries extracted by them, the two calls in turn.
struct Received {
    refusal: u64,
    counts: [u64; 4],
    alignment: u64,
    dissent: [u64; 4],
}

fn receive(level: u64, line: &[u8], notes: &mut [u8], buffer: &mut [u8]) -> Received {
    let Noted { refusal, alignment, dissent } = read_notes(level, line, notes);
    if refusal != 0 {
        return Received { refusal, counts: [0; 4], alignment, dissent };
    }
    let Counted { refusal, counts, .. } = extract(level, earlier(level), line, notes, buffer);
    Received { refusal, counts, alignment, dissent }
}

/// The refusal of the two calls on a line of zeros; a refused call must leave all it was lent.
fn back_refusal(level: u64, line: usize, notes: usize, buffer: usize) -> u64 {
    let (mut notes, mut buffer) = (vec![0xA5; notes], vec![0xA5; buffer]);
    let answer = receive(level, &vec![0; line], &mut notes, &mut buffer);
    if answer.refusal != 0 {
        assert_eq!(answer.counts, [0; 4]);
        assert!(buffer.iter().all(|&byte| byte == 0xA5));
    }
    if (1..4).contains(&answer.refusal) {
        assert_eq!((answer.alignment, answer.dissent), (0, [0; 4]));
        assert!(notes.iter().all(|&byte| byte == 0xA5));
    }
    if answer.refusal == 4 {
        assert!(notes.iter().all(|&byte| byte == 0), "the notes are by then written");
    }
    answer.refusal
}

fn accepted(counts: [u64; 4]) -> Counted {
    Counted { refusal: 0, frame: 0, counts }
}

/// A line of the given bytes, all others zero.
fn bytes(length: usize, set: &[(usize, u8)]) -> Vec<u8> {
    let mut line = vec![0; length];
    for &(at, byte) in set {
        line[at] = byte;
    }
    line
}

fn digits(text: &str) -> Vec<u8> {
    text.bytes().map(|sign| sign - b'0').collect()
}

fn state(level: u64, window: u64, seen: u64, mode: u64, place: u64, store: u8) -> State {
    State { level, window, seen, mode, place, frame: [store; 366], ..start(2) }
}

fn start(level: u64) -> State {
    fresh(level).1
}

/// Feeds all digits of a list, call after call, and says after how many a frame was ready.
fn feed_all(state: &State, list: &[u8]) -> (Vec<u64>, State) {
    let (ready, _, state) = feed_counted(state, list);
    (ready, state)
}

/// The same, with the words tested.
fn feed_counted(state: &State, list: &[u8]) -> (Vec<u64>, u64, State) {
    let (slice, mut at, mut ready, mut words) = (pack(list), 0, Vec::new(), 0);
    let mut state = state.clone();
    while at < list.len() as u64 {
        let fed = feed(&state, &slice, at, list.len() as u64 - at);
        assert_eq!(fed.refusal, 0);
        at += fed.taken;
        words += fed.words;
        state = fed.state;
        if fed.ready {
            ready.push(at);
        }
    }
    (ready, words, state)
}

fn feed_refused(state: &State, slice: usize, first: u64, count: u64) -> u64 {
    let fed = feed(state, &vec![0; slice], first, count);
    if fed.refusal != 0 {
        let (taken, state) = (0, state.clone());
        let expected =
            Fed { refusal: fed.refusal, taken, ready: false, alarm: false, words: 0, state };
        assert_eq!(fed, expected);
    }
    fed.refusal
}

#[test]
fn case_1() {
    let (answer, line) = from_zero(2, 106, &[0x20], 104);
    assert_eq!(answer, accepted([206; 4]));
    assert_eq!(line, bytes(106, &[(0, 0xF4), (1, 0x10)]));
}

#[test]
fn case_2() {
    let (answer, line) = from_zero(2, 106, &[0x3F], 104);
    assert_eq!(answer, accepted([205; 4]));
    let set = [(0, 0xF4), (1, 0x30), (26, 0x0F), (53, 0xF0), (79, 0x0F), (80, 0xF0)];
    assert_eq!(line, bytes(106, &set));
}

#[test]
fn case_3() {
    let (answer, line) = from_zero(3, 192, &[0x21], 192);
    assert_eq!(answer, accepted([377, 378, 378, 378]));
    let set = [(0, 0xF4), (1, 0x10), (48, 0x80), (96, 0x80), (144, 0x88)];
    assert_eq!(line, bytes(192, &set));
}

#[test]
fn case_4() {
    let (answer, line) = from_zero(4, 366, &[0xFF], 364);
    assert_eq!(answer, accepted([722; 4]));
    let groups = [(61, 0xF0), (122, 0xF0), (183, 0xF0), (244, 0xF0), (305, 0xFF)];
    assert_eq!(line, bytes(366, &[&[(0, 0xFA), (1, 0x0F)], &groups[..]].concat()));
}

/// The place in a frame of one digit of one tributary: where the line changes if the digit
/// does.
fn place_of(level: u64, tributary: usize, digit: usize, note: u8) -> Vec<usize> {
    place_after(level, earlier(level), tributary, digit, &[note | national(level)])
}

/// The same in a line of several frames after an earlier vote.
fn place_after(
    level: u64,
    earlier: u64,
    tributary: usize,
    digit: usize,
    notes: &[u8],
) -> Vec<usize> {
    let row = row(level).unwrap();
    let quarter = 91 * notes.len();
    let mut buffer = vec![0; 4 * quarter];
    let line = notes.len() * row.frame_bytes();
    let (answer, without) = from_zero_after(level, earlier, line, notes, buffer.len());
    assert_eq!(answer.refusal, 0);
    buffer[(tributary - 1) * quarter + digit / 8] = 0x80 >> (digit % 8);
    let mut with = without.clone();
    multiplex(level, earlier, &mut with, notes, &buffer);
    let (without, with) = (unpack(&without, 8 * line), unpack(&with, 8 * line));
    (0..with.len()).filter(|&place| with[place] != without[place]).collect()
}

#[test]
fn cases_5_to_7() {
    assert_eq!(place_of(2, 1, 50, 0), [216]);
    assert_eq!(place_of(2, 1, 154, 0), [640]);
    assert_eq!(place_of(2, 1, 154, 1), [644]);
    assert_eq!(place_of(3, 1, 93, 0), [388]);
    assert_eq!(place_of(3, 1, 283, 0), [1156]);
    assert_eq!(place_of(3, 4, 377, 0), [1535]);
    assert_eq!(place_of(4, 1, 118, 0), [492]);
    assert_eq!(place_of(4, 1, 602, 0), [2444]);
    assert_eq!(place_of(4, 4, 722, 0), [2927]);
}

/// The note, the dissent and the count of a zero frame with this group for tributary 1.
fn read_group(level: u64, group: &str) -> (u8, u64, u64) {
    let row = row(level).unwrap();
    let (_, line) = from_zero(level, row.frame_bytes(), &[national(level)], 4 * 91);
    let mut list = unpack(&line, row.frame_digits);
    for (k, digit) in digits(group).into_iter().enumerate() {
        list[(k + 1) * row.set_digits] = digit;
    }
    let mut notes = [0xA5];
    let answer = receive(level, &pack(&list), &mut notes, &mut [0; 4 * 91]);
    assert_eq!((answer.refusal, answer.alignment), (0, 0));
    assert_eq!(answer.dissent[1..], [0; 3]);
    assert_eq!(notes[0] & !0x0F, national(level));
    (notes[0] & 0x0F, answer.dissent[0], answer.counts[0])
}

#[test]
fn case_8() {
    assert_eq!(read_group(2, "110"), (1, 1, 205));
    assert_eq!(read_group(2, "100"), (0, 1, 206));
    assert_eq!(read_group(3, "011"), (1, 1, 377));
    assert_eq!(read_group(4, "11100"), (1, 2, 722));
    assert_eq!(read_group(4, "11000"), (0, 2, 723));
    assert_eq!(read_group(4, "11111"), (1, 0, 722));
    assert_eq!(read_group(4, "00000"), (0, 0, 723));
}

#[test]
fn case_9() {
    assert_eq!(refusal(2, 64 * 106, &[0x20; 64], 4 * 1648), 0);
    assert_eq!(refusal(2, 65 * 106, &[0x20; 65], 4 * 1674), 2);
    assert_eq!(refusal(2, 105, &[0x20], 104), 2);
    assert_eq!(refusal(2, 106, &[0x20], 4 * 26), 0);
    assert_eq!(refusal(2, 106, &[0x20], 4 * 25), 4);
    assert_eq!(back_refusal(2, 64 * 106, 64, 4 * 1648), 0);
    assert_eq!(back_refusal(2, 65 * 106, 65, 4 * 1674), 2);
    assert_eq!(back_refusal(2, 105, 1, 104), 2);
    assert_eq!(back_refusal(2, 106, 1, 4 * 26), 0);
    assert_eq!(back_refusal(2, 106, 1, 4 * 25), 4);
}

#[test]
fn case_10() {
    assert_eq!(refusal(2, 106, &[0x40], 100), 4);
    assert_eq!(refusal(2, 106, &[0x40], 104), 5);
}

#[test]
fn case_11() {
    let (_, line) = from_zero(2, 106, &[0x20], 104);
    assert_eq!(line[..3], [0xF4, 0x10, 0x00]);
    let four = line.repeat(4);
    let first = feed(&start(2), &four, 0, 3392);
    assert_eq!((first.refusal, first.taken, first.ready), (0, 2544, true));
    assert_eq!(first.state.frame[..106], line);
    assert_eq!(first.state.frame[106..], [0; 260]);
    let second = feed(&first.state, &four, 2544, 848);
    assert_eq!((second.refusal, second.taken, second.ready), (0, 848, true));
    assert_eq!(second.state.frame, first.state.frame);
}

#[test]
fn case_11_in_pieces() {
    let (_, line) = from_zero(2, 106, &[0x20], 104);
    for size in [1, 7, 1000] {
        let (mut state, mut at, mut ready) = (start(2), 0, Vec::new());
        while at < 3392 {
            let fed = feed(&state, &line.repeat(4), at, size.min(3392 - at));
            at += fed.taken;
            state = fed.state;
            if fed.ready {
                ready.push(at);
                assert_eq!(state.frame[..106], line);
            }
        }
        assert_eq!(ready, [2544, 3392]);
    }
}

#[test]
fn the_layout_has_the_numbers_of_the_table() {
    for level in 2..=4 {
        let row = row(level).unwrap();
        let places = frame::layout(row);
        assert_eq!(places.len(), row.frame_digits);
        let first = 10 + 2 + 4 * (level / 4) as usize;
        assert_eq!(places.iter().position(|p| *p == Place::Tributary(0)), Some(first));
        for j in 0..4 {
            let of = |wanted| places.iter().filter(|p| **p == wanted).count();
            assert_eq!(of(Place::Control(j)), row.group_digits);
            assert_eq!(of(Place::Justification(j)), 1);
            assert_eq!(of(Place::Tributary(j)) + 1, row.tributary_digits);
        }
    }
}

#[test]
fn levels() {
    for level in [0, 1, 5, 11, 13, 15, 255, 258, 256 + 12, (1 << 32) + 2, u64::MAX] {
        assert_eq!(refusal(level, 0, &[], 0), 1);
        assert_eq!(back_refusal(level, 0, 0, 0), 1);
        assert_eq!(fresh(level), (1, state(0, 0, 0, 0, 0, 0)));
        assert_eq!(feed_refused(&fresh(level).1, 0, 0, 0), 6);
    }
    for level in [2, 3, 4, 12, 14] {
        assert_eq!(refusal(level, 0, &[], 0), 0);
        assert_eq!(fresh(level), (0, state(level, 0, 0, 0, 0, 0)));
    }
}

#[test]
fn lines_at_their_borders() {
    for (level, frame_bytes, quarter) in
        [(2, 106, 1674), (3, 192, 3072), (4, 366, 5875), (12, 132, 2089), (14, 272, 4372)]
    {
        for (frames, expected) in [(64, 0), (65, 2)] {
            let notes = vec![national(level); frames];
            assert_eq!(refusal(level, frames * frame_bytes, &notes, 4 * quarter), expected);
            assert_eq!(back_refusal(level, frames * frame_bytes, frames, 4 * quarter), expected);
        }
        for line in [frame_bytes - 1, frame_bytes + 1, 2 * frame_bytes - 1] {
            assert_eq!(refusal(level, line, &[0], 4 * quarter), 2);
            assert_eq!(back_refusal(level, line, 1, 4 * quarter), 2);
        }
    }
}

#[test]
fn notes_at_their_borders() {
    for (frames, notes) in [(1, 0), (1, 2), (0, 1), (64, 63), (64, 65)] {
        assert_eq!(refusal(2, frames * 106, &vec![0; notes], 8000), 3);
        assert_eq!(back_refusal(2, frames * 106, notes, 8000), 3);
    }
}

#[test]
fn buffers_at_their_borders() {
    for (level, line, quarter) in
        [(2, 106, 26), (3, 192, 48), (4, 366, 91), (12, 132, 33), (14, 272, 68)]
    {
        assert_eq!(refusal(level, line, &[national(level)], 4 * quarter), 0);
        assert_eq!(back_refusal(level, line, 1, 4 * quarter), 0);
        for buffer in [0, 4 * quarter - 4, 4 * quarter - 1, 4 * quarter + 1, 4 * quarter + 2] {
            assert_eq!(refusal(level, line, &[0], buffer), 4);
            assert_eq!(back_refusal(level, line, 1, buffer), 4);
        }
    }
}

#[test]
fn notes_with_bits_that_the_level_lacks() {
    for level in [2, 3] {
        for note in [0x40, 0x80, 0xC0, 0xFF] {
            let line = row(level).unwrap().frame_bytes();
            let (answer, _) = from_zero(level, 5 * line, &[0x20, 0x3F, note, 0, 0x80], 8000);
            assert_eq!(answer, Counted { refusal: 5, frame: 2, counts: [0; 4] });
        }
    }
    assert_eq!(refusal(4, 366, &[0xE0], 364), 0);
}

/// What multiplexing answers to so many notes from quarters that are zero: refusal and named frame.
fn judged(level: u64, notes: &[u8]) -> (u64, u64) {
    let (answer, _) =
        from_zero(level, notes.len() * row(level).unwrap().frame_bytes(), notes, 8000);
    assert!(answer.refusal == 0 || answer.counts == [0; 4]);
    (answer.refusal, answer.frame)
}

/// Request 14: every national digit of the level is 1, in every note, and the first frame without is named.
#[test]
fn national_digits_are_retired() {
    for level in [2, 3] {
        for note in 0..0x40 {
            assert_eq!(judged(level, &[note]), if note & 0x20 == 0 { (10, 0) } else { (0, 0) });
        }
        assert_eq!(judged(level, &[0x20, 0x3F, 0x1F, 0x20, 0]), (10, 2));
        assert_eq!(judged(level, &[0x20, 0x20, 0x30, 0x2F, 0x10]), (10, 4));
    }
    // At level 4 bits 5, 6 and 7, each missing alone or with others; the remote alarm is free.
    for note in 0..=0xFF {
        assert_eq!(judged(4, &[note]), if note >> 5 == 7 { (0, 0) } else { (10, 0) });
        assert_eq!(judged(4, &[0xE0, 0xFF, note]), if note >> 5 == 7 { (0, 0) } else { (10, 2) });
    }
    // Never at levels 12 and 14, where these bits must be 0.
    for level in [12, 14] {
        for note in 0..=0xFF {
            assert_eq!(judged(level, &[note]), if note < 16 { (0, 0) } else { (5, 0) });
        }
    }
    // No note is at fault where there is none.
    for level in [2, 3, 4, 12, 14] {
        assert_eq!(judged(level, &[]), (0, 0));
    }
}

/// 10 comes after 5 over all notes, and after all that comes before 5.
#[test]
fn national_digits_are_asked_for_last() {
    assert_eq!(judged(2, &[0, 0x40]), (5, 1));
    assert_eq!(judged(3, &[0, 0x20, 0xA0]), (5, 2));
    assert_eq!(judged(2, &[0x40, 0]), (5, 0));
    assert_eq!(judged(2, &[0x20, 0]), (10, 1));
    for (level, line, quarter) in [(2, 106, 26), (3, 192, 48), (4, 366, 91)] {
        assert_eq!(refusal(5, line, &[0], 4 * quarter), 1);
        assert_eq!(refusal(level, line - 1, &[0], 4 * quarter), 2);
        assert_eq!(refusal(level, line, &[0, 0], 4 * quarter), 3);
        assert_eq!(refusal(level, line, &[0], 4 * quarter - 4), 4);
        assert_eq!(refusal(level, line, &[0], 4 * quarter - 1), 4);
        assert_eq!(refusal(level, line, &[0], 4 * quarter), 10);
    }
}

/// Reading reports the digits as they came, and extraction goes by such notes.
#[test]
fn national_digits_are_read_as_they_came() {
    for (level, line, quarter) in [(2, 106, 26), (3, 192, 48), (4, 366, 91)] {
        let (_, sent) = from_zero(level, line, &[national(level)], 4 * quarter);
        let mut worn = unpack(&sent, 8 * line);
        let places = frame::layout(row(level).unwrap());
        for (place, digit) in places.into_iter().zip(&mut worn) {
            *digit &= u8::from(!matches!(place, Place::National(_)));
        }
        let (mut notes, mut back) = ([0xA5], vec![0xA5; 4 * quarter]);
        assert_eq!(receive(level, &pack(&worn), &mut notes, &mut back).refusal, 0);
        assert_eq!((notes, judged(level, &notes)), ([0], (10, 0)));
        assert_eq!(back, vec![0; 4 * quarter]);
    }
}

#[test]
fn the_order_of_faults() {
    assert_eq!(refusal(5, 105, &[], 104), 1);
    assert_eq!(refusal(5, 0, &[0], 0), 1);
    assert_eq!(refusal(5, 0, &[], 3), 1);
    assert_eq!(refusal(5, 106, &[0x40], 104), 1);
    assert_eq!(refusal(2, 105, &[0, 0], 104), 2);
    assert_eq!(refusal(2, 105, &[0], 3), 2);
    assert_eq!(refusal(2, 107, &[0x40], 104), 2);
    assert_eq!(refusal(2, 106, &[0, 0], 3), 3);
    assert_eq!(refusal(2, 106, &[0x40, 0], 104), 3);
    assert_eq!(refusal(2, 106, &[0x40], 103), 4);
    assert_eq!(back_refusal(5, 105, 2, 3), 1);
    assert_eq!(back_refusal(5, 0, 1, 0), 1);
    assert_eq!(back_refusal(5, 0, 0, 3), 1);
    assert_eq!(back_refusal(2, 105, 2, 104), 2);
    assert_eq!(back_refusal(2, 105, 1, 3), 2);
    assert_eq!(back_refusal(2, 106, 2, 3), 3);
}

#[test]
fn room_is_asked_for_unstuffed_frames() {
    assert_eq!(refusal(2, 8 * 106, &[0x2F; 8], 4 * 205), 4);
    assert_eq!(refusal(2, 8 * 106, &[0x2F; 8], 4 * 206), 0);
    assert_eq!(from_zero(2, 8 * 106, &[0x2F; 8], 4 * 206).0, accepted([8 * 205; 4]));
}

#[test]
fn no_frames() {
    assert_eq!(from_zero(2, 0, &[], 0).0, accepted([0; 4]));
    assert_eq!(refusal(2, 0, &[], 3), 4);
    assert_eq!(refusal(2, 0, &[0], 0), 3);
    assert_eq!(back_refusal(2, 0, 0, 3), 4);
    assert_eq!(back_refusal(2, 0, 1, 0), 3);
    let mut buffer = [0xFF; 4];
    assert_eq!(receive(2, &[], &mut [], &mut buffer).refusal, 0);
    assert_eq!(buffer, [0; 4]);
}

#[test]
fn digits_run_on_from_frame_to_frame() {
    let mut buffer = vec![0; 4 * 52];
    buffer[206 / 8] = 0x80 >> (206 % 8);
    let mut line = vec![0; 212];
    multiplex(2, NOT_LOOKED_AT, &mut line, &[0x20, 0x20], &buffer);
    assert_eq!(line, bytes(212, &[(0, 0xF4), (1, 0x10), (106, 0xF4), (107, 0x18)]));
    multiplex(2, NOT_LOOKED_AT, &mut line, &[0x21, 0x20], &buffer);
    assert_eq!(unpack(&line, 1696)[848 + 12..848 + 17], [0, 0, 0, 0, 1]);
}

/// Sent, the national digits are 1; read, each has its own bit.
#[test]
fn service_digits_of_level_4() {
    for (note, byte) in [(0xE0, 0x07), (0xF0, 0x0F)] {
        let (answer, line) = from_zero(4, 366, &[note], 364);
        assert_eq!((answer.refusal, line), (0, bytes(366, &[(0, 0xFA), (1, byte)])));
    }
    for (note, byte) in [(0x10, 0x08), (0x20, 0x04), (0x40, 0x02), (0x80, 0x01)] {
        let (line, mut notes) = (bytes(366, &[(0, 0xFA), (1, byte)]), [0xA5]);
        assert_eq!(read_notes(4, &line, &mut notes), Noted::default());
        assert_eq!(notes, [note]);
    }
}

#[test]
fn old_notes_are_not_judged() {
    let (_, line) = from_zero(2, 106, &[0x20], 104);
    let mut notes = [0xC0];
    let answer = receive(2, &line, &mut notes, &mut [0xFF; 104]);
    assert_eq!(answer.refusal, 0);
    assert_eq!(notes, [0x20]);
}

#[test]
fn counts_over_all_frames() {
    assert_eq!(back_refusal(2, 106, 1, 4), 4);
    let answer = receive(2, &[0; 212], &mut [0; 2], &mut [0; 208]);
    assert_eq!((answer.alignment, answer.dissent), (10, [0; 4]));
    let answer = receive(4, &[0xFF; 366], &mut [0; 1], &mut [0; 364]);
    assert_eq!((answer.alignment, answer.dissent), (6, [0; 4]));
    let mut line = vec![0; 366];
    line[61] = 0xF0;
    line[305] = 0x50;
    let answer = receive(4, &line.repeat(3), &mut [0; 3], &mut [0; 4 * 272]);
    assert_eq!((answer.alignment, answer.dissent), (18, [3, 6, 3, 6]));
    assert_eq!(answer.counts, [3 * 723; 4]);
}

#[test]
fn decisions_are_used_in_their_own_frame() {
    // Decisions that alternate: one used a frame late would hand out a stuffing digit or
    // lose a carried one, and all that follows would be shifted.
    for (level, line, quarter) in [(2, 106, 206), (3, 192, 378), (4, 366, 723)] {
        let sent: Vec<u8> = (0..4 * quarter).map(|k| (k * 151 % 251) as u8).collect();
        let notes = [0x05, 0x0A, 0x0A, 0x05, 0x01, 0x00, 0x0E, 0x0F].map(|n| n | national(level));
        let mut bytes = vec![0; 8 * line];
        let there = multiplex(level, NOT_LOOKED_AT, &mut bytes, &notes, &sent);
        let stuffed = |j: usize| notes.iter().filter(|&&note| note >> j & 1 == 1).count();
        assert_eq!(there.counts, [0, 1, 2, 3].map(|j| (8 * quarter - stuffed(j)) as u64));
        let (mut read, mut received) = ([0xFF; 8], vec![0xFF; 4 * quarter]);
        let back = receive(level, &bytes, &mut read, &mut received);
        assert_eq!((back.counts, read), (there.counts, notes));
        for (j, &count) in back.counts.iter().enumerate() {
            let part = j * quarter..(j + 1) * quarter;
            let carried = unpack(&sent[part.clone()], count as usize);
            assert_eq!(unpack(&received[part.clone()], count as usize), carried);
            assert!(unpack(&received[part], 8 * quarter)[count as usize..].iter().all(|d| *d == 0));
        }
    }
}

#[test]
fn the_tenth_digit_can_be_the_one_found() {
    let (_, state) = feed_all(&start(2), &digits(WORD));
    assert_eq!((state.mode, state.place, state.seen, state.window), (1, 0, 10, 0b11_1101_0000));
    assert_eq!(state.frame[..2], [0xF4, 0x00]);
    assert_eq!(feed_all(&start(2), &[1, 0]).1.window, 2);
}

#[test]
fn the_store_stays_when_alignment_is_lost() {
    let stream = [digits(WORD), vec![1], vec![0; 847]].concat();
    let (_, state) = feed_all(&start(2), &stream);
    assert_eq!((state.mode, state.place, state.seen), (0, 0, 10));
    assert_eq!(state.frame[..3], [0xF4, 0x20, 0x00]);
}

#[test]
fn a_digit_overwrites_the_store() {
    let (_, after) = feed_all(&state(2, 0, 10, 3, 0, 0xFF), &[0]);
    assert_eq!(after.frame[..3], [0xFF, 0xDF, 0xFF]);
}

#[test]
fn later_bytes_are_handed_over_as_they_are() {
    let fed = feed(&state(2, 0, 10, 3, 837, 0xFF), &[0x80], 0, 1);
    assert_eq!((fed.taken, fed.ready), (1, true));
    assert_eq!(fed.state.frame, [0xFF; 366]);
}

/// Frames of zeros at level 2, each word right or its first digit wrong.
fn words(good: &[bool]) -> Vec<u8> {
    let frame = |&good: &bool| [vec![u8::from(good)], digits("111010000"), vec![0; 838]].concat();
    good.iter().flat_map(frame).collect()
}

#[test]
fn missed_words() {
    assert_eq!(feed_all(&start(2), &words(&[true; 3])).0, [2544]);
    let stream = words(&[true, true, true, false]);
    assert_eq!(feed_all(&start(2), &stream).0, [2544, 3392]);
    let stream = words(&[true, true, true, false, false, false, false, true]);
    let (ready, state) = feed_all(&start(2), &stream);
    assert_eq!(ready, [2544, 3392, 4240, 5088]);
    assert_eq!((state.mode, state.place), (1, 838));
    let stream = words(&[true, true, true, false, false, false, true, false]);
    let (ready, state) = feed_all(&start(2), &stream);
    assert_eq!(ready, [2544, 3392, 4240, 5088, 5936, 6784]);
    assert_eq!((state.mode, state.place), (4, 838));
    assert_eq!(feed_all(&start(2), &words(&[true, false, true, true])).0, []);
}

#[test]
fn a_word_half_received_at_a_failed_check_is_found() {
    let stream = [digits(WORD), vec![0; 843], digits("11110")].concat();
    let (_, lost) = feed_all(&start(2), &stream);
    assert_eq!((lost.mode, lost.seen, lost.window), (0, 10, 0b11110));
    let (_, found) = feed_all(&lost, &digits("10000"));
    assert_eq!((found.mode, found.place), (1, 0));
}

#[test]
fn empty_pieces() {
    let waiting = state(2, 0, 10, 3, 838, 0xFF);
    let fed = feed(&waiting, &[], 0, 0);
    let state_before = waiting.clone();
    assert_eq!(
        fed,
        Fed { refusal: 0, taken: 0, ready: false, alarm: false, words: 0, state: state_before }
    );
    assert_eq!(feed_refused(&state(2, 0, 0, 0, 1, 0), 0, 0, 0), 6);
    assert_eq!(feed_refused(&waiting, 65_537, 0, 0), 2);
    assert_eq!(feed_refused(&waiting, 0, 1, 0), 7);
    assert_eq!(feed_refused(&waiting, 1, 8, 0), 0);
    assert_eq!(feed_refused(&waiting, 1, 9, 0), 7);
}

#[test]
fn pieces_at_their_borders() {
    assert_eq!(feed_refused(&start(2), 65_536, 524_280, 8), 0);
    assert_eq!(feed_refused(&start(2), 65_536, 524_281, 8), 7);
    assert_eq!(feed_refused(&start(2), 65_537, 0, 1), 2);
    assert_eq!(feed_refused(&start(2), 1, u64::MAX, 2), 7);
    assert_eq!(feed_refused(&start(2), 1, 2, u64::MAX), 7);
    assert_eq!(feed_refused(&start(2), 1, u64::MAX, u64::MAX), 7);
    let (_, line) = from_zero(2, 106, &[0x20], 104);
    assert_eq!(feed(&start(2), &line.repeat(3), 0, 2545).refusal, 7);
    assert_eq!(feed(&start(2), &line.repeat(3), 0, 2544).taken, 2544);
}

#[test]
fn states_at_their_borders() {
    for (level, length, last) in
        [(2, 10, 847), (3, 10, 1535), (4, 12, 2927), (12, 8, 1055), (14, 10, 2175)]
    {
        let top = (1 << length) - 1;
        let try_one = |window, seen, mode, place| {
            feed_refused(&state(level, window, seen, mode, place, 0xA5), 1, 0, 1)
        };
        assert_eq!(try_one(top, 0, 0, 0), 0);
        assert_eq!(try_one(top + 1, 0, 0, 0), 6);
        assert_eq!(try_one(u64::MAX, 0, 0, 0), 6);
        assert_eq!(try_one(0, length, 0, 0), 0);
        assert_eq!(try_one(0, length + 1, 0, 0), 6);
        assert_eq!(try_one(0, length, 6, 0), 0);
        assert_eq!(try_one(0, length, 7, 0), 6);
        assert_eq!(try_one(0, length, u64::MAX, 0), 6);
        assert_eq!(try_one(0, length, 0, 1), 6);
        for mode in 1..=6 {
            assert_eq!(try_one(0, length, mode, last), 0);
            assert_eq!(try_one(0, length, mode, last + 1), 6);
            assert_eq!(try_one(0, length - 1, mode, 0), 6);
        }
    }
}

#[test]
fn the_order_of_faults_of_a_piece() {
    let wrong = state(2, 0, 0, 7, 0, 0);
    assert_eq!(feed_refused(&wrong, 65_537, 0, 1), 6);
    assert_eq!(feed_refused(&wrong, 0, 0, 1), 6);
    assert_eq!(feed_refused(&start(2), 65_537, u64::MAX, 1), 2);
}

#[test]
fn a_window_need_not_fit_the_digits_seen() {
    assert_eq!(feed_refused(&state(2, 1023, 3, 0, 0, 0), 0, 0, 0), 0);
    let after = |seen, window| feed_all(&state(2, window, seen, 0, 0, 0), &[0]).1.mode;
    assert_eq!(after(9, 0b01_1110_1000), 1);
    assert_eq!(after(8, 0b01_1110_1000), 0);
    assert_eq!(after(10, 0b11_1101_0000), 0);
}

#[test]
fn the_reader() {
    assert_eq!([0, 1, 2, 7, 8, 9].map(|at| line_digit(&[0x81, 0x80], at)), [1, 0, 0, 1, 1, 0]);
    for place in [16, 17, 1 << 32, u64::MAX] {
        assert_eq!(line_digit(&[0x81, 0x80], place), 2);
    }
    assert_eq!(line_digit(&[], 0), 2);
    assert_eq!(line_digit(&vec![0xFF; 65_536], 524_287), 1);
    assert_eq!(line_digit(&vec![0xFF; 65_536], 524_288), 2);
    assert_eq!(line_digit(&vec![0xFF; 65_537], 0), 2);
}

/// A stream with words a frame apart, some damaged, some shifted, and noise between.
fn rough_stream(level: u64, mut seed: u64) -> Vec<u8> {
    let row = row(level).unwrap();
    let mut next = |below: u64| {
        seed = seed.wrapping_mul(6364136223846793005).wrapping_add(1442695040888963407);
        (seed >> 33) % below
    };
    let mut stream: Vec<u8> = (0..next(40)).map(|_| next(2) as u8).collect();
    for _ in 0..24 {
        let mut word = row.word_digits();
        if next(3) == 0 {
            word[0] ^= 1;
        }
        stream.extend(word);
        let body = row.frame_digits - row.word_length();
        let kind = next(4);
        stream.extend((0..body).map(|_| if kind == 0 { 1 } else { next(2) as u8 }));
        if next(9) == 0 {
            stream.truncate(stream.len() - next(12) as usize);
        }
    }
    stream
}

#[test]
fn feeding_agrees_with_the_search_through_the_whole_stream() {
    for seed in 0..30 {
        let level = [2, 3, 4, 12, 14][seed as usize % 5];
        let stream = rough_stream(level, seed);
        let (frames, tested, end) = history::whole(level, &stream);
        let (ready, words, state) = feed_counted(&start(level), &stream);
        let after: Vec<u64> = frames.iter().map(|frame| frame.after as u64).collect();
        assert_eq!((ready, words, state), (after, tested as u64, end), "seed {seed}");
    }
}

#[test]
fn extraction_goes_by_the_notes_given() {
    // Alternating decisions, extracted by the same notes a frame late: tributary 1, whose
    // decision does not change, comes out as before, the others do not.
    let (notes, late) = ([0x21, 0x2F, 0x21, 0x2F], [0x2F, 0x21, 0x2F, 0x21]);
    let sent: Vec<u8> = (0..4 * 103).map(|k| (k * 151 % 251) as u8).collect();
    let mut line = vec![0; 4 * 106];
    assert_eq!(multiplex(2, NOT_LOOKED_AT, &mut line, &notes, &sent).refusal, 0);
    let (mut right, mut wrong) = (vec![0xFF; 4 * 103], vec![0xFF; 4 * 103]);
    let counts = extract(2, NOT_LOOKED_AT, &line, &notes, &mut right).counts;
    assert_eq!(counts, [820, 822, 822, 822]);
    assert_eq!(extract(2, NOT_LOOKED_AT, &line, &late, &mut wrong).counts, counts);
    assert_eq!(right[..103], wrong[..103]);
    assert_ne!(right[103..], wrong[103..]);
    // No control digit is looked at.
    let controls = [212, 213, 214, 215, 424, 425, 426, 427, 636, 637, 638, 639];
    controls.iter().for_each(|place| line[place / 8] ^= 0x80 >> (place % 8));
    let before = right.clone();
    extract(2, NOT_LOOKED_AT, &line, &notes, &mut right);
    assert_eq!(right, before);
}

#[test]
fn extraction_refuses_with_5_last() {
    let buffer = &mut [0xA5; 104];
    let refused = |frame| Counted { refusal: 5, frame, counts: [0; 4] };
    assert_eq!(extract(2, NOT_LOOKED_AT, &[0; 106], &[0x40], buffer), refused(0));
    assert_eq!(extract(3, NOT_LOOKED_AT, &[0; 384], &[0, 0x80], &mut [0xA5; 4 * 95]), refused(1));
    assert_eq!(extract(4, NOT_LOOKED_AT, &[0; 366], &[0xC0], &mut [0; 364]).refusal, 0);
    assert_eq!(extract(2, NOT_LOOKED_AT, &[0; 106], &[0x40], &mut [0; 100]).refusal, 4);
    assert_eq!(extract(2, NOT_LOOKED_AT, &[0; 106], &[0x40; 2], &mut [0; 100]).refusal, 3);
    assert_eq!(extract(2, NOT_LOOKED_AT, &[0; 105], &[0x40; 2], &mut [0; 100]).refusal, 2);
    assert_eq!(extract(5, NOT_LOOKED_AT, &[0; 105], &[0x40; 2], &mut [0; 100]).refusal, 1);
    assert_eq!(buffer, &[0xA5; 104]);
}

/// A line of level 12 whose tributaries are zero, but for the given bytes: every frame begins with
/// the word, 11100110, and the first byte of groups II and III ends in four service digits 1.
/// A group has 33 bytes, so that groups I to IV begin at bytes 0, 33, 66 and 99.
fn level_12(frames: &[[u8; 4]]) -> Vec<u8> {
    let frame = |&[ii, iii, iv, next]: &[u8; 4]| {
        bytes(132, &[(0, 0xE6), (33, ii | 0x0F), (66, iii | 0x0F), (99, iv), (100, next)])
    };
    frames.iter().flat_map(frame).collect()
}

/// The same of level 14: the word is 1111010000 and two service digits 1 follow. A group has 68
/// bytes, so that groups I to IV begin at bytes 0, 68, 136 and 204.
fn level_14(frames: &[[u8; 4]]) -> Vec<u8> {
    let frame = |&[ii, iii, iv, next]: &[u8; 4]| {
        let groups = [(68, ii), (136, iii), (204, iv), (205, next)];
        bytes(272, &[&[(0, 0xF4), (1, 0x30)][..], &groups].concat())
    };
    frames.iter().flat_map(frame).collect()
}

/// One frame of zeros after an earlier vote. The first byte of group IV has the votes of the four
/// and then their negative places, the next byte the positive places and then tributary digits.
///
/// - Both votes 0: all 12 are 0, the negative places carry a digit too. 256 + 1 and 537 + 1.
/// - Both votes 1: all 12 are 1: negative places unused, positive places stuffed. 255 and 536.
/// - 0 before 1: the votes are 1, the unused negative places are 1, the positive places carry 0.
/// - 1 before 0: the votes are 0, the unused negative places are 1, the positive places carry 0.
#[test]
fn one_frame_of_levels_12_and_14() {
    for (earlier, note, votes, four, next, more) in [
        (0x00, 0x00, 0x00, 0x00, 0x00, 1),
        (0x0F, 0x0F, 0xF0, 0xFF, 0xF0, -1),
        (0x00, 0x0F, 0xF0, 0xFF, 0x00, 0),
        (0x0F, 0x00, 0x00, 0x0F, 0x00, 0),
    ] {
        let (answer, line) = from_zero_after(12, earlier, 132, &[note], 132);
        assert_eq!(answer, accepted([(256 + more) as u64; 4]));
        assert_eq!(line, level_12(&[[votes, votes, four, next]]));
        let (answer, line) = from_zero_after(14, earlier, 272, &[note], 272);
        assert_eq!(answer, accepted([(537 + more) as u64; 4]));
        assert_eq!(line, level_14(&[[votes, votes, four, next]]));
    }
}

/// Two frames in which each tributary does something else. Before: 1 0 1 0 (5); then 0 1 1 0 (06)
/// and 0 0 1 1 (0C), tributary 1 first.
///
/// - Frame 0: tributary 1 had 1 and has 0, plain; 2 had 0 and has 1, plain; 3 has 1 twice, stuffed;
///   4 has 0 twice, negative. Votes 0110; negative places 1 1 1 and a digit, so 6E; positive places
///   two digits, 1 and a digit, so 20.
/// - Frame 1: 1 has 0 twice, negative; 2 had 1 and has 0, plain; 3 has 1 twice, stuffed; 4 had 0
///   and has 1, plain. Votes 0011; negative places a digit and 1 1 1, so 37; positive places 20.
///
/// Digits at level 12: 256 + 257, 256 + 256, 255 + 255, 257 + 256; at level 14 twice 281 more.
#[test]
fn two_frames_of_levels_12_and_14() {
    let frames = [[0x60, 0x60, 0x6E, 0x20], [0x30, 0x30, 0x37, 0x20]];
    let (answer, line) = from_zero_after(12, 5, 264, &[0x06, 0x0C], 260);
    assert_eq!(answer, accepted([513, 512, 510, 513]));
    assert_eq!(line, level_12(&frames));
    let (answer, line) = from_zero_after(14, 5, 544, &[0x06, 0x0C], 540);
    assert_eq!(answer, accepted([1075, 1074, 1072, 1075]));
    assert_eq!(line, level_14(&frames));
}

/// The frame of action is the one that has the second of two equal votes, and every such frame
/// acts, however long the run.
///
/// - Level 12, tributary 1: 1 before, then 1 0: stuffed and plain, 255 + 256; the others have 0 all
///   the time, 257 + 257. Votes 1000 and 0000; negative places of frame 0 a 1 and three digits, so
///   88, its positive places 80; negative places of frame 1 a 1 and three digits, so 08.
/// - Level 12, tributary 1: 0 before, then 1 1 1: plain, stuffed, stuffed, 256 + 255 + 255.
/// - Level 14, tributary 4: 1 before, then 1 0 0: stuffed, plain, negative, 536 + 537 + 538.
///   Votes 0001, 0000, 0000; frame 0: three digits and 1 at the negative places, so 11, and at the
///   positive ones, so 10; frame 1: 1 at tributary 4's negative place, so 01; frame 2: none.
#[test]
fn frames_of_action() {
    let (answer, line) = from_zero_after(12, 1, 264, &[1, 0], 260);
    assert_eq!(answer, accepted([511, 514, 514, 514]));
    assert_eq!(line, level_12(&[[0x80, 0x80, 0x88, 0x80], [0, 0, 0x08, 0]]));
    let (answer, _) = from_zero_after(12, 0, 396, &[1, 1, 1], 388);
    assert_eq!(answer, accepted([766, 771, 771, 771]));
    let (answer, line) = from_zero_after(14, 8, 816, &[8, 0, 0], 808);
    assert_eq!(answer, accepted([1614, 1614, 1614, 1611]));
    assert_eq!(line, level_14(&[[0x10, 0x10, 0x11, 0x10], [0, 0, 0x01, 0], [0; 4]]));
}

/// Level 12: 64 digits of each tributary in each of groups I to III, from places 8, 264 + 8 and
/// 528 + 8 on; so digit 192 is the first of group IV, whose negative places are 792 + 4 to 799, its
/// positive places 800 to 803, and then 63 digits of each from 804 on.
#[test]
fn digits_of_level_12() {
    let at = |earlier, tributary, digit, note| place_after(12, earlier, tributary, digit, &[note]);
    for (tributary, digit, place) in [(1, 0, 8), (1, 63, 260), (1, 64, 272), (1, 128, 536)] {
        for (earlier, note) in [(0, 0), (1, 1), (0, 1), (1, 0)] {
            assert_eq!(at(earlier, tributary, digit, note), [place]);
        }
    }
    assert_eq!(at(0, 4, 191, 0), [791]);
    // Both carry: the negative place has the earlier digit.
    let both = [192, 193, 194].map(|digit| at(0, 1, digit, 0));
    assert_eq!(both, [[796], [800], [804]]);
    assert_eq!([at(0, 4, 192, 0), at(0, 4, 193, 0), at(0, 4, 256, 0)], [[799], [803], [1055]]);
    // Only the positive place carries, after either alternation.
    for (earlier, note) in [(0, 1), (1, 0)] {
        assert_eq!([192, 193].map(|digit| at(earlier, 1, digit, note)), [[800], [804]]);
    }
    assert_eq!(at(0, 4, 255, 8), [1055]);
    assert_eq!(at(0, 4, 256, 8), []);
    // Stuffed.
    assert_eq!([at(1, 1, 192, 1), at(8, 4, 254, 8)], [[804], [1055]]);
}

/// Level 14: 133 digits of each tributary from place 12 on in group I, 135 from 544 + 4 and 1088 + 4
/// on in groups II and III; so digit 403 is the first of group IV, whose negative places are 1632 + 4
/// to 1639, its positive places 1640 to 1643, and then 133 digits of each from 1644 on.
#[test]
fn digits_of_level_14() {
    let at = |earlier, tributary, digit, note| place_after(14, earlier, tributary, digit, &[note]);
    for (tributary, digit, place) in
        [(1, 0, 12), (4, 132, 543), (1, 133, 548), (1, 267, 1084), (1, 268, 1092), (4, 402, 1631)]
    {
        for (earlier, note) in [(0, 0), (9, 9), (0, 9), (9, 0)] {
            assert_eq!(at(earlier, tributary, digit, note), [place]);
        }
    }
    assert_eq!([403, 404, 405].map(|digit| at(0, 1, digit, 0)), [[1636], [1640], [1644]]);
    assert_eq!([at(0, 4, 403, 0), at(0, 4, 404, 0), at(0, 4, 537, 0)], [[1639], [1643], [2175]]);
    for (earlier, note) in [(0, 1), (1, 0)] {
        assert_eq!([403, 404].map(|digit| at(earlier, 1, digit, note)), [[1640], [1644]]);
    }
    assert_eq!([at(0, 4, 536, 8), at(8, 4, 535, 8)], [[2175], [2175]]);
    assert_eq!(at(1, 1, 403, 1), [1644]);
}

/// Tributary 4 of level 14 with 1 before, then 1 0 0: frame 0 has digits 0 to 535, frame 1 digits
/// 536 to 1072, frame 2 digits 1073 to 1610. Its first place in a frame is 15, its negative place
/// 1639 and its positive one 1643, which in frame 2 have its digits 1073 + 403 and the next.
#[test]
fn digits_run_on_over_the_three_actions() {
    let at = |digit| place_after(14, 8, 4, digit, &[8, 0, 0]);
    assert_eq!([at(535), at(536)], [[2175], [2176 + 15]]);
    assert_eq!([at(1072), at(1073)], [[2176 + 2175], [4352 + 15]]);
    assert_eq!([at(1476), at(1477)], [[4352 + 1639], [4352 + 1643]]);
    assert_eq!([at(1610), at(1611)], [vec![4352 + 2175], vec![]]);
}

/// Tables 3 and 5 of documents 000 and 001, in their own words: the group from I on, and the
/// position in it from 1 on.
#[test]
fn the_layouts_of_levels_12_and_14() {
    let table_3 = |group, position: usize| match (group, position) {
        (1, 1..=8) => Place::Word(position - 1),
        (2..=4, 1..=4) => Place::Control(position - 1),
        (2 | 3, 5..=8) => Place::Service,
        (4, 5..=8) => Place::Negative(position - 5),
        (4, 9..=12) => Place::Justification(position - 9),
        (4, _) => Place::Tributary((position - 13) % 4),
        _ => Place::Tributary((position - 9) % 4),
    };
    let table_5 = |group, position: usize| match (group, position) {
        (1, 1..=10) => Place::Word(position - 1),
        (1, 11..=12) => Place::Service,
        (2..=4, 1..=4) => Place::Control(position - 1),
        (4, 5..=8) => Place::Negative(position - 5),
        (4, 9..=12) => Place::Justification(position - 9),
        (1 | 4, _) => Place::Tributary((position - 13) % 4),
        _ => Place::Tributary((position - 5) % 4),
    };
    let all = |digits: usize| (1..=4).flat_map(move |group| (1..=digits).map(move |p| (group, p)));
    let expected: Vec<Place> = all(264).map(|(group, p)| table_3(group, p)).collect();
    assert_eq!(frame::layout(row(12).unwrap()), expected);
    let expected: Vec<Place> = all(544).map(|(group, p)| table_5(group, p)).collect();
    assert_eq!(frame::layout(row(14).unwrap()), expected);
    assert_eq!((row(12).unwrap().word, row(14).unwrap().word), ("11100110", "1111010000"));
}

/// The earlier vote is judged within 5, before the notes, and only at levels 12 and 14.
#[test]
fn earlier_votes_that_are_refused() {
    let refused = |level, earlier, line: usize, notes: &[u8], buffer: usize| {
        let mut bytes = vec![0xA5; line];
        let sent = multiplex(level, earlier, &mut bytes, notes, &vec![0; buffer]);
        assert!(sent.refusal == 0 || bytes == vec![0xA5; line], "a refused call wrote");
        let mut back = vec![0xA5; buffer];
        let taken = extract(level, earlier, &vec![0; line], notes, &mut back);
        assert!(taken.refusal == 0 || back == vec![0xA5; buffer], "a refused call wrote");
        assert_eq!((sent.refusal, sent.frame), (taken.refusal, taken.frame));
        (sent.refusal, sent.frame)
    };
    for (level, line, quarter) in [(12, 132, 33), (14, 272, 68)] {
        let (two, four) = (2 * line, 8 * quarter);
        for earlier in [16, 255, 256, (1 << 32) + 5, u64::MAX] {
            assert_eq!(refused(level, earlier, line, &[0], 4 * quarter), (5, 0));
            assert_eq!(refused(level, earlier, two, &[0, 0x10], four), (5, 0));
            assert_eq!(refused(level, earlier, 0, &[], 0), (5, 0));
            // 1 to 4 come first.
            assert_eq!(refused(level + 1, earlier, line, &[0], 4 * quarter), (1, 0));
            assert_eq!(refused(level, earlier, line - 1, &[0], 4 * quarter), (2, 0));
            assert_eq!(refused(level, earlier, line, &[], 4 * quarter), (3, 0));
            assert_eq!(refused(level, earlier, line, &[0], 0), (4, 0));
        }
        for note in [0x10, 0x20, 0x40, 0x80, 0xF0, 0x1F] {
            assert_eq!(refused(level, 15, two, &[15, note], four), (5, 1));
            assert_eq!(refused(level, 15, two, &[note, note], four), (5, 0));
        }
        assert_eq!(refused(level, 15, two, &[15, 15], four), (0, 0));
        // A quarter without room for 257 or 538 digits, though 255 or 536 are sent.
        assert_eq!(refused(level, 15, line, &[15], 4 * quarter - 4), (4, 0));
    }
    assert_eq!(refused(2, 16, 106, &[0x20], 104), (0, 0));
    assert_eq!(refused(3, u64::MAX, 192, &[0x20], 192), (0, 0));
    assert_eq!(refused(4, 16, 366, &[0xE0], 364), (0, 0));
}

/// Levels 2 to 4 do the same whatever the earlier vote.
#[test]
fn earlier_votes_that_are_not_looked_at() {
    let sent: Vec<u8> = (0..4 * 182).map(|k| (k * 151 % 251) as u8).collect();
    for level in 2..=4 {
        let bytes = 2 * row(level).unwrap().frame_bytes();
        let (mut one, mut other) = (vec![0; bytes], vec![0xFF; bytes]);
        let notes = [0x05, 0x0A].map(|note| note | national(level));
        let answer = multiplex(level, 0, &mut one, &notes, &sent);
        assert_eq!(answer.refusal, 0);
        let (mut ours, mut theirs) = (vec![0; 4 * 182], vec![0xFF; 4 * 182]);
        for earlier in [5, 15, 16, u64::MAX] {
            assert_eq!(multiplex(level, earlier, &mut other, &notes, &sent), answer);
            assert_eq!(one, other);
            assert_eq!(extract(level, 0, &one, &[0x0A, 0x05], &mut ours), answer);
            assert_eq!(extract(level, earlier, &one, &[0x0A, 0x05], &mut theirs), answer);
            assert_eq!(ours, theirs);
        }
    }
}

/// Service places are sent as 1 and never reported; bits 4 to 7 of a note that is read are zero.
#[test]
fn notes_of_levels_12_and_14() {
    for (level, line, quarter) in [(12, 132, 33), (14, 272, 68)] {
        for (fill, note) in [(0xFF, 0x0F), (0x00, 0x00)] {
            let mut notes = [0xA5];
            let answer = read_notes(level, &vec![fill; line], &mut notes);
            let word = digits(row(level).unwrap().word);
            let wrong = word.iter().filter(|&&digit| digit != fill & 1).count();
            assert_eq!((answer.refusal, answer.dissent, notes), (0, [0; 4], [note]));
            assert_eq!(answer.alignment, wrong as u64);
        }
        for (group, vote, dissent) in [("110", 1, 1), ("010", 0, 1), ("111", 1, 0)] {
            let (_, sent) = from_zero(level, line, &[0], 4 * quarter);
            let mut list = unpack(&sent, 8 * line);
            for (k, digit) in digits(group).into_iter().enumerate() {
                list[(k + 1) * 2 * line] = digit;
            }
            let mut notes = [0xA5];
            let answer = read_notes(level, &pack(&list), &mut notes);
            assert_eq!((notes, answer.dissent), ([vote], [dissent, 0, 0, 0]));
        }
    }
}

/// Votes of every sort, sent, worn as demand 3 allows, and read back with the same earlier vote.
#[test]
fn there_and_back_at_levels_12_and_14() {
    let mut random = Random::new(12);
    for round in 0..40 {
        let row = row([12, 14][round % 2]).unwrap();
        let (frames, earlier) = (1 + random.index(12), random.below(16));
        let notes: Vec<u8> = random.bytes(frames).iter().map(|note| note & 0x0F).collect();
        let quarter = (frames * (row.tributary_digits + 1) + 7) / 8 + random.index(3);
        let sent = random.bytes(4 * quarter);
        let mut line = vec![0; frames * row.frame_bytes()];
        let there = multiplex(row.level, earlier, &mut line, &notes, &sent);
        let worn = worn(&mut random, row, earlier as u8, &notes, &line);
        let (mut read, mut received) = (vec![0xFF; frames], vec![0xFF; 4 * quarter]);
        assert_eq!(read_notes(row.level, &worn, &mut read).refusal, 0);
        assert_eq!(read, notes);
        assert_eq!(extract(row.level, earlier, &worn, &read, &mut received), there);
        for (j, &count) in there.counts.iter().enumerate() {
            let part = j * quarter..(j + 1) * quarter;
            let mut carried = unpack(&sent[part.clone()], count as usize);
            carried.resize(8 * quarter, 0);
            assert_eq!(unpack(&received[part], 8 * quarter), carried);
        }
    }
}

/// The line with alignment, service and stuffing digits changed at will, and of each control group at
/// most one. What is a stuffing digit is said here once more: by the two votes.
fn worn(random: &mut Random, row: &Row, earlier: u8, notes: &[u8], line: &[u8]) -> Vec<u8> {
    let mut list = unpack(line, 8 * line.len());
    let places = frame::layout(row);
    let mut before = earlier;
    for (&note, digits) in notes.iter().zip(list.chunks_mut(row.frame_digits)) {
        let set = [0, 1, 2, 3].map(|_| random.index(8));
        for (at, &place) in places.iter().enumerate() {
            let both = |j: usize| (before >> j & 1) + (note >> j & 1);
            let worn = match place {
                Place::Word(_) | Place::Service => random.once_in(3),
                Place::Control(j) => at / row.set_digits == set[j],
                Place::Negative(j) => both(j) > 0 && random.once_in(2),
                Place::Justification(j) => both(j) == 2 && random.once_in(2),
                _ => false,
            };
            digits[at] ^= u8::from(worn);
        }
        before = note;
    }
    pack(&list)
}

/// A tributary depends on its own bit of the earlier vote.
#[test]
fn a_tributary_depends_on_its_own_bit_of_the_earlier_vote() {
    let line: Vec<u8> = (0..3 * 132).map(|k| (k * 151 % 251) as u8).collect();
    let taken = |earlier| {
        let mut buffer = vec![0xFF; 4 * 97];
        let answer = extract(12, earlier, &line, &[0x03, 0x05, 0x06], &mut buffer);
        assert_eq!(answer.refusal, 0);
        [0, 1, 2, 3].map(|j| (answer.counts[j], buffer[97 * j..97 * (j + 1)].to_vec()))
    };
    for earlier in 0..16 {
        for other in 0..16 {
            let (one, two) = (taken(earlier), taken(other));
            for j in 0..4 {
                assert_eq!(one[j] == two[j], earlier >> j & 1 == other >> j & 1);
            }
        }
    }
}

/// Alignment is found with the third word and lost with the fourth missed one, as at the other
/// levels; the frame's 132 or 272 bytes are in the store, and zeros after them.
#[test]
fn frames_of_levels_12_and_14_are_found() {
    for (level, bytes, frame_digits) in [(12, 132, 1056), (14, 272, 2176)] {
        let (_, line) = from_zero_after(level, 5, 2 * bytes, &[0x06, 0x0C], 1000);
        let stream = unpack(&line[..bytes].repeat(4), 4 * frame_digits);
        let (ready, state) = feed_all(&start(level), &stream);
        let frame_digits = frame_digits as u64;
        assert_eq!(ready, [3 * frame_digits, 4 * frame_digits]);
        assert_eq!(state.frame[..bytes], line[..bytes]);
        assert!(state.frame[bytes..].iter().all(|&byte| byte == 0));
        // Four missed words lose it, three do not.
        let mut wrong = stream[..frame_digits as usize].to_vec();
        wrong[0] ^= 1;
        let (_, state) = feed_all(&state, &wrong.repeat(3));
        assert_eq!(state.mode, 3 + 3);
        let (_, state) = feed_all(&state, &wrong);
        assert_eq!((state.mode, state.place), (0, 0));
    }
}

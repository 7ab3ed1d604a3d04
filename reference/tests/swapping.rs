//! One tributary swapped in place: by hand, each refusal at its border, and what request 12 promises.

use reference::digits::{pack, unpack};
use reference::frame::{layout, Place};
use reference::level::{row, Row, LEVELS};
use reference::random::Random;
use reference::{extract, multiplex, swap, Swapped};

fn accepted(taken: u64) -> Swapped {
    Swapped { refusal: 0, taken }
}

/// A line of the given bytes, all others zero.
fn bytes(length: usize, set: &[(usize, u8)]) -> Vec<u8> {
    let mut line = vec![0; length];
    for &(at, byte) in set {
        line[at] = byte;
    }
    line
}

/// Level 2, a line of zeros, tributary 1 stuffed: its control digits are at 212, 424 and 636 (bytes 26
/// and 79 from the fifth digit on, byte 53), its justification digit at 640 (byte 80): five ones, and
/// of the word none. Digits: 205.
#[test]
fn stuffed_at_level_2() {
    let mut line = vec![0; 106];
    assert_eq!(swap(2, 16, 1, &mut line, &[0x01], &[0; 26]), accepted(205));
    assert_eq!(line, bytes(106, &[(26, 0x08), (53, 0x80), (79, 0x08), (80, 0x80)]));
}

/// Level 2, a line of ones, tributary 1 carried and zero: of every four digits from place 12 on the
/// first is 0, its control digits too, and nothing of the first twelve.
#[test]
fn carried_at_level_2() {
    let mut line = vec![0xFF; 106];
    assert_eq!(swap(2, 16, 1, &mut line, &[0xFE], &[0; 26]), accepted(206));
    let mut expected = vec![0x77; 106];
    (expected[0], expected[1]) = (0xFF, 0xF7);
    assert_eq!(line, expected);
}

/// Level 12, a line of zeros, tributary 3. A group begins at bytes 0, 33, 66 and 99; the third digit of
/// each of the last three is its control digit, the third of the second four of byte 99 its negative
/// place, the third of byte 100 its positive one.
///
/// - Vote 1 after 1, stuffed: all five are 1. 255 digits.
/// - Vote 1 after 0, plain: the negative place is unused, so 1; the positive carries 0. 256.
/// - Vote 0 after 1, plain: only the unused negative place is 1. 256.
/// - Vote 0 after 0, negative: nothing is 1. 257.
#[test]
fn the_three_actions_at_level_12() {
    for (earlier, note, votes, four, next, taken) in [
        (0x04, 0x04, 0x20, 0x22, 0x20, 255),
        (0x0B, 0xF4, 0x20, 0x22, 0x00, 256),
        (0x0F, 0xFB, 0x00, 0x02, 0x00, 256),
        (0x0B, 0x0B, 0x00, 0x00, 0x00, 257),
    ] {
        let mut line = vec![0; 132];
        assert_eq!(swap(12, earlier, 3, &mut line, &[note], &[0; 33]), accepted(taken));
        assert_eq!(line, bytes(132, &[(33, votes), (66, votes), (99, four), (100, next)]));
    }
}

/// Level 14, tributary 4 with 1 before, then 1 0 0, all its digits 1 on a line of zeros: 536, 537 and 538
/// digits, and every one of its places is 1 but the control digits of frames 1 and 2.
#[test]
fn three_frames_of_level_14() {
    let mut line = vec![0; 3 * 272];
    assert_eq!(swap(14, 8, 4, &mut line, &[8, 0, 0], &[0xFF; 202]), accepted(1611));
    // From place 12 on of a frame every fourth digit is the tributary's.
    let frame = |votes: u8| {
        let mut frame = vec![0x11; 272];
        (frame[0], frame[1]) = (0x00, 0x01);
        [68, 136, 204].iter().for_each(|&at| frame[at] = 0x01 | votes << 4);
        frame
    };
    assert_eq!(line, [frame(1), frame(0), frame(0)].concat());
}

fn refusal(level: u64, earlier: u64, tributary: u64, lengths: [usize; 3]) -> u64 {
    let [line, notes, buffer] = lengths;
    let mut bytes = vec![0xA5; line];
    let answer = swap(level, earlier, tributary, &mut bytes, &vec![0; notes], &vec![0; buffer]);
    if answer.refusal != 0 {
        assert_eq!((answer.taken, bytes), (0, vec![0xA5; line]), "a refused call wrote");
    }
    answer.refusal
}

/// The order 1, 12, 2, 3, 4, 5: the first wrong thing, and all later ones wrong as well.
#[test]
fn the_order_of_faults() {
    assert_eq!(refusal(13, 16, 0, [131, 2, 32]), 1);
    assert_eq!(refusal(12, 16, 0, [131, 2, 32]), 12);
    assert_eq!(refusal(12, 16, 5, [0, 0, 0]), 12);
    assert_eq!(refusal(12, 16, u64::MAX, [0, 0, 0]), 12);
    assert_eq!(refusal(12, 16, 256 + 1, [0, 0, 0]), 12);
    assert_eq!(refusal(12, 16, 1, [131, 2, 32]), 2);
    assert_eq!(refusal(12, 16, 1, [65 * 132, 65, 3000]), 2);
    assert_eq!(refusal(12, 16, 1, [132, 2, 32]), 3);
    assert_eq!(refusal(12, 16, 1, [132, 1, 32]), 4);
    assert_eq!(refusal(12, 16, 1, [132, 1, 33]), 5);
    assert_eq!(refusal(12, 15, 1, [132, 1, 33]), 0);
    assert_eq!(refusal(12, 16, 1, [0, 0, 0]), 5);
    assert_eq!(refusal(2, 0, 0, [105, 1, 26]), 12);
}

/// Room for F·n digits, or F·257 and F·538, and no multiple of 4.
#[test]
fn room() {
    for (level, line, least) in
        [(2, 106, 26), (3, 192, 48), (4, 366, 91), (12, 132, 33), (14, 272, 68)]
    {
        assert_eq!(refusal(level, 0, 4, [line, 1, least - 1]), 4);
        assert_eq!(refusal(level, 0, 4, [line, 1, least]), 0);
        assert_eq!(refusal(level, 0, 4, [line, 1, least + 1]), 0);
    }
    // 8 times 257 digits are 257 bytes, and 8 times 206 digits 206 bytes.
    assert_eq!([256, 257].map(|bytes| refusal(12, 0, 2, [1056, 8, bytes])), [4, 0]);
    assert_eq!([205, 206].map(|bytes| refusal(2, 0, 2, [848, 8, bytes])), [4, 0]);
    assert_eq!(refusal(2, 0, 1, [0, 0, 0]), 0);
}

/// Other bits of notes and of the earlier vote are not looked at; at levels 2 to 4 no earlier vote is.
#[test]
fn what_is_not_looked_at() {
    let mut random = Random::new(3);
    for row in LEVELS.into_iter().filter_map(row) {
        let (line, digits) = (random.bytes(3 * row.frame_bytes()), random.bytes(300));
        for tributary in 1..=4 {
            let own = 1 << (tributary - 1);
            let notes = random.bytes(3);
            let (mut one, mut other) = (line.clone(), line.clone());
            let others: Vec<u8> = notes.iter().map(|note| note ^ !own).collect();
            let (earlier, another) = (u64::from(notes[0] & 15), u64::from(others[0] & 15));
            let answer = swap(row.level, earlier, tributary, &mut one, &notes, &digits);
            let again = swap(row.level, another, tributary, &mut other, &others, &digits);
            assert_eq!((answer.refusal, &answer), (0, &again));
            assert_eq!(one, other);
        }
    }
    assert_eq!(swap(2, u64::MAX, 1, &mut [0; 106], &[0xC0], &[0; 26]), accepted(206));
    assert_eq!(swap(12, 15, 1, &mut [0; 132], &[0xF0], &[0; 33]), accepted(256));
}

/// Four tributaries of a line, and the votes with which they are sent.
struct Send {
    earlier: u64,
    notes: Vec<u8>,
    buffer: Vec<u8>,
}

fn any_send(random: &mut Random, row: &Row, frames: usize) -> Send {
    let quarter = (frames * row.most_digits() + 7) / 8;
    let note = |note: &u8| note & 15 | row.national_bits();
    let notes = random.bytes(frames).iter().map(note).collect();
    Send { earlier: random.below(16), notes, buffer: random.bytes(4 * quarter) }
}

fn sent(row: &Row, send: &Send) -> Vec<u8> {
    let mut line = vec![0; send.notes.len() * row.frame_bytes()];
    let answer = multiplex(row.level, send.earlier, &mut line, &send.notes, &send.buffer);
    assert_eq!(answer.refusal, 0);
    line
}

/// The first send with one tributary of the second.
fn mixed(one: &Send, other: &Send, tributary: usize) -> Send {
    let own = 1 << (tributary - 1);
    let vote = |ours: u8, theirs: u8| ours & !own | theirs & own;
    let notes = one.notes.iter().zip(&other.notes).map(|(&a, &b)| vote(a, b)).collect();
    let earlier = u64::from(vote(one.earlier as u8, other.earlier as u8));
    let quarter = one.buffer.len() / 4;
    let part = (tributary - 1) * quarter..tributary * quarter;
    let mut buffer = one.buffer.clone();
    buffer[part.clone()].copy_from_slice(&other.buffer[part]);
    Send { earlier, notes, buffer }
}

fn swapped(row: &Row, line: &[u8], by: &Send, tributary: usize) -> Vec<u8> {
    let (mut line, quarter) = (line.to_vec(), by.buffer.len() / 4);
    let digits = &by.buffer[(tributary - 1) * quarter..tributary * quarter];
    let answer = swap(row.level, by.earlier, tributary as u64, &mut line, &by.notes, digits);
    assert_eq!(answer.refusal, 0);
    line
}

/// A multiplexed line becomes what multiplexing the new four would have made, with the earlier vote
/// mixed as the notes are; and extraction then hands out the new digits, as many as were taken.
#[test]
fn the_line_is_that_of_the_new_four() {
    let mut random = Random::new(12);
    for round in 0..60 {
        let row = row(LEVELS[round % 5]).unwrap();
        let frames = random.index(9);
        let (one, other) = (any_send(&mut random, row, frames), any_send(&mut random, row, frames));
        for tributary in 1..=4 {
            let new = mixed(&one, &other, tributary);
            let line = swapped(row, &sent(row, &one), &other, tributary);
            assert_eq!(line, sent(row, &new));
            let (mut line, mut back) = (sent(row, &one), vec![0xFF; one.buffer.len()]);
            let quarter = back.len() / 4;
            let digits = &other.buffer[(tributary - 1) * quarter..tributary * quarter];
            let number = tributary as u64;
            let taken =
                swap(row.level, other.earlier, number, &mut line, &other.notes, digits).taken;
            let counts = extract(row.level, new.earlier, &line, &new.notes, &mut back).counts;
            assert_eq!(counts[tributary - 1], taken);
            let part = &back[(tributary - 1) * quarter..tributary * quarter];
            assert_eq!(unpack(part, taken as usize), unpack(digits, taken as usize));
        }
    }
}

/// On any line: two different tributaries in either order, and of one twice the last call stands.
#[test]
fn two_calls() {
    let mut random = Random::new(13);
    for round in 0..20 {
        let row = row(LEVELS[round % 5]).unwrap();
        let frames = 1 + random.index(4);
        let line = random.bytes(frames * row.frame_bytes());
        let (one, other) = (any_send(&mut random, row, frames), any_send(&mut random, row, frames));
        for j in 1..=4 {
            for k in 1..=4 {
                let there = swapped(row, &swapped(row, &line, &one, j), &other, k);
                if j == k {
                    assert_eq!(there, swapped(row, &line, &other, k));
                } else {
                    assert_eq!(there, swapped(row, &swapped(row, &line, &other, k), &one, j));
                }
            }
        }
    }
}

/// On any line: no digit but the tributary's own changes, and all of its own are written.
#[test]
fn no_other_digit_is_touched() {
    let mut random = Random::new(14);
    for row in LEVELS.into_iter().filter_map(row) {
        let by = any_send(&mut random, row, 2);
        let line = random.bytes(2 * row.frame_bytes());
        let opposite: Vec<u8> = line.iter().map(|byte| !byte).collect();
        for tributary in 1..=4 {
            let one = unpack(&swapped(row, &line, &by, tributary), 2 * row.frame_digits);
            let other = unpack(&swapped(row, &opposite, &by, tributary), 2 * row.frame_digits);
            let before = unpack(&line, 2 * row.frame_digits);
            for (at, place) in layout(row).repeat(2).into_iter().enumerate() {
                let own = match place {
                    Place::Control(j) | Place::Negative(j) => j + 1 == tributary,
                    Place::Justification(j) | Place::Tributary(j) => j + 1 == tributary,
                    _ => false,
                };
                assert_eq!(one[at] == other[at], own);
                assert!(own || one[at] == before[at]);
            }
            assert_eq!(pack(&before), line);
        }
    }
}

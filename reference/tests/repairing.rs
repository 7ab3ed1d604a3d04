//! Worn lines repaired: by hand, each refusal at its border, and what request 13 promises.

use reference::digits::{pack, unpack};
use reference::frame::{layout, Place};
use reference::level::{row, Row, LEVELS};
use reference::random::Random;
use reference::{compare, extract, multiplex, read_notes, repair, write_capture, Repaired};

fn changed(word: u64, control: [u64; 4], stuffing: [u64; 4]) -> Repaired {
    Repaired { refusal: 0, word, control, stuffing, national: 0 }
}

/// A line of the given bytes, all others zero.
fn bytes(length: usize, set: &[(usize, u8)]) -> Vec<u8> {
    let mut line = vec![0; length];
    for &(at, byte) in set {
        line[at] = byte;
    }
    line
}

/// With the switch for national digits off.
fn repaired(level: u64, earlier: u64, line: &[u8]) -> (Repaired, Vec<u8>) {
    switched(level, earlier, 0, line)
}

fn switched(level: u64, earlier: u64, national: u64, line: &[u8]) -> (Repaired, Vec<u8>) {
    let mut line = line.to_vec();
    let answer = repair(level, earlier, national, &mut line);
    (answer, line)
}

/// Case 1's line with the first two control digits of tributary 1 set, at places 212 and 424: the vote is
/// 1, so the third, at 636, is set, and the justification digit at 640, which was 0, is stuffing now.
#[test]
fn a_split_group_at_level_2() {
    let worn = bytes(106, &[(0, 0xF4), (1, 0x10), (26, 0x08), (53, 0x80)]);
    let set = [(0, 0xF4), (1, 0x10), (26, 0x08), (53, 0x80), (79, 0x08), (80, 0x80)];
    let right = bytes(106, &set);
    assert_eq!(repaired(2, 16, &worn), (changed(0, [1, 0, 0, 0], [1, 0, 0, 0]), right));
    // Only one of them set: the vote is 0, and nothing is stuffed.
    let worn = bytes(106, &[(0, 0xF4), (1, 0x10), (26, 0x08)]);
    let right = bytes(106, &[(0, 0xF4), (1, 0x10)]);
    assert_eq!(repaired(2, 16, &worn), (changed(0, [1, 0, 0, 0], [0; 4]), right));
}

/// Of 1111010000 five digits are 1, of 111110100000 six, of 11100110 five. A line of zeros has votes 0
/// and no stuffing digit; a line of ones has votes 1 and its stuffing digits are 1 already.
#[test]
fn lines_of_one_digit() {
    for (level, bytes_of, length, ones) in
        [(2, 106, 10, 5), (3, 192, 10, 5), (4, 366, 12, 6), (12, 132, 8, 5), (14, 272, 10, 5)]
    {
        let word = row(level).unwrap().word_digits();
        let (answer, line) = repaired(level, 0, &vec![0; bytes_of]);
        assert_eq!(answer, changed(ones, [0; 4], [0; 4]));
        let right = [word.clone(), vec![0; 8 * bytes_of - length]].concat();
        assert_eq!(unpack(&line, 8 * bytes_of), right);
        let (answer, line) = repaired(level, 15, &vec![0xFF; bytes_of]);
        assert_eq!(answer, changed(length as u64 - ones, [0; 4], [0; 4]));
        let right = [word, vec![1; 8 * bytes_of - length]].concat();
        assert_eq!(unpack(&line, 8 * bytes_of), right);
    }
}

/// Zeros after the votes 1111: every tributary alternates, so that its negative place is unused and becomes
/// 1. These are the last four digits of the first byte of group IV, byte 99 or 204; service digits stay 0.
#[test]
fn unused_negative_places() {
    let (answer, line) = repaired(12, 15, &[0; 132]);
    assert_eq!(answer, changed(5, [0; 4], [1; 4]));
    assert_eq!(line, bytes(132, &[(0, 0xE6), (99, 0x0F)]));
    let (answer, line) = repaired(14, 9, &[0; 272]);
    assert_eq!(answer, changed(5, [0; 4], [1, 0, 0, 1]));
    assert_eq!(line, bytes(272, &[(0, 0xF4), (204, 0x09)]));
}

/// Two frames of level 12 whose digits are all 0 but for the words and two of tributary 2's three control
/// digits in frame 0, at places 265 and 529. Its vote there is 1, after 0: plain, so that the third control
/// digit, at 793, and the unused negative place, at 797, become 1. In frame 1 its vote is 0 after 1, by
/// the line as it came: plain again, and the negative place becomes 1.
#[test]
fn a_split_group_at_level_12() {
    let worn = bytes(264, &[(0, 0xE6), (33, 0x40), (66, 0x40), (132, 0xE6)]);
    let more = [(33, 0x40), (66, 0x40), (99, 0x44), (132 + 99, 0x04)];
    let right = bytes(264, &[&[(0, 0xE6), (132, 0xE6)], &more[..]].concat());
    assert_eq!(repaired(12, 0, &worn), (changed(0, [0, 1, 0, 0], [0, 2, 0, 0]), right));
    // After 1 the vote of frame 0 is the second 1: stuffed, and the positive place at 801 is 1 too.
    let more = [(33, 0x40), (66, 0x40), (99, 0x44), (100, 0x40), (132 + 99, 0x04)];
    let right = bytes(264, &[&[(0, 0xE6), (132, 0xE6)], &more[..]].concat());
    assert_eq!(repaired(12, 2, &worn), (changed(0, [0, 1, 0, 0], [0, 3, 0, 0]), right));
}

/// Level 4 with groups of five: 11000 is 0 with two digits changed, 00111 is 1 with two changed and the
/// justification digit stuffing. Sets of 488 digits begin at bytes 61, 122, 183, 244 and 305.
#[test]
fn split_groups_of_five() {
    let groups = [(61, 0x80), (122, 0x80), (183, 0x40), (244, 0x40), (305, 0x40)];
    let worn = bytes(366, &[&[(0, 0xFA)], &groups[..]].concat());
    let groups = [(61, 0x40), (122, 0x40), (183, 0x40), (244, 0x40), (305, 0x44)];
    let right = bytes(366, &[&[(0, 0xFA)], &groups[..]].concat());
    assert_eq!(repaired(4, 16, &worn), (changed(0, [2, 2, 0, 0], [0, 1, 0, 0]), right));
}

/// The order 1, 2, 5, and nothing written.
#[test]
fn refusals() {
    let refusal = |level, earlier, line: usize| {
        let [off, on] = [0, 1].map(|national| {
            let (answer, after) = switched(level, earlier, national, &vec![0xA5; line]);
            if answer.refusal != 0 {
                assert_eq!(answer, Repaired { refusal: answer.refusal, ..Repaired::default() });
                assert_eq!(after, vec![0xA5; line], "a refused call wrote");
            }
            answer.refusal
        });
        assert_eq!(off, on, "the switch is never a reason to refuse");
        off
    };
    for level in [0, 1, 5, 11, 13, 15, 258, 256 + 12, u64::MAX] {
        assert_eq!(refusal(level, 16, 105), 1);
    }
    for (level, frame) in [(2, 106), (3, 192), (4, 366), (12, 132), (14, 272)] {
        for line in [frame - 1, frame + 1, 65 * frame] {
            assert_eq!(refusal(level, 16, line), 2);
        }
        let looked_at = level > 10;
        for line in [0, frame, 64 * frame] {
            for earlier in [16, 256, u64::MAX] {
                assert_eq!(refusal(level, earlier, line), if looked_at { 5 } else { 0 });
            }
            assert_eq!(refusal(level, 15, line), 0);
        }
    }
}

/// All that is read from a line with this earlier vote.
fn readings(row: &Row, earlier: u64, line: &[u8]) -> (Vec<u8>, [u64; 4], Vec<u8>) {
    let frames = line.len() / row.frame_bytes();
    let (mut notes, mut buffer) = (vec![0; frames], vec![0; 4 * 70 * (frames + 1) * 2]);
    assert_eq!(read_notes(row.level, line, &mut notes).refusal, 0);
    let answer = extract(row.level, earlier, line, &notes, &mut buffer);
    assert_eq!(answer.refusal, 0);
    (notes, answer.counts, buffer)
}

/// The sums of the comparison of two captures, which counts by the layout.
fn compared(level: u64, one: &[u8], other: &[u8]) -> [u64; 15] {
    let capture = |line: &[u8]| {
        let mut file = vec![0; 7 + line.len()];
        assert_eq!(write_capture(level, line, None, &mut file).refusal, 0);
        file
    };
    compare(&capture(one), &capture(other)).sums
}

/// On any line: what is read stays, the numbers are those of the digits that differ, no other digit does,
/// and a second run changes nothing.
#[test]
fn any_line() {
    let mut random = Random::new(13);
    for round in 0..60 {
        let row = row(LEVELS[round % 5]).unwrap();
        let frames = random.index(6);
        let line = random.bytes(frames * row.frame_bytes());
        let earlier = random.below(16);
        let (answer, after) = repaired(row.level, earlier, &line);
        assert_eq!(readings(row, earlier, &after), readings(row, earlier, &line));
        let mut sums = [0; 15];
        sums[0] = answer.word;
        for j in 0..4 {
            (sums[3 + 3 * j], sums[4 + 3 * j]) = (answer.control[j], answer.stuffing[j]);
        }
        assert_eq!(compared(row.level, &line, &after), sums);
        assert_eq!(repaired(row.level, earlier, &after), (changed(0, [0; 4], [0; 4]), after));
    }
}

/// Lines of zeros with the switch on: at levels 2 and 3 place 11 becomes 1, at level 4 places 13, 14 and
/// 15, and the remote alarm stays; at levels 12 and 14 no service digit changes. Any number is on.
#[test]
fn national_digits_with_the_switch() {
    for (level, head, national) in
        [(2, [0xF4, 0x10], 1), (3, [0xF4, 0x10], 1), (4, [0xFA, 0x07], 3)]
    {
        let frame = row(level).unwrap().frame_bytes();
        for on in [1, 2, 256, 1 << 32, u64::MAX] {
            let (answer, line) = switched(level, 16, on, &vec![0; 3 * frame]);
            let words = 3 * if level == 4 { 6 } else { 5 };
            assert_eq!(
                answer,
                Repaired { national: 3 * national, ..changed(words, [0; 4], [0; 4]) }
            );
            assert_eq!(line, bytes(frame, &[(0, head[0]), (1, head[1])]).repeat(3));
            assert_eq!(switched(level, 16, on, &line), (changed(0, [0; 4], [0; 4]), line));
        }
    }
    for level in [12, 14] {
        let line = vec![0; row(level).unwrap().frame_bytes()];
        assert_eq!(switched(level, 5, 1, &line), repaired(level, 5, &line));
    }
}

/// On any line: the switch adds to the repair the national digits that were 0, counts them, and the
/// notes read back differ in those bits alone; the tributaries do not.
#[test]
fn any_line_with_the_switch() {
    let mut random = Random::new(14);
    for round in 0..60 {
        let row = row(LEVELS[round % 5]).unwrap();
        let frames = random.index(6);
        let line = random.bytes(frames * row.frame_bytes());
        let earlier = random.below(16);
        let (without, off) = repaired(row.level, earlier, &line);
        let (answer, on) = switched(row.level, earlier, 1, &line);
        assert_eq!(Repaired { national: 0, ..answer.clone() }, without);
        let (notes, counts, digits) = readings(row, earlier, &line);
        let national: Vec<u8> = notes.iter().map(|note| note | row.national_bits()).collect();
        assert_eq!(readings(row, earlier, &on), (national, counts, digits));
        let mut sums = [0; 15];
        sums[2] = answer.national;
        assert_eq!(compared(row.level, &off, &on), sums);
        let zeros = notes.iter().map(|note| (!note & row.national_bits()).count_ones());
        assert_eq!(answer.national, u64::from(zeros.sum::<u32>()));
    }
}

/// A multiplexed line, and the same with damage of demand 3's sort, service digits excepted: alignment
/// and stuffing digits at will, and in each control group at most one digit of three or two of five.
fn sent_and_worn(random: &mut Random, row: &Row, earlier: u64) -> (Vec<u8>, Vec<u8>) {
    let frames = 1 + random.index(6);
    let known = ((1_u32 << row.note_bits()) - 1) as u8;
    let note = |note: &u8| note & known | row.national_bits();
    let notes: Vec<u8> = random.bytes(frames).iter().map(note).collect();
    let buffer = random.bytes(4 * ((frames * row.most_digits() + 7) / 8));
    let mut line = vec![0; frames * row.frame_bytes()];
    assert_eq!(multiplex(row.level, earlier, &mut line, &notes, &buffer).refusal, 0);
    let mut list = unpack(&line, 8 * line.len());
    let mut before = earlier as u8;
    for (&note, digits) in notes.iter().zip(list.chunks_mut(row.frame_digits)) {
        let mut wrong = [row.group_digits / 2; 4];
        for (at, place) in layout(row).into_iter().enumerate() {
            let (own, preceding) = (|j: usize| note >> j & 1, |j: usize| before >> j & 1);
            let worn = match place {
                Place::Word(_) => random.once_in(3),
                Place::Control(j) if wrong[j] > 0 && random.once_in(2) => {
                    wrong[j] -= 1;
                    true
                }
                Place::Negative(j) => own(j) + preceding(j) > 0 && random.once_in(2),
                Place::Justification(j) if row.level > 10 => {
                    own(j) + preceding(j) == 2 && random.once_in(2)
                }
                Place::Justification(j) => own(j) == 1 && random.once_in(2),
                _ => false,
            };
            digits[at] ^= u8::from(worn);
        }
        before = note;
    }
    (line, pack(&list))
}

#[test]
fn a_worn_line_comes_back_as_it_was_sent() {
    let mut random = Random::new(3);
    for round in 0..100 {
        let row = row(LEVELS[round % 5]).unwrap();
        let earlier = random.below(16);
        let (line, worn) = sent_and_worn(&mut random, row, earlier);
        let (answer, after) = repaired(row.level, earlier, &worn);
        assert_eq!(after, line);
        let all = answer.word + (0..4).map(|j| answer.control[j] + answer.stuffing[j]).sum::<u64>();
        assert_eq!(all, compared(row.level, &line, &worn).iter().sum::<u64>());
        assert!(all > 0, "nothing was worn");
        // National digits come back too with the switch, and it changes none that was sent.
        let mut more = unpack(&worn, 8 * worn.len());
        for (place, digit) in layout(row).into_iter().cycle().zip(&mut more) {
            *digit ^= u8::from(matches!(place, Place::National(_)) && random.once_in(2));
        }
        assert_eq!(switched(row.level, earlier, 1, &pack(&more)).1, line);
        assert_eq!(switched(row.level, earlier, 1, &worn), (answer, line));
    }
}

//! The specification's frames worked by hand, through the crate.

use spritbobbin::{extract, multiplex, plain, read_notes, vote_after};
use spritbobbin::{Level, Receiver, Refusal, Sent};

/// Multiplexes from a buffer of zeros that is just long enough.
fn from_zeros(level: Level, earlier: u8, notes: &[u8]) -> (Result<Sent, Refusal>, Vec<u8>) {
    let mut line = vec![0xA5; notes.len() * level.frame_bytes()];
    let buffer = vec![0; level.buffer_bytes(notes.len())];
    let sent = multiplex(level, earlier, &mut line, notes, &buffer);
    (sent, line)
}

/// So many bytes, all zero but those given.
fn bytes(length: usize, set: &[(usize, u8)]) -> Vec<u8> {
    let mut bytes = vec![0; length];
    for &(at, byte) in set {
        bytes[at] = byte;
    }
    bytes
}

/// What is multiplexed from zeros is the line, and comes back from it with nothing counted; by both
/// engines.
fn works(level: Level, earlier: u8, notes: &[u8], digits: [usize; 4], set: &[(usize, u8)]) {
    let (sent, line) = from_zeros(level, earlier, notes);
    assert_eq!(sent, Ok(Sent { digits }));
    assert_eq!(line, bytes(notes.len() * level.frame_bytes(), set));

    let (mut back, mut buffer) =
        (vec![0xA5; notes.len()], vec![0xA5; level.buffer_bytes(notes.len())]);
    let noted = read_notes(level, &line, &mut back).unwrap();
    assert_eq!((noted.alignment, noted.dissent), (0, [0; 4]));
    assert_eq!(back, notes);
    assert_eq!(extract(level, earlier, &line, notes, &mut buffer).unwrap().digits, digits);
    assert!(buffer.iter().all(|byte| *byte == 0));

    let mut slow = vec![0xA5; line.len()];
    assert_eq!(plain::multiplex(level, earlier, &mut slow, notes, &buffer).unwrap().digits, digits);
    assert_eq!(slow, line);
    buffer.fill(0xA5);
    assert_eq!(plain::extract(level, earlier, &line, notes, &mut buffer).unwrap().digits, digits);
    assert!(buffer.iter().all(|byte| *byte == 0));
}

#[test]
fn case_1() {
    works(Level::Two, 0, &[0x20], [206; 4], &[(0, 0xF4), (1, 0x10)]);
}

#[test]
fn case_2() {
    let set = [(0, 0xF4), (1, 0x30), (26, 0x0F), (53, 0xF0), (79, 0x0F), (80, 0xF0)];
    works(Level::Two, 0, &[0x3F], [205; 4], &set);
}

#[test]
fn case_3() {
    let set = [(0, 0xF4), (1, 0x10), (48, 0x80), (96, 0x80), (144, 0x88)];
    works(Level::Three, 0, &[0x21], [377, 378, 378, 378], &set);
}

#[test]
fn case_4() {
    let word = [(0, 0xFA), (1, 0x0F)];
    let groups = [(61, 0xF0), (122, 0xF0), (183, 0xF0), (244, 0xF0), (305, 0xFF)];
    works(Level::Four, 0, &[0xFF], [722; 4], &[&word[..], &groups[..]].concat());
}

/// Votes before and in frame 0: tributary 1 has 1 1, 2 has 1 0, 3 has 0 1, 4 has 0 0. Control digits
/// 1 0 1 0; of the negative places only that of 4 carries a digit, 0; of the positive ones only that
/// of 1 is stuffed.
#[test]
fn level_12_each_action() {
    // Groups begin at bytes 0, 33, 66 and 99; in the second and third four service places follow.
    let set = [(0, 0xE6), (33, 0xAF), (66, 0xAF), (99, 0xAE), (100, 0x80)];
    works(Level::Twelve, 0b0011, &[0b0101], [255, 256, 256, 257], &set);
}

#[test]
fn level_14_each_action() {
    // Groups begin at bytes 0, 68, 136 and 204; two service places follow the word.
    let set = [(0, 0xF4), (1, 0x30), (68, 0xA0), (136, 0xA0), (204, 0xAE), (205, 0x80)];
    works(Level::Fourteen, 0b0011, &[0b0101], [536, 537, 537, 538], &set);
}

/// The second frame acts on the first frame's vote. Frame 0, 6 after 5: 3 is stuffed, 4 has a digit
/// more. Frame 1, C after 6: 3 is stuffed again, 1 has a digit more.
#[test]
fn two_frames_and_the_vote_before_them() {
    let first = [(0, 0xE6), (33, 0x6F), (66, 0x6F), (99, 0x6E), (100, 0x20)];
    let second = [(132, 0xE6), (165, 0x3F), (198, 0x3F), (231, 0x37), (232, 0x20)];
    let set = [&first[..], &second[..]].concat();
    works(Level::Twelve, 5, &[0x06, 0x0C], [256 + 257, 512, 255 + 255, 257 + 256], &set);

    let first = [(0, 0xF4), (1, 0x30), (68, 0x60), (136, 0x60), (204, 0x6E), (205, 0x20)];
    let second = [(272, 0xF4), (273, 0x30), (340, 0x30), (408, 0x30), (476, 0x37), (477, 0x20)];
    let set = [&first[..], &second[..]].concat();
    works(Level::Fourteen, 5, &[0x06, 0x0C], [537 + 538, 1074, 536 + 536, 538 + 537], &set);
}

/// The place in the frame where a digit of tributary 1 is sent.
fn place_of(level: Level, earlier: u8, note: u8, digit: usize) -> usize {
    let (_, zeros) = from_zeros(level, earlier, &[note]);
    let (mut line, mut buffer) = (zeros.clone(), vec![0; level.buffer_bytes(1)]);
    buffer[digit / 8] = 0x80 >> (digit % 8);
    multiplex(level, earlier, &mut line, &[note], &buffer).unwrap();
    let mut changed = spritbobbin::digits(&line).zip(spritbobbin::digits(&zeros)).enumerate();
    changed.find(|(_, (one, other))| one != other).unwrap().0
}

#[test]
fn the_negative_place_has_the_earlier_digit() {
    for (level, digit, negative) in [(Level::Twelve, 192, 796), (Level::Fourteen, 403, 1636)] {
        let (positive, after) = (negative + 4, negative + 8);
        assert_eq!(place_of(level, 0, 0, digit - 1), negative - 8); // the group before
        assert_eq!(place_of(level, 0, 0, digit), negative);
        assert_eq!(place_of(level, 0, 0, digit + 1), positive);
        assert_eq!(place_of(level, 1, 0, digit), positive);
        assert_eq!(place_of(level, 0, 1, digit), positive);
        assert_eq!(place_of(level, 1, 1, digit), after);
    }
}

/// Whether tributary 1 reads as stuffed from these control digits, and how many dissent.
fn vote(level: Level, control: &[u8]) -> (bool, usize) {
    let (_, mut line) = from_zeros(level, 0, &[level.national_bits()]);
    let sets = control.len() + 1;
    for (set, digit) in control.iter().enumerate() {
        // The first digit of every set after the first, which begins within a byte at level 2.
        let place = (set + 1) * level.frame_digits() / sets;
        line[place / 8] |= digit << (7 - place % 8);
    }
    let mut notes = [0];
    let noted = read_notes(level, &line, &mut notes).unwrap();
    assert_eq!(noted.dissent[1..], [0; 3]);
    assert_eq!(notes[0] & !1, level.national_bits());
    (notes[0] & 1 == 1, noted.dissent[0])
}

#[test]
fn case_8() {
    assert_eq!(vote(Level::Two, &[1, 1, 0]), (true, 1));
    assert_eq!(vote(Level::Two, &[1, 0, 0]), (false, 1));
    assert_eq!(vote(Level::Four, &[1, 1, 1, 0, 0]), (true, 2));
    assert_eq!(vote(Level::Four, &[1, 1, 0, 0, 0]), (false, 2));
    assert_eq!(vote(Level::Three, &[1, 1, 1]), (true, 0));
    assert_eq!(vote(Level::Twelve, &[0, 1, 1]), (true, 1));
    assert_eq!(vote(Level::Fourteen, &[0, 0, 1]), (false, 1));
}

fn multiplexed(level: Level, line: usize, notes: &[u8], buffer: usize) -> u64 {
    let answer = multiplex(level, 0, &mut vec![0; line], notes, &vec![0; buffer]);
    answer.map_or_else(|refusal| refusal.number(), |_| 0)
}

#[test]
fn case_9() {
    assert_eq!(multiplexed(Level::Two, 64 * 106, &[0x20; 64], 4 * 1648), 0);
    assert_eq!(multiplexed(Level::Two, 65 * 106, &[0x20; 65], 4 * 1674), 2);
    assert_eq!(multiplexed(Level::Two, 105, &[0x20], 4 * 26), 2);
    assert_eq!(multiplexed(Level::Two, 106, &[0x20], 4 * 26), 0);
    assert_eq!(multiplexed(Level::Two, 106, &[0x20], 4 * 25), 4);
}

#[test]
fn case_10() {
    assert_eq!(multiplexed(Level::Two, 106, &[0x40], 4 * 25), 4);
    assert_eq!(multiplexed(Level::Two, 106, &[0x40], 4 * 26), 5);
}

#[test]
fn case_11() {
    let (_, frame) = from_zeros(Level::Two, 0, &[0x20]);
    assert_eq!(frame, bytes(106, &[(0, 0xF4), (1, 0x10)]));
    let stream = frame.repeat(4);
    let mut receiver = Receiver::new(Level::Two);

    let first = receiver.take(&stream, 0, 3392).unwrap();
    assert_eq!(first.digits, 2544);
    assert_eq!(first.frame.as_ref().unwrap().bytes(), frame);

    let second = receiver.take(&stream, 2544, 848).unwrap();
    assert_eq!(second.digits, 848);
    assert_eq!(second.frame, first.frame);
}

/// The digits of each tributary by the notes: one fewer in each frame whose decision, or whose own
/// vote and the one before it, is 1; one more where these two are 0.
fn digits_by(level: Level, earlier: u8, notes: &[u8]) -> [usize; 4] {
    let mut digits = [notes.len() * level.tributary_digits(); 4];
    let mut before = earlier;
    for note in notes {
        if !level.looks_at_earlier() {
            before = *note;
        }
        for (j, digits) in digits.iter_mut().enumerate() {
            match (before >> j & 1, note >> j & 1) {
                (1, 1) => *digits -= 1,
                (0, 0) if level.looks_at_earlier() => *digits += 1,
                _ => {}
            }
        }
        before = *note;
    }
    digits
}

/// The decisions of one frame must not act in the next, but for votes: they change from frame to
/// frame here, and the digits of each tributary are all different.
#[test]
fn alternating_decisions_come_back() {
    for level in Level::ALL {
        let note = |frame: usize| [0x05, 0x0A, 0x0F, 0x00][frame % 4] | level.national_bits();
        let notes: Vec<u8> = (0..64).map(note).collect();
        let earlier = 0x09;
        let length = level.buffer_bytes(64);
        let buffer: Vec<u8> = (0..length).map(|at| (at * at / 7 + at) as u8).collect();
        let mut line = vec![0; 64 * level.frame_bytes()];
        let sent = multiplex(level, earlier, &mut line, &notes, &buffer).unwrap();
        assert_eq!(sent.digits, digits_by(level, earlier, &notes));

        let (mut notes_back, mut back) = ([0; 64], vec![0xA5; length]);
        read_notes(level, &line, &mut notes_back).unwrap();
        assert_eq!(notes_back[..], notes);
        extract(level, earlier, &line, &notes_back, &mut back).unwrap();
        let quarters = buffer.chunks(length / 4).zip(back.chunks(length / 4));
        for ((sent, back), digits) in quarters.zip(sent.digits) {
            assert!(spritbobbin::digits(sent)
                .zip(spritbobbin::digits(back))
                .take(digits)
                .all(|(a, b)| a == b));
            assert!(spritbobbin::digits(back).skip(digits).all(|digit| digit == 0));
        }
    }
}

/// A run of frames cut into two lines anywhere: the vote is carried on, and the counts add up.
#[test]
fn a_run_in_two_lines() {
    for level in [Level::Twelve, Level::Fourteen] {
        let (earlier, notes) = (0x0A, [0x0B, 0x03, 0x00, 0x0F, 0x0F]);
        let (whole, line) = from_zeros(level, earlier, &notes);
        let whole = whole.unwrap().digits;
        for cut in 0..=notes.len() {
            let (head, tail) = notes.split_at(cut);
            let (one, first) = from_zeros(level, earlier, head);
            let (other, second) = from_zeros(level, vote_after(earlier, head), tail);
            assert_eq!([first, second].concat(), line, "{level}, cut at {cut}");
            let (one, other) = (one.unwrap().digits, other.unwrap().digits);
            assert_eq!([0, 1, 2, 3].map(|j| one[j] + other[j]), whole);
        }
    }
}

#[test]
fn levels_2_to_4_do_not_look_at_the_earlier_vote() {
    for level in [Level::Two, Level::Three, Level::Four] {
        let notes = [0x05, 0x0A].map(|note| note | level.national_bits());
        let line = from_zeros(level, 0, &notes);
        assert!(line.0.is_ok());
        for earlier in [15, 16, 255] {
            assert_eq!(from_zeros(level, earlier, &notes), line);
        }
    }
}

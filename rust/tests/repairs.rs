//! Worn lines repaired: exactly as they were sent, or as they are read; what is counted; refusals.

use spritbobbin::{
    extract, multiplex, read_notes, repair, repair_capture, write_capture, Level, Refusal, Repaired,
};

const FRAMES: usize = 6;
const EARLIER: u8 = 0x05;
const NOTES: [u8; FRAMES] = [0x03, 0x0B, 0x08, 0x00, 0x0C, 0x0F];

fn turn_over(line: &mut [u8], place: usize) {
    line[place / 8] ^= 0x80 >> (place % 8);
}

/// A line of notes and digits that are not alike, as it is sent.
fn sent(level: Level) -> Vec<u8> {
    let length = level.buffer_bytes(FRAMES);
    let buffer: Vec<u8> = (0..length).map(|at| (at * at / 5 + at) as u8).collect();
    let mut line = vec![0; FRAMES * level.frame_bytes()];
    let notes = NOTES.map(|note| note | level.national_bits());
    multiplex(level, EARLIER, &mut line, &notes, &buffer).unwrap();
    line
}

/// The sets of a frame.
fn sets(level: Level) -> usize {
    if level == Level::Four {
        6
    } else {
        4
    }
}

/// Where a frame's set begins in the line.
fn set(level: Level, frame: usize, set: usize) -> usize {
    frame * level.frame_digits() + set * (level.frame_digits() / sets(level))
}

/// The stuffing places of a tributary, 0 to 3, in a frame.
fn stuffing(level: Level, frame: usize, j: usize) -> Vec<usize> {
    let own = NOTES[frame] >> j & 1;
    let last = set(level, frame, sets(level) - 1) + j;
    if !level.looks_at_earlier() {
        return if own == 1 { vec![last + 4] } else { vec![] };
    }
    let before = if frame == 0 { EARLIER } else { NOTES[frame - 1] } >> j & 1;
    match (before, own) {
        (1, 1) => vec![last + 4, last + 8],
        (0, 0) => vec![],
        _ => vec![last + 4],
    }
}

/// Alignment digits, stuffing digits and fewer than half of every control group are turned over, more
/// in one frame than in another; all come back, and are counted.
#[test]
fn a_line_comes_back_as_it_was_sent() {
    for level in Level::ALL {
        let (line, mut worn, mut expected) = (sent(level), sent(level), Repaired::default());
        for frame in 0..FRAMES {
            for place in 0..level.word_digits() - frame {
                turn_over(&mut worn, set(level, frame, 0) + place);
                expected.word += 1;
            }
            for j in 0..4 {
                for group in 0..(sets(level) - 1) / 2 {
                    let wrong = 1 + (group * 2 + frame + j) % (sets(level) - 1);
                    turn_over(&mut worn, set(level, frame, wrong) + j);
                    expected.control[j] += 1;
                }
                for place in stuffing(level, frame, j) {
                    turn_over(&mut worn, place);
                    expected.stuffing[j] += 1;
                }
            }
        }
        assert_ne!(worn, line);
        let mut more = worn.clone();
        assert_eq!(repair(level, EARLIER, false, &mut worn), Ok(expected), "{level}");
        assert_eq!(worn, line, "{level}");

        // National digits too, where the level has any.
        for place in national(level) {
            turn_over(&mut more, set(level, 2, 0) + place);
            expected.national += 1;
        }
        assert_eq!(repair(level, EARLIER, true, &mut more), Ok(expected), "{level}");
        assert_eq!(more, line, "{level}");
    }
}

/// The places of the national digits in a frame.
fn national(level: Level) -> std::ops::Range<usize> {
    match level {
        Level::Two | Level::Three => 11..12,
        Level::Four => 13..16,
        _ => 0..0,
    }
}

/// The switch sets national digits to 1 and no other: the notes read back have these bits more, and all
/// that is counted more are the digits that were 0.
#[test]
fn national_digits_by_the_switch_alone() {
    for level in Level::ALL {
        for seed in 1..6 {
            let length = FRAMES * level.frame_bytes();
            let line: Vec<u8> = (0..length).map(|at| (at * at / seed + at * seed) as u8).collect();
            let (mut off, mut on) = (line.clone(), line.clone());
            let without = repair(level, EARLIER, false, &mut off).unwrap();
            let with = repair(level, EARLIER, true, &mut on).unwrap();
            assert_eq!(Repaired { national: 0, ..with }, without);
            assert_eq!(without.national, 0);

            let (notes, buffer, digits) = read(level, &line);
            let ones: Vec<u8> = notes.iter().map(|note| note | level.national_bits()).collect();
            let zeros = notes.iter().map(|note| (!note & level.national_bits()).count_ones());
            assert_eq!(with.national, zeros.sum::<u32>() as usize);
            assert_eq!(read(level, &on), (ones, buffer, digits));
            assert_eq!(repair(level, EARLIER, true, &mut on), Ok(Repaired::default()));
        }
    }
}

/// The notes that are read, and the tributaries by them.
fn read(level: Level, line: &[u8]) -> (Vec<u8>, Vec<u8>, [usize; 4]) {
    let frames = line.len() / level.frame_bytes();
    let (mut notes, mut buffer) = (vec![0; frames], vec![0; level.buffer_bytes(frames)]);
    read_notes(level, line, &mut notes).unwrap();
    let extracted = extract(level, EARLIER, line, &notes, &mut buffer).unwrap();
    (notes, buffer, extracted.digits)
}

/// Lines that no multiplexer made: all read as before, the count is of what changed, and a second
/// repair changes nothing.
#[test]
fn what_is_read_stays() {
    for level in Level::ALL {
        for seed in 1..8 {
            let length = FRAMES * level.frame_bytes();
            let line: Vec<u8> = (0..length).map(|at| (at * at / seed + at * seed) as u8).collect();
            let mut repaired = line.clone();
            let changed = repair(level, EARLIER, false, &mut repaired).unwrap();
            assert_eq!(read(level, &repaired), read(level, &line), "{level}, {seed}");
            let differ = line.iter().zip(&repaired).map(|(one, other)| (one ^ other).count_ones());
            assert_eq!(changed.all(), differ.sum::<u32>() as usize);

            let mut notes = [0; FRAMES];
            let noted = read_notes(level, &repaired, &mut notes).unwrap();
            assert_eq!((noted.alignment, noted.dissent), (0, [0; 4]));
            assert_eq!(repair(level, EARLIER, false, &mut repaired), Ok(Repaired::default()));
        }
    }
}

/// A split group decides by its majority which digit is stuffing: two of three control digits of
/// tributary 1 make a justification digit of 0 one that is to be 1.
#[test]
fn a_split_group_decides() {
    let mut line = [0; 106];
    multiplex(Level::Two, 0, &mut line, &[0x20], &[0; 104]).unwrap();
    turn_over(&mut line, 212);
    turn_over(&mut line, 424);
    let repaired = repair(Level::Two, 0, true, &mut line).unwrap();
    let expected =
        Repaired { control: [1, 0, 0, 0], stuffing: [1, 0, 0, 0], ..Repaired::default() };
    assert_eq!(repaired, expected);
    assert_eq!((line[79], line[80]), (0x08, 0x80));
}

#[test]
fn service_digits_stay() {
    for level in Level::ALL {
        let (mut ones, mut zeros) = (vec![0xFF; level.frame_bytes()], vec![0; level.frame_bytes()]);
        repair(level, 0, false, &mut ones).unwrap();
        repair(level, 0, false, &mut zeros).unwrap();
        let service = level.word_digits()..[12, 12, 16, 8, 12][level as usize];
        for place in service.chain(if level == Level::Twelve { 268..272 } else { 0..0 }) {
            assert_eq!(spritbobbin::line_digit(&ones, place as u64), Some(1));
            assert_eq!(spritbobbin::line_digit(&zeros, place as u64), Some(0));
        }
        // With the switch: national digits, and neither the remote alarm nor digits of levels 12 and 14.
        repair(level, 0, true, &mut zeros).unwrap();
        for place in level.word_digits()..[12, 12, 16, 8, 12][level as usize] {
            let one = Some(u8::from(national(level).contains(&place)));
            assert_eq!(spritbobbin::line_digit(&zeros, place as u64), one);
        }
    }
}

#[test]
fn a_capture_keeps_its_label() {
    let level = Level::Fourteen;
    let (line, mut worn) = (sent(level), sent(level));
    turn_over(&mut worn, 3);
    let (mut expected, mut file) = (vec![0; line.len() + 15], vec![0; line.len() + 15]);
    write_capture(level, &line, Some(b"north"), &mut expected).unwrap();
    write_capture(level, &worn, Some(b"north"), &mut file).unwrap();
    assert_eq!(repair_capture(EARLIER, true, &mut file).unwrap().all(), 1);
    assert_eq!(file, expected);

    assert_eq!(repair_capture(16, false, &mut file), Err(Refusal::Earlier { level, earlier: 16 }));
    assert_eq!(repair_capture(16, false, &mut file[1..]), Err(Refusal::Field { byte: 0 }));
    assert_eq!(file, expected);
}

#[test]
fn refusals_in_their_order() {
    for level in Level::ALL {
        let bytes = 2 * level.frame_bytes() - 1;
        let mut line = vec![0xA5; bytes];
        assert_eq!(repair(level, 16, true, &mut line), Err(Refusal::Line { level, bytes }));
        assert_eq!(line, vec![0xA5; bytes]);
        let mut line = vec![0xA5; bytes + 1];
        let answer = repair(level, 16, true, &mut line);
        if level.looks_at_earlier() {
            assert_eq!(answer, Err(Refusal::Earlier { level, earlier: 16 }));
            assert_eq!(repair(level, 16, true, &mut []), answer);
            assert_eq!(line, vec![0xA5; bytes + 1]);
        } else {
            assert!(answer.is_ok());
        }
        assert_eq!(repair(level, 15, true, &mut []), Ok(Repaired::default()));
    }
}

//! One tributary swapped: the line is what multiplexing makes of the new four, in any order, and no
//! other digit is touched.

use spritbobbin::{compare, multiplex, swap, write_capture, Level, OfTributary, Refusal};

const FRAMES: usize = 5;

/// Four tributaries and their decisions, which differ from seed to seed.
struct Four {
    earlier: u8,
    notes: [u8; FRAMES],
    buffer: Vec<u8>,
}

impl Four {
    fn of(level: Level, seed: usize) -> Four {
        let length = level.buffer_bytes(FRAMES);
        Four {
            earlier: (seed * 7 + 3) as u8 & 15,
            notes: [0, 1, 2, 3, 4]
                .map(|frame| (frame * 11 + seed * 5) as u8 & 15 | level.national_bits()),
            buffer: (0..length).map(|at| (at * at / 3 + at * seed + seed) as u8).collect(),
        }
    }

    /// These four, but tributary j of others.
    fn with(&self, j: usize, other: &Four) -> Four {
        let bit = 1 << (j - 1);
        let mixed = |ours: u8, theirs: u8| (ours & !bit) | (theirs & bit);
        let mut four = Four {
            earlier: mixed(self.earlier, other.earlier),
            notes: [0, 1, 2, 3, 4].map(|frame| mixed(self.notes[frame], other.notes[frame])),
            buffer: self.buffer.clone(),
        };
        let quarter = self.buffer.len() / 4;
        four.buffer[(j - 1) * quarter..j * quarter].copy_from_slice(other.digits(j));
        four
    }

    fn digits(&self, j: usize) -> &[u8] {
        let quarter = self.buffer.len() / 4;
        &self.buffer[(j - 1) * quarter..j * quarter]
    }

    /// The line, and the digits of each tributary that it has.
    fn sent(&self, level: Level) -> (Vec<u8>, [usize; 4]) {
        let mut line = vec![0; FRAMES * level.frame_bytes()];
        let sent = multiplex(level, self.earlier, &mut line, &self.notes, &self.buffer).unwrap();
        (line, sent.digits)
    }

    /// Swaps tributary j of a line for that of these.
    fn swap_into(&self, level: Level, j: usize, line: &mut [u8]) -> usize {
        swap(level, self.earlier, j, line, &self.notes, self.digits(j)).unwrap()
    }
}

#[test]
fn a_multiplexed_line_becomes_that_of_the_new_four() {
    for level in Level::ALL {
        for j in 1..=4 {
            let (old, new) = (Four::of(level, 1), Four::of(level, 2 + j));
            let (mut line, _) = old.sent(level);
            let taken = new.swap_into(level, j, &mut line);
            let (expected, digits) = old.with(j, &new).sent(level);
            assert_eq!((line, taken), (expected, digits[j - 1]), "{level}, tributary {j}");
        }
    }
}

#[test]
fn in_either_order_and_twice() {
    for level in Level::ALL {
        let (old, new, newer) = (Four::of(level, 1), Four::of(level, 2), Four::of(level, 3));
        for (i, j) in [(1, 2), (1, 4), (3, 2), (4, 3)] {
            let (line, _) = old.sent(level);
            let (mut one, mut other, mut twice) = (line.clone(), line.clone(), line);
            new.swap_into(level, i, &mut one);
            newer.swap_into(level, j, &mut one);
            newer.swap_into(level, j, &mut other);
            new.swap_into(level, i, &mut other);
            assert_eq!(one, other, "{level}, tributaries {i} and {j}");

            newer.swap_into(level, i, &mut twice);
            new.swap_into(level, i, &mut twice);
            newer.swap_into(level, j, &mut twice);
            assert_eq!(twice, one, "{level}, tributary {i} twice");
        }
    }
}

/// In lines of ones and of zeros, that no multiplexer made, only the tributary's own places change.
#[test]
fn no_other_digit_is_touched() {
    for level in Level::ALL {
        for (j, byte) in [(1, 0x00), (2, 0xFF), (3, 0x00), (4, 0xFF)] {
            let line = vec![byte; FRAMES * level.frame_bytes()];
            let mut swapped = line.clone();
            let digits = vec![!byte; level.quarter_bytes(FRAMES)];
            swap(level, !byte & 15, j, &mut swapped, &[!byte; FRAMES], &digits).unwrap();

            let (mut one, mut other) = (vec![0; line.len() + 7], vec![0; line.len() + 7]);
            write_capture(level, &line, None, &mut one).unwrap();
            write_capture(level, &swapped, None, &mut other).unwrap();
            let found = compare(&one, &other).unwrap();
            assert_eq!(found.word + found.remote_alarm + found.national, 0);
            for (at, of) in found.tributaries.iter().enumerate() {
                if at + 1 == j {
                    assert!(of.control > 0 && of.justification > 0 && of.ordinary > 0);
                } else {
                    assert_eq!(*of, OfTributary::default(), "{level}, tributary {j}");
                }
            }
        }
    }
}

#[test]
fn only_its_own_bit_is_looked_at() {
    for level in Level::ALL {
        for j in 1..=4 {
            let four = Four::of(level, j);
            let (line, _) = Four::of(level, 9).sent(level);
            let (mut one, mut other) = (line.clone(), line);
            four.swap_into(level, j, &mut one);
            let others = |note: u8| note ^ !(1 << (j - 1));
            let earlier = others(four.earlier) & 15;
            swap(level, earlier, j, &mut other, &four.notes.map(others), four.digits(j)).unwrap();
            assert_eq!(other, one, "{level}, tributary {j}");
        }
    }
}

/// The refusal of a swap that is lent so many bytes, and that the line is then as it was.
fn refused(
    level: Level,
    earlier: u8,
    j: usize,
    lent: (usize, usize, usize),
) -> Result<usize, Refusal> {
    let (line, notes, digits) = lent;
    let mut frames = vec![0xA5; line];
    let answer = swap(level, earlier, j, &mut frames, &vec![0xFF; notes], &vec![0xA5; digits]);
    if answer.is_err() {
        assert_eq!(frames, vec![0xA5; line], "a refused swap wrote the line");
    }
    answer
}

#[test]
fn refusals_in_their_order() {
    for level in Level::ALL {
        let (frame, room) = (level.frame_bytes(), level.quarter_bytes(3));
        for number in [0, 5, usize::MAX] {
            let lent = (3 * frame - 1, 2, room - 1);
            assert_eq!(refused(level, 255, number, lent), Err(Refusal::Tributary { number }));
        }
        let line = Err(Refusal::Line { level, bytes: 3 * frame - 1 });
        assert_eq!(refused(level, 255, 1, (3 * frame - 1, 2, room - 1)), line);
        let line = Err(Refusal::Line { level, bytes: 65 * frame });
        assert_eq!(refused(level, 0, 1, (65 * frame, 65, 65 * room)), line);
        let notes = Err(Refusal::Notes { bytes: 2, frames: 3 });
        assert_eq!(refused(level, 255, 1, (3 * frame, 2, room - 1)), notes);
        let buffer = Err(Refusal::OneBuffer { level, bytes: room - 1, frames: 3 });
        assert_eq!(refused(level, 255, 1, (3 * frame, 3, room - 1)), buffer);
        // Any length is enough that has room, and any bit of a note may be set.
        assert!(refused(level, 15, 4, (3 * frame, 3, room)).is_ok());
        assert!(refused(level, 15, 4, (3 * frame, 3, room + 1)).is_ok());
        let earlier = refused(level, 16, 4, (3 * frame, 3, room));
        if level.looks_at_earlier() {
            assert_eq!(earlier, Err(Refusal::Earlier { level, earlier: 16 }));
            assert_eq!(
                refused(level, 16, 1, (0, 0, 0)),
                Err(Refusal::Earlier { level, earlier: 16 })
            );
        } else {
            assert!(earlier.is_ok());
        }
        assert_eq!(refused(level, 0, 1, (0, 0, 0)), Ok(0));
    }
}

#[test]
fn each_says_what_to_do() {
    let level = Level::Twelve;
    let tributary = Refusal::Tributary { number: 5 };
    assert_eq!(tributary.to_string(), "there is no tributary 5: give 1, 2, 3 or 4");
    assert_eq!(tributary.number(), 12);
    let buffer = Refusal::OneBuffer { level, bytes: 32, frames: 1 };
    assert_eq!(
        buffer.to_string(),
        "a buffer of 32 bytes is too short for a tributary: for 1 frame of level 12 give 33 or more"
    );
    assert_eq!(buffer.number(), 4);
}

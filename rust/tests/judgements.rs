//! Lines judged: right, late and early multiplexers, patterns, what is counted, refusals.

use spritbobbin::{digits, judge, multiplex, Level, Pattern, Reading, Refusal, SentInto, Verdict};

const FRAMES: usize = 7;
const EARLIER: u8 = 0x06;
/// Tributary 1 changes often, 2 once, 3 now and then, and 4 never, not from the earlier vote either.
/// (One that alternates all the time would not tell late from early.)
const NOTES: [u8; FRAMES] = [0x07, 0x03, 0x02, 0x07, 0x04, 0x04, 0x01];

fn quarters(level: Level) -> Vec<u8> {
    (0..level.buffer_bytes(FRAMES)).map(|at| (at * at / 11 + at * 3) as u8).collect()
}

/// Quarters of a pattern, each from a phase of its own.
fn pattern(level: Level, (tap, last): (usize, usize)) -> Vec<u8> {
    let mut buffer = vec![0; level.buffer_bytes(FRAMES)];
    for (j, quarter) in buffer.chunks_mut(level.quarter_bytes(FRAMES)).enumerate() {
        let mut list: Vec<u8> = (0..last).map(|at| (at * (j + 3) % 5 % 2) as u8).collect();
        while list.len() < 8 * quarter.len() {
            let at = list.len();
            list.push(1 ^ list[at - tap] ^ list[at - last]);
        }
        for (at, digit) in list.into_iter().enumerate() {
            quarter[at / 8] |= digit << (7 - at % 8);
        }
    }
    buffer
}

/// The sets of a frame.
fn sets(level: Level) -> usize {
    if level == Level::Four {
        6
    } else {
        4
    }
}

/// The line of a multiplexer whose control digits say `NOTES` and that acts on others after a vote.
fn acted(level: Level, earlier: u8, acts: [u8; FRAMES], buffer: &[u8]) -> Vec<u8> {
    let line_of = |earlier, notes: [u8; FRAMES]| {
        let mut line = vec![0; FRAMES * level.frame_bytes()];
        let notes = notes.map(|note| note | level.national_bits());
        multiplex(level, earlier, &mut line, &notes, buffer).unwrap();
        line
    };
    let (said, mut line) = (line_of(EARLIER, NOTES), line_of(earlier, acts));
    let set = level.frame_digits() / sets(level);
    for head in (0..FRAMES * sets(level)).filter(|head| head % sets(level) != 0) {
        for place in head * set..head * set + 4 {
            let bit = 0x80 >> (place % 8);
            line[place / 8] = line[place / 8] & !bit | said[place / 8] & bit;
        }
    }
    line
}

/// As a right multiplexer, a late and an early one act: what they take for the decision that nobody said,
/// and the vote before that is the line's.
fn lines(level: Level, unknown: u8, buffer: &[u8]) -> [(Reading, Vec<u8>); 3] {
    let mut late = NOTES;
    late.rotate_right(1);
    late[0] = if level.looks_at_earlier() { EARLIER } else { unknown };
    let mut early = NOTES;
    early.rotate_left(1);
    early[FRAMES - 1] = unknown;
    [
        (Reading::Own, acted(level, EARLIER, NOTES, buffer)),
        (Reading::Before, acted(level, unknown, late, buffer)),
        (Reading::After, acted(level, NOTES[0] & 15, early, buffer)),
    ]
}

fn wrong(verdict: &Verdict, reading: Reading) -> usize {
    match reading {
        Reading::Own => verdict.own,
        Reading::Before => verdict.before,
        Reading::After => verdict.after,
    }
}

const READINGS: [Reading; 3] = [Reading::Own, Reading::Before, Reading::After];

/// Each multiplexer's line fits by its own reading, and tributaries 1 to 3 by no other; of tributary 4
/// nothing can be told.
#[test]
fn the_index_is_told() {
    for level in Level::ALL {
        let buffer = quarters(level);
        for unknown in [0, 5, 10, 15] {
            for (reading, line) in lines(level, unknown, &buffer) {
                let of = judge(level, EARLIER, &line, SentInto::Digits(&buffer)).unwrap();
                assert_eq!(of.map(|it| it.changes), [4, 1, 3, 0], "{level}");
                for (j, verdict) in of.iter().enumerate() {
                    assert!(verdict.fits(reading), "{level}, tributary {}, {reading:?}", j + 1);
                    for other in READINGS {
                        assert_eq!(verdict.fits(other), wrong(verdict, other) == 0);
                        let told = j < 3 && other != reading;
                        let blind = j == 3 && reading == Reading::Own;
                        assert!(!told || !verdict.fits(other), "{level}, tributary {}", j + 1);
                        assert!(!blind || verdict.fits(other), "{level}");
                    }
                }
            }
        }
    }
}

/// The same where a test set sends, whose phase nobody knows; the other pattern fits by none.
#[test]
fn a_pattern_will_do() {
    let [fifteen, twenty_three] = [Pattern::Fifteen, Pattern::TwentyThree].map(SentInto::Pattern);
    for level in Level::ALL {
        for (taps, sent, other) in
            [((14, 15), fifteen, twenty_three), ((18, 23), twenty_three, fifteen)]
        {
            for (reading, line) in lines(level, 9, &pattern(level, taps)) {
                for (j, verdict) in judge(level, EARLIER, &line, sent).unwrap().iter().enumerate() {
                    assert!(verdict.fits(reading), "{level}, tributary {}", j + 1);
                    let fits = READINGS.iter().filter(|it| verdict.fits(**it)).count();
                    assert!(j == 3 || fits == 1, "{level}, tributary {}", j + 1);
                }
                for verdict in judge(level, EARLIER, &line, other).unwrap() {
                    assert!(READINGS.iter().all(|it| !verdict.fits(*it)), "{level}");
                }
            }
        }
    }
}

/// Ones meet both recurrences and zeros neither; 15 or 23 digits are not asked. By the frames before and
/// after the frame's only decision is unknown, and stuffed it has a digit fewer that can be wrong.
#[test]
fn frames_of_one_digit() {
    for (pattern, first) in [(Pattern::Fifteen, 15), (Pattern::TwentyThree, 23)] {
        let sent = SentInto::Pattern(pattern);
        for verdict in judge(Level::Two, 0, &[0xFF; 106], sent).unwrap() {
            assert!(READINGS.iter().all(|it| verdict.fits(*it)));
        }
        for verdict in judge(Level::Two, 0, &[0; 106], sent).unwrap() {
            let of = (verdict.own, verdict.before, verdict.after, verdict.changes);
            assert_eq!(of, (206 - first, 205 - first, 205 - first, 0));
        }
    }
}

/// Wrong digits are those that differ, one by one: the sent digits are turned over at some numbers.
#[test]
fn each_wrong_digit_counts() {
    for level in Level::ALL {
        let buffer = quarters(level);
        let line = acted(level, EARLIER, NOTES, &buffer);
        let mut turned = buffer.clone();
        let quarter = level.quarter_bytes(FRAMES);
        for (j, count) in [1, 2, 30, 0].into_iter().enumerate() {
            for at in 0..count {
                let place = 47 * at + at % 3;
                turned[j * quarter + place / 8] ^= 0x80 >> (place % 8);
            }
        }
        let of = judge(level, EARLIER, &line, SentInto::Digits(&turned)).unwrap();
        let differ = |j: usize| {
            let quarter = j * quarter..(j + 1) * quarter;
            digits(&buffer[quarter.clone()])
                .zip(digits(&turned[quarter]))
                .filter(|(a, b)| a != b)
                .count()
        };
        assert_eq!(of.map(|verdict| verdict.own), [0, 1, 2, 3].map(differ));
        assert_eq!(of.map(|verdict| verdict.fits(Reading::Own)), [false, false, false, true]);
    }
}

#[test]
fn no_frames_fit_by_all() {
    for level in Level::ALL {
        for sent in [SentInto::Digits(&[]), SentInto::Pattern(Pattern::Fifteen)] {
            for verdict in judge(level, 15, &[], sent).unwrap() {
                assert!(READINGS.iter().all(|it| verdict.fits(*it) && wrong(&verdict, *it) == 0));
                assert_eq!(verdict.changes, 0);
            }
        }
    }
}

#[test]
fn refusals_in_their_order() {
    for level in Level::ALL {
        let (frame, room) = (level.frame_bytes(), level.buffer_bytes(1));
        let line = Err(Refusal::Line { level, bytes: frame - 1 });
        let (short, odd, right) = (vec![0; room - 4], vec![0; room + 1], vec![0; room]);
        assert_eq!(judge(level, 16, &vec![0; frame - 1], SentInto::Digits(&short)), line);
        for buffer in [&short, &odd] {
            let bytes = buffer.len();
            let refusal = Err(Refusal::Buffer { level, bytes, frames: 1 });
            assert_eq!(judge(level, 16, &vec![0; frame], SentInto::Digits(buffer)), refusal);
        }
        for sent in [SentInto::Digits(&right), SentInto::Pattern(Pattern::TwentyThree)] {
            let answer = judge(level, 16, &vec![0; frame], sent);
            if level.looks_at_earlier() {
                assert_eq!(answer, Err(Refusal::Earlier { level, earlier: 16 }));
            } else {
                assert!(answer.is_ok());
            }
            assert!(judge(level, 15, &vec![0; frame], sent).is_ok());
        }
    }
}

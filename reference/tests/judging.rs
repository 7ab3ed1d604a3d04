//! The verdict: by hand, each refusal at its border, and what is promised of right, late and early
//! multiplexers.

use reference::digits::{pack, unpack};
use reference::frame::{layout, Place};
use reference::judging::{acting, line_of, pattern_digits, read_by, votes, READINGS};
use reference::level::{row, Row, LEVELS};
use reference::random::Random;
use reference::{extract, judge, multiplex, read_notes, Judged, Reading, Verdict};

fn verdict(fits: u64, wrong: [u64; 3], changes: u64) -> Verdict {
    Verdict { fits, wrong, changes }
}

fn accepted(of: [Verdict; 4]) -> Judged {
    Judged { refusal: 0, of }
}

fn all(one: Verdict) -> Judged {
    accepted([one.clone(), one.clone(), one.clone(), one])
}

/// A line from quarters of one byte over and over.
fn sent(level: u64, earlier: u64, notes: &[u8], byte: u8) -> Vec<u8> {
    let row = row(level).unwrap();
    let mut line = vec![0; notes.len() * row.frame_bytes()];
    let notes: Vec<u8> = notes.iter().map(|note| note | row.national_bits()).collect();
    let answer = multiplex(level, earlier, &mut line, &notes, &vec![byte; 4 * 91 * notes.len()]);
    assert_eq!(answer.refusal, 0);
    line
}

#[test]
fn no_frames() {
    for level in LEVELS {
        for pattern in [0, 15, 23] {
            assert_eq!(judge(level, 0, &[], pattern, &[]), all(verdict(7, [0; 3], 0)));
        }
    }
}

/// One frame of zeros: the other two readings act on the unknown decision, and one of its two ways is
/// right.
#[test]
fn one_frame_cannot_tell() {
    for note in [0, 1, 0x0F] {
        let line = sent(2, 0, &[note], 0);
        assert_eq!(judge(2, 0, &line, 0, &[0; 104]), all(verdict(7, [0; 3], 0)));
    }
}

/// Tributary 1 is stuffed in frame 0 and not in frame 1; all are zeros, so that only a stuffing digit,
/// which is 1, can be wrong. By the frame before, frame 0 acts on the unknown, tried as 1, and in frame 1
/// a zero is left out. By the frame after, frame 0 hands out its stuffing digit.
#[test]
fn a_stuffing_digit_handed_out() {
    let line = sent(2, 0, &[1, 0], 0);
    let others = verdict(7, [0; 3], 0);
    let first = verdict(1 | 2, [0, 0, 1], 1);
    let three = [others.clone(), others.clone(), others];
    let [a, b, c] = three;
    assert_eq!(judge(2, 99, &line, 0, &[0; 208]), accepted([first, a, b, c]));
    // The other way round: by the frame before, frame 1 hands out its stuffing digit.
    let line = sent(2, 0, &[0, 1], 0);
    let of = judge(2, 99, &line, 0, &[0; 208]).of;
    assert_eq!(of[0], verdict(1 | 4, [0, 1, 0], 1));
}

/// Tributary 1 is stuffed in frame 1 only, and sends zeros but for digit 155, the one after that of
/// frame 0's justification place. By the frame after that place is left out, digit 155 comes as digit 154,
/// and two digits are wrong. By the frame before frame 1 hands out its stuffing digit.
#[test]
fn a_digit_left_out() {
    let mut buffer = vec![0; 208];
    buffer[155 / 8] = 0x80 >> (155 % 8);
    let mut line = vec![0; 212];
    multiplex(2, 0, &mut line, &[0x20, 0x21], &buffer);
    let of = judge(2, 0, &line, 0, &buffer).of;
    assert_eq!(of[0], verdict(1, [0, 1, 2], 1));
}

/// Ones meet both recurrences, for 1 xor 1 xor 1 is 1; zeros never do, and 15 or 23 digits are not asked.
/// Of the two ways of the unknown the one with fewer digits has one fewer wrong.
#[test]
fn patterns_by_hand() {
    for (pattern, first) in [(15, 15), (23, 23)] {
        let ones = judge(2, 0, &[0xFF; 106], pattern, &[]);
        assert_eq!(ones, all(verdict(7, [0; 3], 0)));
        let zeros = judge(2, 0, &[0; 106], pattern, &[1, 2, 3]);
        let own = 206 - first;
        assert_eq!(zeros, all(verdict(0, [own, own - 1, own - 1], 0)));
        // Level 12, votes 0 after 0: 257 digits, or 256 where the unknown is 1.
        let zeros = judge(12, 0, &[0; 132], pattern, &[]);
        let own = 257 - first;
        assert_eq!(zeros, all(verdict(0, [own, own - 1, own - 1], 0)));
        // After 1: 256 by its own; by the frame before on 1 and the unknown, 256 or 255; by the frame after
        // on the unknown after 0, 257 or 256.
        let zeros = judge(12, 15, &[0; 132], pattern, &[]);
        let own = 256 - first;
        assert_eq!(zeros, all(verdict(0, [own, own - 1, own], 0)));
    }
}

/// The recurrences, digit by digit: 2^15 - 1 has stages 14 and 15 fed back, 2^23 - 1 stages 18 and 23, both
/// inverted, so that a run of as many zeros is followed by ones.
#[test]
fn the_patterns_themselves() {
    let digits = pattern_digits(15, &[0; 15], 40);
    let text: String = digits.iter().map(|&digit| char::from(b'0' + digit)).collect();
    // After 15 zeros 14 ones; then digits 29 to 42 are 1 xor the digit 14 before xor the one 15 before:
    // digit 29 is 1 xor d15 xor d14 = 1 xor 1 xor 0 = 0, digits 30 to 39 are 1 xor 1 xor 1 = 1.
    assert_eq!(text, "0000000000000001111111111111101111111111");
    let digits = pattern_digits(23, &[0; 23], 50);
    let text: String = digits.iter().map(|&digit| char::from(b'0' + digit)).collect();
    // Digits 23 to 40 are ones; 41 is 1 xor d23 xor d18 = 0, so are 42 to 45; 46 on are 1 xor 1 xor 1.
    assert_eq!(text, "00000000000000000000000111111111111111111000001111");
    // Each comes back after its length, and not before.
    for (stages, length) in [(15, (1 << 15) - 1), (23, (1 << 23) - 1)] {
        let digits = pattern_digits(stages, &[0; 23], length + 30);
        assert_eq!(digits[..30], digits[length..length + 30]);
        let ones = digits[..length].iter().filter(|&&digit| digit == 1).count();
        assert_eq!(ones, (length - 1) / 2, "inverted: one more zero than ones");
    }
}

/// Votes 1 0, and a late multiplexer that took 0 for the vote before them: it acts on 0 1, as an early one
/// does that takes 1 for the vote after. A decision that alternates all the time tells only that the index
/// moved.
#[test]
fn late_or_early() {
    let row = row(2).unwrap();
    let sent = [0, 1, 2, 3].map(|j| (0..416).map(|k| (k * k / (5 + j) % 2) as u8).collect());
    let line = line_of(row, 0, &[0x21, 0x20], &sent, Reading::Before, 0);
    let buffer: Vec<u8> = sent.iter().flat_map(|digits: &Vec<u8>| pack(digits)).collect();
    let of = &judge(2, 0, &line, 0, &buffer).of[0];
    assert_eq!((of.fits, of.wrong[1], of.wrong[2], of.changes), (2 | 4, 0, 0, 1));
    assert_eq!(line, line_of(row, 0, &[0x21, 0x20], &sent, Reading::After, 1));
}

/// Three frames of level 2 whose votes of tributary 1 are 1 0 0, and of level 12 after 1.
#[test]
fn whose_votes_act() {
    let two = row(2).unwrap();
    let own = |reading, unknown| {
        let acts = acting(two, 0, &[1, 0, 0], reading, unknown);
        acts.iter().map(|&(_, own)| own).collect::<Vec<u8>>()
    };
    assert_eq!(own(Reading::Own, 7), [1, 0, 0]);
    assert_eq!(own(Reading::Before, 7), [7, 1, 0]);
    assert_eq!(own(Reading::After, 7), [0, 0, 7]);
    let twelve = row(12).unwrap();
    let both = |reading| acting(twelve, 9, &[1, 2, 3], reading, 7);
    assert_eq!(both(Reading::Own), [(9, 1), (1, 2), (2, 3)]);
    assert_eq!(both(Reading::Before), [(7, 9), (9, 1), (1, 2)]);
    assert_eq!(both(Reading::After), [(1, 2), (2, 3), (3, 7)]);
}

/// The order 1, 13, 2, 4, 5, and all numbers 0. With a pattern the buffer is not looked at.
#[test]
fn refusals() {
    let refusal = |level, earlier, line: usize, pattern, buffer: usize| {
        let answer = judge(level, earlier, &vec![0; line], pattern, &vec![0; buffer]);
        if answer.refusal != 0 {
            assert_eq!(answer, Judged { refusal: answer.refusal, ..Judged::default() });
        }
        answer.refusal
    };
    for level in [0, 1, 5, 11, 13, 258, u64::MAX] {
        assert_eq!(refusal(level, 16, 105, 1, 3), 1);
    }
    for (level, frame, quarter) in
        [(2, 106, 26), (3, 192, 48), (4, 366, 91), (12, 132, 33), (14, 272, 68)]
    {
        for pattern in [1, 14, 16, 22, 24, 256, (1 << 32) + 15, u64::MAX] {
            assert_eq!(refusal(level, 16, frame - 1, pattern, 3), 13);
        }
        for pattern in [0, 15, 23] {
            for line in [frame - 1, frame + 1, 65 * frame] {
                assert_eq!(refusal(level, 16, line, pattern, 3), 2);
            }
        }
        for buffer in [0, 4 * quarter - 4, 4 * quarter - 1, 4 * quarter + 1] {
            assert_eq!(refusal(level, 16, frame, 0, buffer), 4);
        }
        assert_eq!(refusal(level, 16, 0, 0, 3), 4);
        let looked_at = if level > 10 { 5 } else { 0 };
        assert_eq!(refusal(level, 16, frame, 0, 4 * quarter), looked_at);
        assert_eq!(refusal(level, 15, frame, 0, 4 * quarter), 0);
        for buffer in [0, 1, 4 * quarter] {
            assert_eq!(refusal(level, 16, frame, 15, buffer), looked_at);
            assert_eq!(refusal(level, u64::MAX, 0, 23, buffer), looked_at);
            assert_eq!(refusal(level, 15, frame, 23, buffer), 0);
        }
    }
}

/// Notes, an earlier vote and what is sent: digits of any sort, or of a pattern.
struct Case {
    earlier: u8,
    notes: Vec<u8>,
    sent: [Vec<u8>; 4],
    buffer: Vec<u8>,
    pattern: u64,
}

fn any_case(random: &mut Random, row: &Row) -> Case {
    let frames = random.index(9);
    let note = |note: &u8| note & 0b1111 | row.national_bits();
    let mut notes: Vec<u8> = random.bytes(frames).iter().map(note).collect();
    if random.once_in(3) {
        let fixed = 1 << random.index(4);
        notes.iter_mut().for_each(|note| *note |= fixed);
    }
    let pattern = random.pick(&[0, 15, 23]);
    let quarter = (frames * row.most_digits() + 7) / 8;
    let sent = [0, 1, 2, 3].map(|_| match pattern {
        0 => random.digits(8 * quarter),
        stages => pattern_digits(stages, &random.digits(23), 8 * quarter),
    });
    let buffer = sent.iter().flat_map(|digits| pack(digits)).collect();
    Case { earlier: random.number() as u8 & 15, notes, sent, buffer, pattern }
}

/// Damage that demand 3 allows: alignment, service and stuffing digits at will, and of each control group
/// at most one of three or two of five. What is stuffing is said by the votes that acted.
fn worn(random: &mut Random, row: &Row, acts: &[(u8, u8)], line: &[u8]) -> Vec<u8> {
    let mut list = unpack(line, 8 * line.len());
    for (&(before, own), digits) in acts.iter().zip(list.chunks_mut(row.frame_digits)) {
        let mut wrong = [row.group_digits / 2; 4];
        for (at, place) in layout(row).into_iter().enumerate() {
            let both = |j: usize| (before >> j & 1) + (own >> j & 1);
            let stuffed = |j: usize| if row.level > 10 { both(j) == 2 } else { own >> j & 1 == 1 };
            let worn = match place {
                Place::Word(_) | Place::Service | Place::RemoteAlarm | Place::National(_) => true,
                Place::Control(j) if wrong[j] > 0 => {
                    wrong[j] -= 1;
                    true
                }
                Place::Negative(j) => both(j) > 0,
                Place::Justification(j) => stuffed(j),
                _ => false,
            };
            digits[at] ^= u8::from(worn && random.once_in(2));
        }
    }
    pack(&list)
}

/// A right multiplexer's line always fits by its own frame, a late one's by the frame before and an early
/// one's by the frame after, whatever the multiplexer took for the decision that nobody said, and with
/// any damage that demand 3 allows.
#[test]
fn each_multiplexer_fits_by_its_reading() {
    let mut random = Random::new(27);
    for round in 0..50 {
        let row = row(LEVELS[round % 5]).unwrap();
        let case = any_case(&mut random, row);
        for (bit, reading) in READINGS.into_iter().enumerate() {
            let unknown = random.number() as u8 & 15;
            let line = line_of(row, case.earlier, &case.notes, &case.sent, reading, unknown);
            let said: Vec<u8> = case.notes.iter().map(|note| note & 15).collect();
            let acts = acting(row, case.earlier, &said, reading, unknown);
            for line in [worn(&mut random, row, &acts, &line), line] {
                let earlier = u64::from(case.earlier);
                let judged = judge(row.level, earlier, &line, case.pattern, &case.buffer);
                assert_eq!(judged.refusal, 0);
                for verdict in &judged.of {
                    assert_eq!(verdict.fits >> bit & 1, 1, "{reading:?}");
                    assert_eq!(verdict.wrong[bit], 0);
                }
            }
        }
    }
}

/// By its own frame it is the line of multiplexing, and what is read by its own frame is what the two
/// calls read.
#[test]
fn its_own_is_what_the_calls_do() {
    let mut random = Random::new(28);
    for round in 0..60 {
        let row = row(LEVELS[round % 5]).unwrap();
        let case = any_case(&mut random, row);
        let (frames, earlier) = (case.notes.len(), u64::from(case.earlier));
        let mut line = vec![0; frames * row.frame_bytes()];
        multiplex(row.level, earlier, &mut line, &case.notes, &case.buffer);
        let own = line_of(row, case.earlier, &case.notes, &case.sent, Reading::Own, 6);
        assert_eq!(line, own);
        let line = random.bytes(line.len());
        let (mut notes, mut back) = (vec![0; frames], vec![0; case.buffer.len()]);
        read_notes(row.level, &line, &mut notes);
        let counts = extract(row.level, earlier, &line, &notes, &mut back).counts;
        let votes = votes(row, &line);
        let acts = acting(row, case.earlier, &votes, Reading::Own, 9);
        let quarter = back.len() / 4;
        for (j, digits) in read_by(row, &line, &acts).iter().enumerate() {
            assert_eq!(digits.len() as u64, counts[j]);
            assert_eq!(*digits, unpack(&back[j * quarter..], digits.len()));
        }
    }
}

/// Where a tributary's decision never changes, at levels 12 and 14 nor differs from the earlier vote, a
/// reading that fits by its own frame fits by the other two as well. On any line, with any digits sent.
#[test]
fn a_decision_that_never_changes_tells_nothing() {
    let mut random = Random::new(29);
    let mut seen = 0;
    for round in 0..60 {
        let row = row(LEVELS[round % 5]).unwrap();
        let mut case = any_case(&mut random, row);
        let fixed = random.number() as u8 & 15;
        case.earlier = fixed;
        case.notes.iter_mut().for_each(|note| *note = *note & !0b0011 | fixed & 0b0011);
        let earlier = u64::from(fixed);
        let line = line_of(row, fixed, &case.notes, &case.sent, Reading::Own, 0);
        for (j, verdict) in
            judge(row.level, earlier, &line, case.pattern, &case.buffer).of.iter().enumerate()
        {
            let votes = case.notes.iter().map(|note| note >> j & 1);
            if verdict.changes == 0 && votes.clone().all(|vote| vote == fixed >> j & 1) {
                assert_eq!((verdict.fits, verdict.wrong), (7, [0; 3]));
                seen += 1;
            }
        }
    }
    assert!(seen > 100, "only {seen}");
}

/// The numbers by the definition's own words, one tributary and one digit at a time, on any line.
#[test]
fn any_line() {
    let mut random = Random::new(30);
    for round in 0..100 {
        let row = row(LEVELS[round % 5]).unwrap();
        let frames = random.index(6);
        let mut line = random.bytes(frames * row.frame_bytes());
        if random.once_in(2) {
            // Votes that are more often alike.
            line.iter_mut().for_each(|byte| *byte |= 0x11);
        }
        let buffer = random.bytes(4 * ((frames * row.most_digits() + 7) / 8));
        let (earlier, pattern) = (random.below(16), random.pick(&[0, 15, 23]));
        let judged = judge(row.level, earlier, &line, pattern, &buffer);
        for j in 0..4 {
            assert_eq!(judged.of[j], slowly(row, earlier, &line, pattern, &buffer, j));
        }
    }
}

/// Through extraction by shifted notes: for each way of the unknown, the notes of the frame before or
/// after, and at levels 12 and 14 the earlier vote that goes with them.
fn slowly(row: &Row, earlier: u64, line: &[u8], pattern: u64, buffer: &[u8], j: usize) -> Verdict {
    let frames = line.len() / row.frame_bytes();
    let mut notes = vec![0; frames];
    read_notes(row.level, line, &mut notes);
    let reading = |earlier: u64, notes: &[u8]| {
        let mut back = vec![0; buffer.len()];
        let answer = extract(row.level, earlier, line, notes, &mut back);
        assert_eq!(answer.refusal, 0);
        let quarter = back.len() / 4;
        let read = unpack(&back[j * quarter..], answer.counts[j] as usize);
        let should = unpack(&buffer[j * quarter..], read.len());
        let mut wrong = 0;
        for i in 0..read.len() {
            let right = match pattern {
                0 => should[i],
                15 if i >= 15 => 1 ^ read[i - 14] ^ read[i - 15],
                23 if i >= 23 => 1 ^ read[i - 18] ^ read[i - 23],
                _ => read[i],
            };
            wrong += u64::from(read[i] != right);
        }
        wrong
    };
    let fewer = |way: &dyn Fn(u8) -> u64| way(0).min(way(15));
    let wrong = [
        reading(earlier, &notes),
        fewer(&|unknown| {
            if frames == 0 {
                return 0;
            }
            let first = if row.level > 10 { earlier as u8 } else { unknown };
            let late = [&[first], &notes[..frames - 1]].concat();
            reading(u64::from(unknown), &late)
        }),
        fewer(&|unknown| {
            if frames == 0 {
                return 0;
            }
            let early = [&notes[1..], &[unknown]].concat();
            reading(u64::from(notes[0] & 15), &early)
        }),
    ];
    let bit = |note: u8| note >> j & 1;
    let changes = (1..frames).filter(|&f| bit(notes[f]) != bit(notes[f - 1])).count() as u64;
    let fits = (0..3).map(|k| u64::from(wrong[k] == 0) << k).sum();
    Verdict { fits, wrong, changes }
}

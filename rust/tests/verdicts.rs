//! Recordings judged by the pair of calls: right, late and early multiplexers, worn and slipped, patterns,
//! feeds in turn, refusals.

use spritbobbin::{copy_digits, late_multiplex, multiplex, read_notes};
use spritbobbin::{Explanation, Level, Pattern, Reading, Refusal, TributaryVerdict, VerdictState};

const FRAMES: usize = 40;
const READINGS: [Reading; 3] = [Reading::Own, Reading::Before, Reading::After];

/// Bytes without a pattern.
fn scattered(seed: u32, bytes: usize) -> Vec<u8> {
    let step = |x: &mut u32| {
        *x = x.wrapping_mul(1_664_525).wrapping_add(1_013_904_223);
        Some((*x >> 24) as u8)
    };
    std::iter::repeat(()).scan(seed, |x, ()| step(x)).take(bytes).collect()
}

/// Votes without a pattern, but that tributary 4 never changes.
fn notes(level: Level) -> Vec<u8> {
    scattered(77, FRAMES).iter().map(|byte| byte >> 4 & 7 | level.national_bits()).collect()
}

fn sent(level: Level) -> Vec<u8> {
    scattered(5, level.buffer_bytes(FRAMES + 1))
}

fn right_line(level: Level, sent: &[u8]) -> Vec<u8> {
    let mut line = vec![0; FRAMES * level.frame_bytes()];
    multiplex(level, 0, &mut line, &notes(level), sent).unwrap();
    line
}

fn late_line(level: Level, sent: &[u8]) -> Vec<u8> {
    let mut line = vec![0; FRAMES * level.frame_bytes()];
    late_multiplex(level, 0, &mut line, &notes(level), sent).unwrap();
    line
}

fn vote_of(level: Level, frame: &[u8]) -> Option<u8> {
    let frame = frame.get(..level.frame_bytes())?;
    let mut note = [0];
    read_notes(level, frame, &mut note).unwrap();
    Some(note[0] & 15)
}

/// A recording fed in runs of so many frames.
fn judged(
    level: Level,
    pattern: Option<Pattern>,
    line: &[u8],
    sent: &[u8],
    run: usize,
) -> [TributaryVerdict; 4] {
    let mut state = VerdictState::new(level, 0, pattern).unwrap();
    let mut of = state.feed(&[], None, &[], 0).unwrap();
    let mut rest = line;
    while !rest.is_empty() {
        let (now, after) = rest.split_at(rest.len().min(run * level.frame_bytes()));
        of = state.feed(now, vote_of(level, after), sent, 0).unwrap();
        rest = after;
    }
    of
}

/// The reading that costs least, where it is one alone.
fn cheapest(of: &TributaryVerdict) -> Option<Reading> {
    let costs = READINGS.map(|reading| of.by(reading).cost());
    let least = *costs.iter().min().unwrap();
    let mut best = READINGS.into_iter().zip(costs).filter(|(_, cost)| *cost == least);
    let (first, more) = (best.next(), best.next());
    first.filter(|_| more.is_none()).map(|(reading, _)| reading)
}

/// Digits of the line turned over, one in about so many, from the end of the first words on.
fn worn(line: &[u8], one_in: usize) -> Vec<u8> {
    let mut worn = line.to_vec();
    for at in (2000..8 * line.len()).step_by(one_in) {
        worn[at / 8] ^= 0x80 >> (at % 8);
    }
    worn
}

#[test]
fn the_index_is_told_on_a_worn_line() {
    for level in Level::ALL {
        let sent = sent(level);
        for (line, reading) in
            [(right_line(level, &sent), Reading::Own), (late_line(level, &sent), Reading::Before)]
        {
            let clean = judged(level, None, &line, &sent, 64);
            assert!(clean.iter().all(|of| of.by(reading).cost() == 0), "{level}");
            for of in &clean {
                assert_eq!(of.by(reading).right, of.by(reading).digits);
            }
            for of in &judged(level, None, &worn(&line, 997), &sent, 64)[..3] {
                assert_eq!(cheapest(of), Some(reading), "{level}");
                assert!(of.changes > 0 && of.by(reading).wrong > 0);
                assert!(of.by(reading).slips <= 1 && of.by(reading).right < of.by(reading).digits);
            }
        }
    }
}

#[test]
fn a_decision_that_never_changes_tells_nothing() {
    let sent = sent(Level::Three);
    let of = judged(Level::Three, None, &right_line(Level::Three, &sent), &sent, 64)[3];
    assert_eq!((of.changes, of.own.cost()), (0, 0));
    assert!(of.before.cost() == 0 && of.after.cost() == 0);
}

/// The tributary's clock lost a digit, or doubled one, before a right multiplexer.
#[test]
fn a_slip_is_told_with_its_digit() {
    for level in Level::ALL {
        let (sent, quarter) = (sent(level), level.quarter_bytes(FRAMES + 1));
        let (at, all) = (4001, 8 * quarter);
        for (lost, shift) in [(true, 1), (false, -1)] {
            let mut went_in = sent.clone();
            let (from, to, rest) =
                if lost { (at + 1, at, all - at - 1) } else { (at, at + 1, all - at - 1) };
            copy_digits(&mut went_in[..quarter], to, &sent[..quarter], from, rest).unwrap();
            let line = right_line(level, &went_in);
            let [one, two, ..] = judged(level, None, &line, &sent, 64);
            assert_eq!(cheapest(&one), Some(Reading::Own), "{level}");
            let Explanation { wrong, slips, shift: ends, entered, .. } = one.own;
            assert_eq!((wrong, slips, ends), (0, 1, shift), "{level}");
            // What was lost is among equal digits, so that the slip may be told some digits later.
            assert!(entered.abs_diff(at as u64) < 20, "{level}: {entered}");
            assert_eq!(two.own.cost(), 0);
        }
    }
}

#[test]
fn feeds_in_turn_are_one() {
    for level in Level::ALL {
        let sent = sent(level);
        let line = worn(&late_line(level, &sent), 301);
        for pattern in [None, Some(Pattern::Fifteen)] {
            let whole = judged(level, pattern, &line, &sent, 64);
            for run in [1, 3, 17] {
                assert_eq!(judged(level, pattern, &line, &sent, run), whole, "{level}, {run}");
            }
        }
    }
}

/// A copy of a state goes on by itself.
#[test]
fn a_copy_goes_on() {
    let level = Level::Two;
    let (sent, frame) = (sent(level), level.frame_bytes());
    let line = late_line(level, &sent);
    let mut state = VerdictState::new(level, 0, None).unwrap();
    state.feed(&line[..9 * frame], vote_of(level, &line[9 * frame..]), &sent, 0).unwrap();
    let mut copy = state.clone();
    assert!(copy == state);
    let rest = state.feed(&line[9 * frame..], None, &sent, 0).unwrap();
    assert!(copy != state);
    assert_eq!(copy.feed(&line[9 * frame..], None, &sent, 0).unwrap(), rest);
}

/// Only the digits that a run needs are lent, with those that lanes may look at; the number of the first is
/// said. Without them nothing is right.
#[test]
fn what_was_sent_may_be_lent_in_part() {
    let level = Level::Two;
    let (sent, frame, quarter) =
        (sent(level), level.frame_bytes(), level.quarter_bytes(FRAMES + 1));
    let line = right_line(level, &sent);
    let whole = judged(level, None, &line, &sent, 64);
    let mut state = VerdictState::new(level, 0, None).unwrap();
    let mut of = whole;
    for (at, run) in line.chunks(8 * frame).enumerate() {
        let from = (8 * at * (level.tributary_digits() - 1)).saturating_sub(24) / 8;
        let to = (8 * (at + 1) * level.tributary_digits() / 8 + 4).min(quarter);
        let part: Vec<u8> =
            sent.chunks(quarter).flat_map(|one| one[from..to].iter().copied()).collect();
        let next = vote_of(level, &line[(at * 8 * frame + run.len())..]);
        of = state.feed(run, next, &part, 8 * from as u64).unwrap();
    }
    assert_eq!(of, whole);
    let none = judged(level, None, &line, &[], 64)[0].own;
    assert_eq!((none.wrong, none.right), (none.digits, 0));
}

/// Quarters of a pattern, each from a phase of its own.
fn pattern(level: Level, (tap, last): (usize, usize)) -> Vec<u8> {
    let mut buffer = vec![0; level.buffer_bytes(FRAMES + 1)];
    for (j, quarter) in buffer.chunks_mut(level.quarter_bytes(FRAMES + 1)).enumerate() {
        let mut list: Vec<u8> = (0..last).map(|at| (at * (j + 3) % 5 % 2) as u8).collect();
        while list.len() < 8 * quarter.len() {
            let at = list.len();
            list.push(1 ^ list[at - tap] ^ list[at - last]);
        }
        for (at, digit) in list.into_iter().enumerate() {
            quarter[at / 8] |= digit << (7 - at % 8);
        }
    }
    buffer
}

/// A wrong digit counts once in a pattern, and the other pattern is never taken up.
#[test]
fn a_pattern_is_taken_up() {
    let [fifteen, twenty_three] = [Pattern::Fifteen, Pattern::TwentyThree];
    for level in Level::ALL {
        for (taps, there, other) in
            [((14, 15), fifteen, twenty_three), ((18, 23), twenty_three, fifteen)]
        {
            let line = late_line(level, &pattern(level, taps));
            for of in &judged(level, Some(there), &line, &[], 64)[..3] {
                assert_eq!(cheapest(of), Some(Reading::Before), "{level}");
                assert_eq!((of.before.unjudged, of.before.cost()), (0, 0));
            }
            let [one, ..] = judged(level, Some(there), &worn(&line, 1501), &[], 64);
            let digits = judged(level, None, &worn(&line, 1501), &pattern(level, taps), 64)[0];
            assert_eq!(one.before, digits.before, "{level}");
            for of in judged(level, Some(other), &line, &[], 64) {
                assert_eq!(of.own.unjudged, of.own.digits, "{level}");
                assert_eq!((of.own.wrong, of.own.slips, of.own.right), (0, 0, 0));
            }
        }
    }
}

#[test]
fn no_frames_cost_nothing() {
    for level in Level::ALL {
        for pattern in [None, Some(Pattern::Fifteen), Some(Pattern::TwentyThree)] {
            let mut state = VerdictState::new(level, 15, pattern).unwrap();
            assert_eq!(state.level(), level);
            let of = state.feed(&[], Some(3), &[1, 2, 3, 4], 77).unwrap();
            assert_eq!(of, [TributaryVerdict::default(); 4]);
        }
    }
}

#[test]
fn refusals_in_their_order() {
    for level in Level::ALL {
        let (frame, fresh) = (level.frame_bytes(), VerdictState::new(level, 16, None));
        if level.looks_at_earlier() {
            assert_eq!(fresh.unwrap_err(), Refusal::Earlier { level, earlier: 16 });
        } else {
            assert!(fresh.is_ok());
        }
        let mut state = VerdictState::new(level, 15, None).unwrap();
        let before = state.clone();
        for bytes in [frame - 1, 65 * frame] {
            let line = Err(Refusal::Line { level, bytes });
            assert_eq!(state.feed(&vec![0; bytes], Some(16), &[0; 3], 0), line);
        }
        let odd = Err(Refusal::Quarters { bytes: 3 });
        assert_eq!(state.feed(&vec![0; frame], Some(16), &[0; 3], 0), odd);
        for next in [16, 17, 255] {
            let refused = state.feed(&vec![0; frame], Some(next), &[0; 4], 0);
            assert_eq!(refused, Err(Refusal::Next { next }));
            assert_eq!(refused.unwrap_err().number(), 5);
        }
        assert!(state == before, "a refused feed leaves the state alone");
        let mut patterned = VerdictState::new(level, 0, Some(Pattern::TwentyThree)).unwrap();
        assert!(patterned.feed(&vec![0; frame], Some(15), &[0; 3], 0).is_ok());
    }
    assert!(Refusal::Next { next: 16 }.to_string().starts_with("the vote of the next frame is 16"));
    assert!(Refusal::Quarters { bytes: 1 }.to_string().starts_with("what was sent has 1 byte,"));
}

//! Prints what a program on the cases below must write, a line to a case: worked cases 9,
//! 10 and 11, two frames each of levels 12 and 14, a line read digit by digit to its end, a capture of case 1, frames of 2048 kbit/s that
//! are found and lost, each refusal at its border, and each pair of faults that tells the order.
//!
//! The text is made so that a program in any language can write it: fixed words, single
//! spaces, and numbers in the decimal system. How the inputs are made:
//!
//! - the line of a multiplex call, the notes that are read and the buffer of an extract call hold
//!   165 in every byte beforehand, so that a byte left alone can be told from a byte cleared;
//! - byte i of a multiplex call's buffer is i modulo 256;
//! - a multiplex call's notes are `before` before frame `from`, and `note` from that frame on, and the
//!   vote before frame 0 is 0; where an earlier vote is named, it is that one, and the notes are those named;
//! - the line that a multiplex call leaves is then extracted by the same notes;
//! - every byte of a line whose notes are read is `fill`, and it is then extracted by the notes that
//!   the reading leaves;
//! - the bytes of a piece, and of the frame store of a given state, are 0, but the piece of
//!   a given stretch is one byte, `fill`, and its state hunts with no digits seen;
//! - byte i of a line that a reader reads is i modulo 256;
//! - byte i of the line and of the label of a capture that is written is i modulo 256, and
//!   its file holds 165 in every byte beforehand;
//! - a file that is read has the bytes given and zeros after them;
//! - byte i of the channels and of the spare digits of a multiframe is i modulo 256, every byte
//!   of its signalling is `signal` but the one at `at`, and what is built or taken into holds 165
//!   in every byte beforehand;
//! - the 2048 kbit/s line has ten pairs of frames of ones; byte 0 of a pair is 155, the word, but
//!   not in pairs 3, 4 and 5.
//!
//! A `sum` is taken after the call over all bytes: byte i counts i + 1 times.

use reference::{build_multiframe, take_multiframe_apart};
use reference::{extract, feed, fresh, multiplex, read_notes, Counted, Fed, State};
use reference::{finder_feed, FinderState, Found};
use reference::{read_capture, write_capture};

/// What a byte that will be written holds before.
const BEFORE: u8 = 165;
const MAX: u64 = u64::MAX;

/// level, line bytes, notes, before, note, from, buffer bytes
type Sending = (u64, usize, usize, u8, u8, usize, usize);
/// level, earlier vote, line bytes, notes, buffer bytes
type Voting = (u64, u64, usize, [u8; 2], usize);
/// level, line bytes, fill, notes, buffer bytes
type Receiving = (u64, usize, u8, usize, usize);
/// level, window, seen, mode, place, slice bytes, first, count
type Feeding = (u64, u64, u64, u64, u64, usize, u64, u64);
/// level, digits, zeros, few before, alarm, fill, first, count
type Stretched = (u64, u64, u64, u64, u64, u8, u64, u64);
/// bytes of multiframe, channels, signalling and spare digits; signal, at, other
type Making = (usize, usize, usize, usize, u8, usize, u8);
/// window, seen, mode, place, slice bytes, first, count
type Hunting = (u64, u64, u64, u64, usize, u64, u64);
/// level, line bytes, label bytes, labelled, file bytes
type Writing = (u64, usize, usize, u64, usize);

const MAKINGS: [Making; 16] = [
    (512, 480, 15, 9, 213, 0, 213),
    (512, 480, 15, 9, 16, 0, 16),
    (512, 480, 15, 9, 213, 0, 15),
    (512, 480, 15, 9, 213, 14, 0),
    (512, 480, 15, 9, 15, 0, 213),
    (512, 480, 15, 9, 213, 7, 15),
    (511, 480, 15, 9, 15, 0, 15),
    (513, 480, 15, 9, 15, 0, 15),
    (512, 479, 15, 9, 15, 0, 15),
    (512, 481, 15, 9, 15, 0, 15),
    (512, 480, 14, 9, 15, 0, 15),
    (512, 480, 16, 9, 15, 0, 15),
    (512, 480, 15, 8, 15, 0, 15),
    (512, 480, 15, 10, 15, 0, 15),
    (0, 0, 0, 0, 0, 0, 0),
    (512, 480, 15, 9, 255, 14, 16),
];

const SENDINGS: [Sending; 37] = [
    // Case 9, and the other levels at the same borders.
    (2, 6784, 64, 32, 47, 32, 6592),
    (2, 6890, 65, 32, 32, 0, 6696),
    (2, 105, 1, 32, 32, 0, 104),
    (2, 106, 1, 32, 32, 0, 104),
    (2, 106, 1, 32, 32, 0, 100),
    (3, 12288, 64, 32, 37, 1, 12096),
    (3, 12480, 65, 32, 32, 0, 12288),
    (4, 23424, 64, 224, 250, 1, 23136),
    (4, 23790, 65, 224, 224, 0, 23500),
    // Case 10, and the note alone.
    (2, 106, 1, 32, 64, 0, 100),
    (2, 106, 1, 32, 64, 0, 104),
    (3, 960, 5, 32, 128, 3, 960),
    (4, 366, 1, 224, 224, 0, 364),
    // A national digit that is not 1: at levels 2 and 3 there is one, at level 4 there are three.
    (2, 106, 1, 32, 31, 0, 104),
    (3, 960, 5, 32, 0, 3, 960),
    (4, 1098, 3, 224, 223, 2, 1088),
    (4, 1098, 3, 224, 191, 2, 1088),
    (4, 1098, 3, 224, 127, 2, 1088),
    (4, 1098, 3, 224, 16, 1, 1088),
    // A short quarter comes before it, and a bit that the level lacks in any later note too.
    (2, 106, 1, 32, 0, 0, 100),
    (2, 212, 2, 0, 32, 1, 208),
    (2, 212, 2, 0, 64, 1, 208),
    (3, 960, 5, 0, 160, 4, 960),
    // Notes one short and one long, buffers that are no multiple of 4.
    (2, 212, 1, 32, 32, 0, 208),
    (2, 106, 2, 32, 32, 0, 104),
    (2, 106, 1, 32, 32, 0, 103),
    (2, 106, 1, 32, 32, 0, 105),
    // Room is asked for F·n digits even where frames are stuffed.
    (2, 848, 8, 32, 47, 0, 820),
    (2, 848, 8, 32, 47, 0, 824),
    // No frames, and levels that there are not.
    (2, 0, 0, 0, 0, 0, 0),
    (2, 0, 0, 0, 0, 0, 3),
    (258, 0, 0, 0, 0, 0, 0),
    (MAX, 0, 0, 0, 0, 0, 0),
    // The order 1, 2, 3, 4, 5, 10: the first wrong thing, and all later ones wrong as well.
    (5, 105, 2, 0, 64, 1, 103),
    (2, 105, 2, 0, 64, 1, 103),
    (2, 106, 2, 0, 64, 1, 103),
    (2, 212, 2, 0, 64, 1, 207),
];

const VOTINGS: [Voting; 6] = [
    // Each tributary does something else in each frame: plain, plain, stuffed, negative; then
    // negative, plain, stuffed, plain.
    (12, 5, 264, [0x06, 0x0C], 260),
    (14, 5, 544, [0x06, 0x0C], 540),
    // Refused with 5: the earlier vote, naming frame 0, and a note.
    (12, 16, 264, [0x06, 0x0C], 260),
    (14, 16, 544, [0x06, 0x0C], 540),
    (12, 5, 264, [0x06, 0x10], 260),
    (14, 5, 544, [0x06, 0x10], 540),
];

const RECEIVINGS: [Receiving; 10] = [
    (2, 6784, 144, 64, 6592),
    (2, 6890, 0, 65, 6696),
    (2, 105, 0, 1, 104),
    (2, 106, 255, 1, 104),
    (2, 106, 0, 1, 100),
    (4, 732, 19, 2, 728),
    (2, 0, 0, 0, 4),
    // The order 1, 2, 3, 4.
    (5, 105, 0, 2, 103),
    (2, 105, 0, 2, 103),
    (2, 106, 0, 2, 103),
];

const FEEDINGS: [Feeding; 18] = [
    (2, 1023, 10, 6, 847, 1, 0, 8),
    (2, 1024, 10, 6, 847, 1, 0, 8),
    (2, 1023, 11, 6, 847, 1, 0, 8),
    (2, 1023, 10, 7, 847, 1, 0, 8),
    (2, 1023, 10, 6, 848, 1, 0, 8),
    (2, 1023, 9, 6, 847, 1, 0, 8),
    (2, 0, 0, 0, 1, 1, 0, 8),
    (4, 2000, 11, 0, 0, 1, 0, 5),
    (2, 0, 10, 3, 837, 1, 7, 1),
    (2, 0, 0, 0, 0, 65_537, 0, 0),
    (2, 0, 0, 0, 0, 1, 1, 8),
    (2, 0, 0, 0, 0, 1, MAX, 2),
    // Words tested: from the L-th digit since reset on.
    (2, 0, 0, 0, 0, 2, 0, 9),
    (2, 0, 0, 0, 0, 2, 0, 10),
    (2, 0, 0, 0, 0, 2, 0, 11),
    (2, 0, 10, 0, 0, 1, 0, 8),
    // The order 6, 2, 7.
    (2, 0, 0, 7, 0, 65_537, MAX, 1),
    (2, 0, 0, 0, 0, 65_537, MAX, 1),
];

const STRETCHES: [Stretched; 23] = [
    // The limit of each level, with a 1 and with a 0 as the last digit.
    (2, 847, 4, 1, 0, 255, 0, 1),
    (2, 847, 4, 1, 0, 0, 0, 1),
    (2, 847, 5, 1, 0, 255, 0, 1),
    (3, 1535, 4, 1, 0, 255, 0, 1),
    (3, 1535, 4, 1, 0, 0, 0, 1),
    (4, 2927, 5, 1, 0, 255, 0, 1),
    (4, 2927, 5, 1, 0, 0, 0, 1),
    // Begun by two in a row, ended by two in a row, and else as it was.
    (2, 847, 0, 0, 0, 255, 0, 1),
    (2, 847, 5, 0, 1, 255, 0, 1),
    (2, 847, 5, 1, 1, 255, 0, 1),
    (2, 847, 0, 0, 1, 255, 0, 1),
    // A digit before the end, and digits after it.
    (2, 846, 4, 1, 0, 255, 0, 1),
    (2, 846, 4, 1, 0, 255, 0, 8),
    // An empty piece says the alarm, and a refused one does not.
    (2, 0, 0, 0, 1, 0, 0, 0),
    (2, 0, 0, 0, 1, 0, 9, 0),
    // Refused with 6.
    (2, 848, 0, 0, 0, 0, 0, 1),
    (3, 1536, 0, 0, 0, 0, 0, 1),
    (4, 2928, 0, 0, 0, 0, 0, 1),
    (2, 847, 847, 0, 0, 0, 0, 1),
    (2, 3, 4, 0, 1, 0, 0, 1),
    (2, 0, 0, 2, 0, 0, 0, 1),
    (2, 0, 0, 0, 2, 0, 0, 1),
    (2, 0, 0, MAX, 1, 0, 0, 1),
];

/// Line bytes, and the place that is read from.
const READINGS: [(usize, u64); 10] = [
    (14, 93),
    (2, 0),
    (2, 15),
    (2, 16),
    (2, 17),
    (0, 0),
    (1, MAX),
    // The longest line, and one that is longer.
    (65_536, 524_277),
    (65_537, 0),
    (65_537, 524_287),
];

const WRITINGS: [Writing; 24] = [
    // Case 1's size without a label: just long enough, a byte short, longer.
    (2, 106, 0, 0, 113),
    (2, 106, 0, 0, 112),
    (2, 106, 0, 0, 300),
    // No frames: no label, a label of no bytes, and one that is not looked at.
    (2, 0, 0, 0, 7),
    (2, 0, 0, 1, 10),
    (2, 0, 33, 0, 7),
    (2, 0, 0, 1, 9),
    // Labels at their border, and any number that says yes.
    (2, 106, 32, 1, 148),
    (2, 106, 32, 1, 147),
    (2, 106, 33, 1, 148),
    (3, 192, 1, 256, 210),
    (3, 192, 5, MAX, 210),
    // The most frames of each level, and one more.
    (2, 6784, 0, 0, 6791),
    (2, 6890, 0, 0, 7000),
    (3, 12288, 2, 1, 12300),
    (3, 12480, 0, 0, 12500),
    (4, 23424, 0, 0, 23431),
    (4, 23790, 0, 0, 24000),
    // Levels that there are not.
    (258, 0, 0, 0, 7),
    (MAX, 0, 0, 0, 7),
    // The order 1, 2, 9, 4: the first wrong thing, and all later ones wrong as well.
    (5, 105, 33, 1, 0),
    (2, 105, 33, 1, 0),
    (2, 106, 33, 1, 0),
    (2, 106, 32, 1, 0),
];

const HUNTINGS: [Hunting; 18] = [
    (127, 7, 5, 511, 1, 0, 8),
    (128, 7, 5, 511, 1, 0, 8),
    (127, 8, 5, 511, 1, 0, 8),
    (127, 7, 6, 511, 1, 0, 8),
    (127, 7, 5, 512, 1, 0, 8),
    (127, 6, 5, 511, 1, 0, 8),
    (127, 7, 0, 1, 1, 0, 8),
    (127, 3, 0, 0, 1, 0, 8),
    (27, 7, 1, 249, 1, 0, 8),
    (27, 7, 1, 250, 1, 0, 8),
    (27, 7, 2, 249, 1, 0, 8),
    (27, 7, 2, 250, 1, 0, 8),
    (27, 7, 2, 512, 1, 0, 8),
    (0, 0, 0, 0, 65536, 0, 524_288),
    (0, 0, 0, 0, 65537, 0, 0),
    (0, 0, 0, 0, 1, 1, 8),
    (0, 0, 0, 0, 1, MAX, 2),
    (128, 0, 0, 0, 65537, MAX, 1),
];

const FILES: [(usize, &[u8]); 24] = [
    // Cut off, or not there at all.
    (0, &[]),
    (3, &[1, 0, 1]),
    (4, &[1, 0, 1, 2]),
    (6, &[1, 0, 1, 2, 2, 0]),
    (7, &[1, 0, 1, 2, 2, 0, 1]),
    (9, &[1, 0, 1, 2, 2, 0, 0, 3, 0]),
    // A wrong tag, a wrong length.
    (7, &[2, 0, 1, 2, 2, 0, 0]),
    (7, &[1, 1, 0, 2, 2, 0, 0]),
    (8, &[1, 0, 2, 2, 2, 2, 0, 0]),
    (7, &[1, 0, 1, 2, 3, 0, 0]),
    (7, &[1, 0, 1, 2, 1, 0, 0]),
    // A label of 32 bytes, of 33, of 0; length bytes the other way round.
    (42, &[1, 0, 1, 2, 2, 0, 0, 3, 0, 32]),
    (43, &[1, 0, 1, 2, 2, 0, 0, 3, 0, 33]),
    (10, &[1, 0, 1, 2, 2, 0, 0, 3, 0, 0]),
    (7, &[1, 0, 1, 2, 2, 0, 0]),
    (10, &[1, 0, 1, 2, 2, 0, 0, 3, 1, 0]),
    // Something after the last field.
    (8, &[1, 0, 1, 2, 2, 0, 0, 0]),
    (10, &[1, 0, 1, 2, 2, 0, 0, 4, 0, 0]),
    (11, &[1, 0, 1, 2, 2, 0, 0, 3, 0, 0, 0]),
    (13, &[1, 0, 1, 2, 2, 0, 0, 3, 0, 0, 3]),
    // The order 9, 1, 2.
    (8, &[1, 0, 1, 9, 2, 0, 0, 0]),
    (8, &[1, 0, 1, 9, 2, 0, 1]),
    (8, &[1, 0, 1, 2, 2, 0, 1]),
    (7, &[1, 0, 1, 0, 2, 0, 0]),
];

fn sum(bytes: &[u8]) -> u64 {
    (1..).zip(bytes).map(|(weight, &byte)| weight * u64::from(byte)).sum()
}

fn counts(counts: [u64; 4]) -> String {
    format!("{} {} {} {}", counts[0], counts[1], counts[2], counts[3])
}

fn counted(answer: &Counted, bytes: &[u8]) -> String {
    let Counted { refusal, frame, counts: [a, b, c, d] } = answer;
    format!("refusal {refusal} frame {frame} counts {a} {b} {c} {d} sum {}", sum(bytes))
}

fn sending((level, line, notes, before, note, from, buffer): Sending) {
    let mut bytes = vec![BEFORE; line];
    let list: Vec<u8> = (0..notes).map(|k| if k < from { before } else { note }).collect();
    let quarters = count_up(buffer);
    let with = format!(
        "level {level} line {line} notes {notes} before {before} note {note} from {from} \
         buffer {buffer}"
    );
    there_and_back(&with, level, 0, &mut bytes, &list, &quarters);
}

fn voting((level, earlier, line, notes, buffer): Voting) {
    let [one, two] = notes;
    let with =
        format!("level {level} earlier {earlier} line {line} notes {one} {two} buffer {buffer}");
    there_and_back(&with, level, earlier, &mut vec![BEFORE; line], &notes, &count_up(buffer));
}

fn there_and_back(
    with: &str,
    level: u64,
    earlier: u64,
    line: &mut [u8],
    notes: &[u8],
    quarters: &[u8],
) {
    let answer = multiplex(level, earlier, line, notes, quarters);
    println!("multiplex {with}: {}", counted(&answer, line));
    let mut back = vec![BEFORE; quarters.len()];
    let answer = extract(level, earlier, line, notes, &mut back);
    println!("extract {with}: {}", counted(&answer, &back));
}

fn receiving((level, line, fill, notes, buffer): Receiving) {
    let (mut list, mut quarters) = (vec![BEFORE; notes], vec![BEFORE; buffer]);
    let bytes = vec![fill; line];
    let with = format!("level {level} line {line} fill {fill} notes {notes}");
    let answer = read_notes(level, &bytes, &mut list);
    println!(
        "read_notes {with}: refusal {} alignment {} dissent {} sum {}",
        answer.refusal,
        answer.alignment,
        counts(answer.dissent),
        sum(&list),
    );
    let answer = extract(level, 0, &bytes, &list, &mut quarters);
    println!("extract {with} buffer {buffer}: {}", counted(&answer, &quarters));
}

/// The part of a line that every call of the finder has.
fn hunted(answer: &Found) -> String {
    let state = &answer.state;
    format!(
        "refusal {} taken {} aligned {} state {} {} {} {}",
        answer.refusal,
        answer.taken,
        u64::from(answer.aligned),
        state.window,
        state.seen,
        state.mode,
        state.place,
    )
}

fn hunting((window, seen, mode, place, slice, first, count): Hunting) {
    let state = FinderState { window, seen, mode, place };
    let answer = finder_feed(&state, &vec![0; slice], first, count);
    println!(
        "hunt window {window} seen {seen} mode {mode} place {place} \
         slice {slice} first {first} count {count}: {}",
        hunted(&answer)
    );
}

/// Frames found, lost and found again, in pieces of at most `size` digits: a line to each.
fn frames(size: u64) {
    let mut line = [255; 640];
    for pair in [0, 1, 2, 6, 7, 8, 9] {
        line[64 * pair] = 155;
    }
    let (mut state, mut first, mut aligned) = (FinderState::default(), 0, false);
    while first < 5120 {
        let answer = finder_feed(&state, &line, first, size.min(5120 - first));
        first += answer.taken;
        if answer.aligned != aligned {
            aligned = answer.aligned;
            println!("frames pieces {size} digits {first}: {}", hunted(&answer));
        }
        state = answer.state;
    }
}

/// The part of a line that every feed call has: the answer, then the state's numbers.
fn fed(answer: &Fed) -> String {
    let state = &answer.state;
    format!(
        "refusal {} taken {} ready {} alarm {} words {} state {} {} {} {} {} {} {} {} {}",
        answer.refusal,
        answer.taken,
        u64::from(answer.ready),
        u64::from(answer.alarm),
        answer.words,
        state.level,
        state.window,
        state.seen,
        state.mode,
        state.place,
        state.stretch_digits,
        state.stretch_zeros,
        state.few_before,
        state.alarm,
    )
}

fn feeding((level, window, seen, mode, place, slice, first, count): Feeding) {
    let state = State { level, window, seen, mode, place, ..fresh(2).1 };
    let answer = feed(&state, &vec![0; slice], first, count);
    println!(
        "feed level {level} window {window} seen {seen} mode {mode} place {place} \
         slice {slice} first {first} count {count}: {}",
        fed(&answer)
    );
}

fn stretched((level, digits, zeros, few, alarm, fill, first, count): Stretched) {
    let state = State {
        level,
        stretch_digits: digits,
        stretch_zeros: zeros,
        few_before: few,
        alarm,
        ..fresh(2).1
    };
    let answer = feed(&state, &[fill], first, count);
    println!(
        "stretch level {level} digits {digits} zeros {zeros} few {few} alarm {alarm} \
         fill {fill} first {first} count {count}: {}",
        fed(&answer)
    );
}

/// Case 11 in pieces of at most `size` digits: a line to each frame that is ready, with
/// the frame's 106 bytes.
fn case_11(size: u64) {
    let mut line = [0; 106];
    multiplex(2, 0, &mut line, &[32], &[0; 104]);
    let four = line.repeat(4);
    let (mut state, mut first) = (fresh(2).1, 0);
    while first < 3392 {
        let answer = feed(&state, &four, first, size.min(3392 - first));
        first += answer.taken;
        if answer.ready {
            let bytes: String = answer.state.frame[..106].iter().map(|b| format!(" {b}")).collect();
            println!("case 11 pieces {size} digits {first}: {} frame{bytes}", fed(&answer));
        }
        state = answer.state;
    }
}

/// A line's digits from a place on, each the one that its byte has there, the most significant
/// first, until the line has ended, and where that is.
fn read_on((line, from): (usize, u64)) {
    print!("reader line {line} place {from}: digits");
    let bytes = count_up(line);
    let mut place = from;
    while let Some(byte) = bytes.get((place / 8) as usize).filter(|_| line <= 65_536) {
        print!(" {}", (byte >> (7 - place % 8)) & 1);
        place += 1;
    }
    println!(" ended at {place}");
}

/// The capture of case 1 without a label: all its bytes.
fn example() {
    let (mut line, mut file) = ([0; 106], [0; 113]);
    multiplex(2, 0, &mut line, &[32], &[0; 104]);
    let answer = write_capture(2, &line, None, &mut file);
    let bytes: String = file.iter().map(|byte| format!(" {byte}")).collect();
    println!("case 1 kept: refusal {} bytes {}{bytes}", answer.refusal, answer.bytes);
}

fn writing((level, line, label, labelled, file): Writing) {
    let count_up = |length: usize| (0..length).map(|i| (i % 256) as u8).collect::<Vec<_>>();
    let (words, mut bytes) = (count_up(label), vec![BEFORE; file]);
    let given = (labelled != 0).then_some(&words[..]);
    let answer = write_capture(level, &count_up(line), given, &mut bytes);
    println!(
        "write level {level} line {line} label {label} labelled {labelled} file {file}: \
         refusal {} bytes {} byte {} sum {}",
        answer.refusal,
        answer.bytes,
        answer.byte,
        sum(&bytes),
    );
    reading(&format!("back {}", answer.bytes), &bytes[..answer.bytes as usize]);
}

fn small((length, head): (usize, &[u8])) {
    let file: Vec<u8> = head.iter().copied().chain([0; 64]).take(64).collect();
    let bytes: Vec<String> = file[..11].iter().map(u8::to_string).collect();
    reading(&bytes.join(" "), &file[..length]);
}

fn reading(name: &str, file: &[u8]) {
    let read = read_capture(file);
    let labelled = u64::from(read.label.is_some());
    let label = read.label.unwrap_or_default();
    println!(
        "read {name} bytes {}: refusal {} level {} line {} {} labelled {labelled} label {} {} byte {}",
        file.len(),
        read.refusal,
        read.level,
        read.line.start,
        read.line.len(),
        label.start,
        label.len(),
        read.byte,
    );
}

/// All bytes of a multiframe with recognisable content.
fn recognisable() {
    let mut bytes = [0; 512];
    let (refusal, _) = build_multiframe(&mut bytes, &count_up(480), &[213; 15], &count_up(9));
    let bytes: String = bytes.iter().map(|byte| format!(" {byte}")).collect();
    println!("multiframe: refusal {refusal}{bytes}");
}

fn count_up(length: usize) -> Vec<u8> {
    (0..length).map(|i| (i % 256) as u8).collect()
}

fn making((m, n, s, x, signal, at, other): Making) {
    let (mut bytes, mut signalling) = (vec![BEFORE; m], vec![signal; s]);
    if let Some(byte) = signalling.get_mut(at) {
        *byte = other;
    }
    let (refusal, channel) = build_multiframe(&mut bytes, &count_up(n), &signalling, &count_up(x));
    println!(
        "build multiframe {m} channels {n} signalling {s} spare {x} signal {signal} at {at} \
         other {other}: refusal {refusal} channel {channel} sum {}",
        sum(&bytes),
    );
    let (mut channels, mut signalling, mut spare) =
        (vec![BEFORE; n], vec![BEFORE; s], vec![BEFORE; x]);
    let refusal = take_multiframe_apart(&bytes, &mut channels, &mut signalling, &mut spare);
    println!(
        "apart: refusal {refusal} sums {} {} {}",
        sum(&channels),
        sum(&signalling),
        sum(&spare),
    );
}

fn main() {
    SENDINGS.into_iter().for_each(sending);
    VOTINGS.into_iter().for_each(voting);
    RECEIVINGS.into_iter().for_each(receiving);
    FEEDINGS.into_iter().for_each(feeding);
    STRETCHES.into_iter().for_each(stretched);
    [3392, 1, 7, 1000].into_iter().for_each(case_11);
    READINGS.into_iter().for_each(read_on);
    example();
    WRITINGS.into_iter().for_each(writing);
    FILES.into_iter().for_each(small);
    recognisable();
    MAKINGS.into_iter().for_each(making);
    HUNTINGS.into_iter().for_each(hunting);
    [5120, 1, 7, 1000].into_iter().for_each(frames);
}

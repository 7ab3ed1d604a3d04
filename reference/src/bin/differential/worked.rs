//! Cases worked by hand, each refusal at its border, and each pair of faults that tells the order, of calls on lines, captures and multiframes; those
//! on streams are in `worked_streams`. Lists and not chance: every run makes the same calls.
//!
//! How the inputs are made:
//!
//! - what is written holds 165 in every byte beforehand, so that a byte left alone can be told from a byte cleared;
//! - byte i of a multiplex call's buffer is i modulo 256;
//! - a multiplex call's notes are `before` before frame `from`, and `note` from that frame on, and the
//!   vote before frame 0 is 0; where an earlier vote is named, it is that one, and the notes are those named;
//! - the line that a multiplex call leaves is then extracted by the same notes;
//! - every byte of a line whose notes are read is `fill`, and it is then extracted by the notes that
//!   the reading leaves;
//! - byte i of the line and of the label of a capture that is written is i modulo 256;
//! - a file that is read has the bytes given and zeros after them;
//! - byte i of the channels and of the spare digits of a multiframe is i modulo 256, and every byte
//!   of its signalling is `signal` but the one at `at`, which is `other`.

use crate::call::{Call, Lending, Whole, Writing};
use crate::worked_streams;
use crate::Run;

/// What a byte that will be written holds before.
const BEFORE: u8 = 165;
const MAX: u64 = u64::MAX;

/// level, line bytes, notes, before, note, from, buffer bytes
type Sending = (u64, usize, usize, u8, u8, usize, usize);
/// level, earlier vote, line bytes, notes, buffer bytes
type Voting = (u64, u64, usize, [u8; 2], usize);
/// level, line bytes, fill, notes, buffer bytes
type Receiving = (u64, usize, u8, usize, usize);
/// level, line bytes, label bytes, labelled, file bytes
type Kept = (u64, usize, usize, u64, usize);
/// bytes of multiframe, channels, signalling and spare digits; signal, at, other
type Making = (usize, usize, usize, usize, u8, usize, u8);

const SENDINGS: [Sending; 37] = [
    // Case 9, and the other levels at the same borders.
    (2, 6784, 64, 32, 47, 32, 6592),
    (2, 6890, 65, 32, 32, 0, 6696),
    (2, 105, 1, 32, 32, 0, 104),
    (2, 106, 1, 32, 32, 0, 104),
    (2, 106, 1, 32, 32, 0, 100),
    (3, 12288, 64, 32, 37, 1, 12096),
    (3, 12480, 65, 32, 32, 0, 12288),
    (4, 23424, 64, 224, 250, 1, 23136),
    (4, 23790, 65, 224, 224, 0, 23500),
    // Case 10, and the note alone.
    (2, 106, 1, 32, 64, 0, 100),
    (2, 106, 1, 32, 64, 0, 104),
    (3, 960, 5, 32, 128, 3, 960),
    (4, 366, 1, 224, 224, 0, 364),
    // A national digit that is not 1: at levels 2 and 3 there is one, at level 4 there are three.
    (2, 106, 1, 32, 31, 0, 104),
    (3, 960, 5, 32, 0, 3, 960),
    (4, 1098, 3, 224, 223, 2, 1088),
    (4, 1098, 3, 224, 191, 2, 1088),
    (4, 1098, 3, 224, 127, 2, 1088),
    (4, 1098, 3, 224, 16, 1, 1088),
    // A short quarter comes before it, and a bit that the level lacks in any later note too.
    (2, 106, 1, 32, 0, 0, 100),
    (2, 212, 2, 0, 32, 1, 208),
    (2, 212, 2, 0, 64, 1, 208),
    (3, 960, 5, 0, 160, 4, 960),
    // Notes one short and one long, buffers that are no multiple of 4.
    (2, 212, 1, 32, 32, 0, 208),
    (2, 106, 2, 32, 32, 0, 104),
    (2, 106, 1, 32, 32, 0, 103),
    (2, 106, 1, 32, 32, 0, 105),
    // Room is asked for F·n digits even where frames are stuffed.
    (2, 848, 8, 32, 47, 0, 820),
    (2, 848, 8, 32, 47, 0, 824),
    // No frames, and levels that there are not.
    (2, 0, 0, 0, 0, 0, 0),
    (2, 0, 0, 0, 0, 0, 3),
    (258, 0, 0, 0, 0, 0, 0),
    (MAX, 0, 0, 0, 0, 0, 0),
    // The order 1, 2, 3, 4, 5, 10: the first wrong thing, and all later ones wrong as well.
    (5, 105, 2, 0, 64, 1, 103),
    (2, 105, 2, 0, 64, 1, 103),
    (2, 106, 2, 0, 64, 1, 103),
    (2, 212, 2, 0, 64, 1, 207),
];

const VOTINGS: [Voting; 6] = [
    // Each tributary does something else in each frame: plain, plain, stuffed, negative; then
    // negative, plain, stuffed, plain.
    (12, 5, 264, [0x06, 0x0C], 260),
    (14, 5, 544, [0x06, 0x0C], 540),
    // Refused with 5: the earlier vote, naming frame 0, and a note.
    (12, 16, 264, [0x06, 0x0C], 260),
    (14, 16, 544, [0x06, 0x0C], 540),
    (12, 5, 264, [0x06, 0x10], 260),
    (14, 5, 544, [0x06, 0x10], 540),
];

const RECEIVINGS: [Receiving; 10] = [
    (2, 6784, 144, 64, 6592),
    (2, 6890, 0, 65, 6696),
    (2, 105, 0, 1, 104),
    (2, 106, 255, 1, 104),
    (2, 106, 0, 1, 100),
    (4, 732, 19, 2, 728),
    (2, 0, 0, 0, 4),
    // The order 1, 2, 3, 4.
    (5, 105, 0, 2, 103),
    (2, 105, 0, 2, 103),
    (2, 106, 0, 2, 103),
];

const WRITINGS: [Kept; 24] = [
    // Case 1's size without a label: just long enough, a byte short, longer.
    (2, 106, 0, 0, 113),
    (2, 106, 0, 0, 112),
    (2, 106, 0, 0, 300),
    // No frames: no label, a label of no bytes, and one that is not looked at.
    (2, 0, 0, 0, 7),
    (2, 0, 0, 1, 10),
    (2, 0, 33, 0, 7),
    (2, 0, 0, 1, 9),
    // Labels at their border, and any number that says yes.
    (2, 106, 32, 1, 148),
    (2, 106, 32, 1, 147),
    (2, 106, 33, 1, 148),
    (3, 192, 1, 256, 210),
    (3, 192, 5, MAX, 210),
    // The most frames of each level, and one more.
    (2, 6784, 0, 0, 6791),
    (2, 6890, 0, 0, 7000),
    (3, 12288, 2, 1, 12300),
    (3, 12480, 0, 0, 12500),
    (4, 23424, 0, 0, 23431),
    (4, 23790, 0, 0, 24000),
    // Levels that there are not.
    (258, 0, 0, 0, 7),
    (MAX, 0, 0, 0, 7),
    // The order 1, 2, 9, 4: the first wrong thing, and all later ones wrong as well.
    (5, 105, 33, 1, 0),
    (2, 105, 33, 1, 0),
    (2, 106, 33, 1, 0),
    (2, 106, 32, 1, 0),
];

const FILES: [(usize, &[u8]); 24] = [
    // Cut off, or not there at all.
    (0, &[]),
    (3, &[1, 0, 1]),
    (4, &[1, 0, 1, 2]),
    (6, &[1, 0, 1, 2, 2, 0]),
    (7, &[1, 0, 1, 2, 2, 0, 1]),
    (9, &[1, 0, 1, 2, 2, 0, 0, 3, 0]),
    // A wrong tag, a wrong length.
    (7, &[2, 0, 1, 2, 2, 0, 0]),
    (7, &[1, 1, 0, 2, 2, 0, 0]),
    (8, &[1, 0, 2, 2, 2, 2, 0, 0]),
    (7, &[1, 0, 1, 2, 3, 0, 0]),
    (7, &[1, 0, 1, 2, 1, 0, 0]),
    // A label of 32 bytes, of 33, of 0; length bytes the other way round.
    (42, &[1, 0, 1, 2, 2, 0, 0, 3, 0, 32]),
    (43, &[1, 0, 1, 2, 2, 0, 0, 3, 0, 33]),
    (10, &[1, 0, 1, 2, 2, 0, 0, 3, 0, 0]),
    (7, &[1, 0, 1, 2, 2, 0, 0]),
    (10, &[1, 0, 1, 2, 2, 0, 0, 3, 1, 0]),
    // Something after the last field.
    (8, &[1, 0, 1, 2, 2, 0, 0, 0]),
    (10, &[1, 0, 1, 2, 2, 0, 0, 4, 0, 0]),
    (11, &[1, 0, 1, 2, 2, 0, 0, 3, 0, 0, 0]),
    (13, &[1, 0, 1, 2, 2, 0, 0, 3, 0, 0, 3]),
    // The order 9, 1, 2.
    (8, &[1, 0, 1, 9, 2, 0, 0, 0]),
    (8, &[1, 0, 1, 9, 2, 0, 1]),
    (8, &[1, 0, 1, 2, 2, 0, 1]),
    (7, &[1, 0, 1, 0, 2, 0, 0]),
];

const MAKINGS: [Making; 16] = [
    (512, 480, 15, 9, 213, 0, 213),
    (512, 480, 15, 9, 16, 0, 16),
    (512, 480, 15, 9, 213, 0, 15),
    (512, 480, 15, 9, 213, 14, 0),
    (512, 480, 15, 9, 15, 0, 213),
    (512, 480, 15, 9, 213, 7, 15),
    (511, 480, 15, 9, 15, 0, 15),
    (513, 480, 15, 9, 15, 0, 15),
    (512, 479, 15, 9, 15, 0, 15),
    (512, 481, 15, 9, 15, 0, 15),
    (512, 480, 14, 9, 15, 0, 15),
    (512, 480, 16, 9, 15, 0, 15),
    (512, 480, 15, 8, 15, 0, 15),
    (512, 480, 15, 10, 15, 0, 15),
    (0, 0, 0, 0, 0, 0, 0),
    (512, 480, 15, 9, 255, 14, 16),
];

pub fn part(run: &mut Run) {
    SENDINGS.into_iter().for_each(|case| sending(run, case));
    VOTINGS.into_iter().for_each(|case| voting(run, case));
    RECEIVINGS.into_iter().for_each(|case| receiving(run, case));
    worked_streams::part(run);
    example(run);
    WRITINGS.into_iter().for_each(|case| writing(run, case));
    FILES.into_iter().for_each(|case| small(run, case));
    recognisable(run);
    MAKINGS.into_iter().for_each(|case| making(run, case));
}

pub fn count_up(length: usize) -> Vec<u8> {
    (0..length).map(|i| (i % 256) as u8).collect()
}

fn sending(run: &mut Run, (level, line, notes, before, note, from, buffer): Sending) {
    let notes = (0..notes).map(|k| if k < from { before } else { note }).collect();
    there_and_back(run, level, 0, line, notes, buffer);
}

fn voting(run: &mut Run, (level, earlier, line, notes, buffer): Voting) {
    there_and_back(run, level, earlier, line, notes.to_vec(), buffer);
}

fn there_and_back(
    run: &mut Run,
    level: u64,
    earlier: u64,
    line: usize,
    notes: Vec<u8>,
    buffer: usize,
) {
    let (line, quarters) = (vec![BEFORE; line], count_up(buffer));
    let mut with = Lending { level, earlier, line, notes, buffer: quarters };
    let sent = run.compare(&Call::Multiplex(with.clone()));
    with.line.clone_from(&sent.lent[0].1);
    with.buffer.fill(BEFORE);
    run.compare(&Call::Extract(with));
}

fn receiving(run: &mut Run, (level, line, fill, notes, buffer): Receiving) {
    let (line, notes, buffer) = (vec![fill; line], vec![BEFORE; notes], vec![BEFORE; buffer]);
    let mut with = Lending { level, earlier: 0, line, notes, buffer };
    let read = run.compare(&Call::ReadNotes(with.clone()));
    with.notes.clone_from(&read.lent[1].1);
    run.compare(&Call::Extract(with));
}

/// The line of case 1, with the national digit that an accepted send has.
pub fn case_1(run: &mut Run) -> Vec<u8> {
    let (line, notes, buffer) = (vec![0; 106], vec![32], vec![0; 104]);
    let sent = run.compare(&Call::Multiplex(Lending { level: 2, earlier: 0, line, notes, buffer }));
    sent.lent[0].1.clone()
}

/// The capture of case 1 without a label.
fn example(run: &mut Run) {
    let (line, label, file) = (case_1(run), vec![0], vec![0; 113]);
    run.compare(&Call::CaptureWrite(Writing { level: 2, line, label, labelled: 0, file }));
}

fn writing(run: &mut Run, (level, line, label, labelled, file): Kept) {
    let (line, label, file) = (count_up(line), count_up(label), vec![BEFORE; file]);
    let wrote = run.compare(&Call::CaptureWrite(Writing { level, line, label, labelled, file }));
    let bytes = wrote.lent[2].1[..wrote.numbers[0] as usize].to_vec();
    run.compare(&Call::CaptureRead(bytes));
}

fn small(run: &mut Run, (length, head): (usize, &[u8])) {
    let mut file = head.to_vec();
    file.resize(length, 0);
    run.compare(&Call::CaptureRead(file));
}

/// A multiframe with recognisable content, into zeros.
fn recognisable(run: &mut Run) {
    let (multiframe, channels) = (vec![0; 512], count_up(480));
    let (signalling, spare) = (vec![213; 15], count_up(9));
    run.compare(&Call::MultiframeBuild(Whole { multiframe, channels, signalling, spare }));
}

fn making(run: &mut Run, (multiframe, channels, signalling, spare, signal, at, other): Making) {
    let mut with = Whole {
        multiframe: vec![BEFORE; multiframe],
        channels: count_up(channels),
        signalling: vec![signal; signalling],
        spare: count_up(spare),
    };
    if let Some(byte) = with.signalling.get_mut(at) {
        *byte = other;
    }
    let built = run.compare(&Call::MultiframeBuild(with.clone()));
    with.multiframe.clone_from(&built.lent[0].1);
    for list in [&mut with.channels, &mut with.signalling, &mut with.spare] {
        list.fill(BEFORE);
    }
    run.compare(&Call::MultiframeApart(with));
}

//! Cases of compare: captures that differ in each kind of place, in none, in 64 digits and in more, files
//! that do not fit each other, and bad ones, the first before the second.

use std::ops::Range;
use std::slice::from_ref;

use crate::case::{words, Case, OLD};
use crate::inputs::{damaged, level, levels};
use crate::keeping::{capture, frames};
use crate::stream::Stream;
use crate::texts::{cannot, no_capture, written};
use crate::worked;
use reference::compare;
use reference::digits::{pack, unpack};
use reference::frame::{layout, Place};
use reference::history::HandedOver;
use reference::level::Row;
use reference::random::Random;
use reference::MOST_LISTED;

pub fn cases() -> Vec<Case> {
    let mut cases = Vec::new();
    for row in levels() {
        let line = frames(row, 3);
        cases.push(accepted("nothing", row, &line, &line));
        cases.push(accepted("each-kind", row, &line, &turned(row, &line)));
        cases.push(accepted("a-worn-line", row, &line, &damaged(row, &line, 7 + row.level)));
        cases.push(accepted(
            "64-frames",
            row,
            &frames(row, 64),
            &vec![0xF4; 64 * row.frame_bytes()],
        ));
        cases.push(accepted("no-frames", row, &[], &[]));
    }
    for some in [63, 64, 65] {
        let (row, line) = (level(2), frames(level(2), 2));
        let mut other = line.clone();
        (0..some).for_each(|k| turn(&mut other, 20 * k + 9));
        cases.push(accepted(&format!("{some}-digits"), row, &line, &other));
    }
    cases.extend(drawn());
    levels().into_iter().for_each(|row| cases.extend(found(row)));
    cases.extend(refused());
    cases.extend(wrong_files());
    cases
}

fn turn(line: &mut [u8], place: usize) {
    line[place / 8] ^= 0x80 >> (place % 8);
}

/// The line with the first place of each kind of its second frame turned.
fn turned(row: &Row, line: &[u8]) -> Vec<u8> {
    let (mut line, mut seen) = (line.to_vec(), Vec::new());
    for (at, place) in layout(row).into_iter().enumerate() {
        if !seen.contains(&place) {
            seen.push(place);
            turn(&mut line, row.frame_digits + at);
        }
    }
    line
}

fn given(name: &str, row: &Row, one: &[u8], other: &[u8]) -> Case {
    Case::new(&format!("compare-{}-{name}", row.level))
        .file("one", &capture(row, one, Some(b"north")))
        .file("other", &capture(row, other, None))
}

fn accepted(name: &str, row: &Row, one: &[u8], other: &[u8]) -> Case {
    given(name, row, one, other).accepted(words("compare one other"), &text(row, one, other))
}

/// All that is printed.
fn text(row: &Row, one: &[u8], other: &[u8]) -> String {
    let found = compare(&capture(row, one, None), &capture(row, other, None));
    let frames = one.len() / row.frame_bytes();
    head(row, frames, "") + &differing(row, &found.sums, &found.places)
}

/// The level, how many frames were compared, and which.
fn head(row: &Row, frames: usize, which: &str) -> String {
    format!("Level {}, {} kbit/s\nframes compared: {frames}\n{which}", row.level, row.rate)
}

/// The digits that differ: their sums, and the frames and places of the first.
fn differing(row: &Row, sums: &[u64; 15], found: &[(usize, usize)]) -> String {
    let all = found.len();
    let mut text = format!("differing digits: {all}\n");
    if all == 0 {
        return text;
    }
    for (name, sum) in ["alignment word", "remote alarm", "national"].iter().zip(sums) {
        text += &format!("\n  {name:<16}{sum:>6}");
    }
    text += "\n                  control  justification  ordinary\n";
    for (j, of) in sums[3..].chunks(3).enumerate() {
        text += &format!("  tributary {}     {:>7}{:>15}{:>10}\n", j + 1, of[0], of[1], of[2]);
    }
    if all > MOST_LISTED {
        text += &format!("\nThe first {MOST_LISTED}:");
    }
    text += "\n  frame  place  which is\n";
    let places = layout(row);
    for (frame, place) in found.iter().take(MOST_LISTED) {
        text += &format!("{frame:>7}{place:>7}  {}\n", named(places[*place]));
    }
    text
}

fn named(place: Place) -> String {
    match place {
        Place::Word(_) => "alignment word".into(),
        Place::RemoteAlarm => "remote alarm".into(),
        Place::National(_) | Place::Service => "national".into(),
        Place::Control(j) => format!("control, tributary {}", j + 1),
        Place::Negative(j) | Place::Justification(j) => {
            format!("justification, tributary {}", j + 1)
        }
        Place::Tributary(j) => format!("ordinary, tributary {}", j + 1),
    }
}

/// The picture's bytes are left to the program; the text is the same.
fn drawn() -> Vec<Case> {
    let draws = |name: &str, row: &Row, frames_of: usize| {
        let line = frames(row, frames_of);
        let other = if frames_of == 0 {
            vec![]
        } else {
            turned(row, &[line.clone(), line.clone()].concat())[..line.len()].to_vec()
        };
        given(name, row, &line, &other)
            .accepted(
                words("compare one other --svg picture.svg"),
                &(text(row, &line, &other) + &written(&["picture.svg"])),
            )
            .draws("picture.svg")
    };
    vec![
        draws("drawn", level(2), 3),
        draws("drawn-all-frames", level(4), 64),
        draws("drawn-no-frames", level(3), 0),
        draws("drawn-over-an-older-file", level(3), 2).had("picture.svg", OLD),
    ]
}

/// A recording of a line: each frame that is in it with the digits that came, and the digits between.
struct Recorded {
    digits: Vec<u8>,
    /// The digit at which each frame of the line begins in it.
    begins: Vec<Option<usize>>,
}

/// A line of frames, of which two recordings are made.
struct Sent {
    row: &'static Row,
    frames: Vec<Vec<u8>>,
}

impl Sent {
    fn new(row: &'static Row, frames: usize) -> Sent {
        let bytes = Stream::new(row, 300 + row.level).good(frames).bytes();
        let frames =
            bytes.chunks(row.frame_bytes()).map(|one| unpack(one, row.frame_digits)).collect();
        Sent { row, frames }
    }

    /// A recording from this frame on, after so many zeros. The words of the frames in `wrong` came wrong, those in `away` came as
    /// ones, and behind each of both came so many digits more.
    fn recorded(
        &self,
        from: usize,
        zeros: usize,
        wrong: &[Range<usize>],
        away: &[Range<usize>],
        more: usize,
    ) -> Recorded {
        let mut all = Recorded { digits: vec![0; zeros], begins: vec![None; self.frames.len()] };
        let within =
            |ranges: &[Range<usize>], k: usize| ranges.iter().any(|range| range.contains(&k));
        for (k, frame) in self.frames.iter().enumerate().skip(from) {
            all.begins[k] = Some(all.digits.len());
            let mut digits = frame.clone();
            if within(wrong, k) {
                digits[1] ^= 1;
            }
            if within(away, k) {
                digits = vec![1; frame.len()];
            }
            all.digits.extend(digits);
            if wrong.iter().chain(away).any(|range| range.end == k + 1) {
                all.digits.extend(vec![0; more]);
            }
        }
        all
    }

    /// The frames of the line that are handed over of a recording, in order, with the digits that came.
    fn handed_over(&self, of: &Recorded) -> Vec<(usize, Vec<u8>)> {
        let found = worked::find(self.row, &pack(&of.digits));
        let number = |begin: usize| of.begins.iter().position(|one| *one == Some(begin));
        let of_line = |frame: &HandedOver| {
            let begin = frame.after - self.row.frame_digits;
            let digits = of.digits[begin..frame.after].to_vec();
            (number(begin).expect("a frame of the line"), digits)
        };
        found.frames.iter().map(of_line).collect()
    }
}

/// Recordings whose frames are found: begun at two frames, and with gaps in one, in both, at one time and at two, and a gap
/// longer than the search for an offset goes.
fn found(row: &'static Row) -> Vec<Case> {
    let sent = Sent::new(row, 90);
    let whole = |from, zeros| sent.recorded(from, zeros, &[], &[], 0);
    let gap = |from, zeros, first: usize, more| {
        let broken = first..first + 4;
        sent.recorded(from, zeros, from_ref(&broken), &[], more)
    };
    let two = sent.recorded(3, 11, &[20..24, 60..64], &[], 3);
    let mut cases = vec![
        compares(&sent, "one-stretch", &whole(0, 5), &whole(0, 0)),
        compares(&sent, "one-stretch-later", &whole(0, 5), &whole(6, 3)),
        compares(&sent, "one-stretch-earlier", &whole(9, 1), &whole(2, 3)),
        compares(&sent, "gap-in-the-first", &gap(0, 3, 30, 0), &whole(2, 0)),
        compares(&sent, "gap-in-the-second", &whole(0, 7), &gap(2, 0, 30, 0)),
        compares(&sent, "gap-with-a-slip", &whole(0, 7), &gap(2, 0, 30, 5)),
        compares(&sent, "two-gaps-and-one", &two, &gap(0, 2, 40, 0)),
        compares(&sent, "gaps-at-one-time", &gap(1, 0, 50, 1), &gap(4, 9, 50, 0)),
    ];
    // Nothing is the same, and with --check that is not good.
    let noise = Random::new(row.level).bytes(500);
    for (name, one, frames) in
        [("noise", noise.clone(), 0), ("noise-and-a-line", pack(&whole(0, 0).digits), 88)]
    {
        let call = words(&format!("compare -l {} --find --check one other", row.level));
        let which = format!("frames not compared: {frames} of the first file, 0 of the second\n");
        let text = head(row, 0, &which) + &differing(row, &[0; 15], &[]);
        let case = Case::new(&format!("compare-find-{}-{name}", row.level));
        cases.push(case.file("one", &one).file("other", &noise).checked(call, &text));
    }
    if row.level == 2 {
        let long = Sent::new(row, 1300);
        let one = long.recorded(0, 2, &[], &[], 0);
        let away = 40..1240;
        cases.push(compares(
            &long,
            "long-gap",
            &one,
            &long.recorded(3, 0, &[], from_ref(&away), 2),
        ));
        cases.push(compares(
            &long,
            "long-gap-first",
            &long.recorded(3, 0, &[], from_ref(&away), 0),
            &one,
        ));
    }
    cases
}

/// Compares two recordings of one line: a frame of the one is held against what came of it in the other.
fn compares(sent: &Sent, name: &str, one: &Recorded, other: &Recorded) -> Case {
    let row = sent.row;
    let (ones, others) = (sent.handed_over(one), sent.handed_over(other));
    let places = layout(row);
    let (mut sums, mut differ) = ([0; 15], Vec::new());
    // Where each overlap begins in both, its frames, and its differing digits.
    let mut overlaps: Vec<[usize; 4]> = Vec::new();
    for (k, (number, digits)) in ones.iter().enumerate() {
        let Some(l) = others.iter().position(|(other, _)| other == number) else { continue };
        let follows = |last: &&mut [usize; 4]| {
            let [first, first_other, frames, _] = **last;
            // Without a gap in either.
            first + frames == k && first_other + frames == l && ones[k - 1].0 + 1 == *number
        };
        if overlaps.last_mut().filter(follows).is_none() {
            overlaps.push([k, l, 0, 0]);
        }
        let last = overlaps.last_mut().expect("an overlap");
        last[2] += 1;
        for place in (0..row.frame_digits).filter(|&place| digits[place] != others[l].1[place]) {
            last[3] += 1;
            sums[kind(places[place])] += 1;
            differ.push((k, place));
        }
    }
    let frames: usize = overlaps.iter().map(|overlap| overlap[2]).sum();
    let stretches = |of: &Recorded| worked::find(row, &pack(&of.digits)).stretches(row).len();
    let which = if stretches(one) == 1 && stretches(other) == 1 {
        assert_eq!(overlaps.len(), 1);
        match (overlaps[0][0], overlaps[0][1]) {
            (0, 0) => "frame offset: none, frame 0 of one is frame 0 of the other\n".into(),
            (0, frame) => {
                format!("frame offset: frame {frame} of the second file is frame 0 of the other\n")
            }
            (frame, _) => {
                format!("frame offset: frame {frame} of the first file is frame 0 of the other\n")
            }
        }
    } else {
        let line = |[first, other, frames, differ]: &[usize; 4]| {
            format!(
                "frames {first} to {} of the first file are frames {other} to {} of the second, \
                 differing digits: {differ}\n",
                first + frames - 1,
                other + frames - 1
            )
        };
        let left = format!(
            "frames not compared: {} of the first file, {} of the second\n",
            ones.len() - frames,
            others.len() - frames
        );
        overlaps.iter().map(line).collect::<String>() + &left
    };
    Case::new(&format!("compare-find-{}-{name}", row.level))
        .file("one", &pack(&one.digits))
        .file("other", &pack(&other.digits))
        .accepted(
            words(&format!("compare -l {} --find one other", row.level)),
            &(head(row, frames, &which) + &differing(row, &sums, &differ)),
        )
}

/// The number of a place's sum among all.
fn kind(place: Place) -> usize {
    match place {
        Place::Word(_) => 0,
        Place::RemoteAlarm => 1,
        Place::National(_) | Place::Service => 2,
        Place::Control(j) => 3 + 3 * j,
        Place::Negative(j) | Place::Justification(j) => 4 + 3 * j,
        Place::Tributary(j) => 5 + 3 * j,
    }
}

/// Bad captures, the first before the second, and captures that do not fit each other.
fn refused() -> Vec<Case> {
    let row = level(2);
    let good = capture(row, &frames(row, 2), None);
    let mut no_level = good.clone();
    no_level[3] = 9;
    let cut = &good[..100];
    let bad = [
        ("cut", cut.to_vec()),
        ("no-level", no_level),
        ("empty", vec![]),
        ("short-line", {
            let mut file = capture(row, &frames(row, 1), None);
            (file[6], _) = (105, file.pop());
            file
        }),
    ];
    let mut cases = Vec::new();
    for (name, file) in &bad {
        let case = |how: &str, one: &[u8], other: &[u8]| {
            Case::new(&format!("compare-{how}-{name}")).file("one", one).file("other", other)
        };
        let command = || words("compare one other --svg picture.svg");
        cases.extend(
            case("first", file, &good)
                .fails(command(), &no_capture("one", file))
                .twice(&["picture.svg"]),
        );
        cases.push(case("second", &good, file).fails(command(), &no_capture("other", file)));
        cases.push(case("both", file, cut).fails(command(), &no_capture("one", file)));
    }
    let fits = |name: &str, other: Vec<u8>, line: &str| {
        let case = Case::new(&format!("compare-{name}")).file("one", &good).file("other", &other);
        case.fails(words("compare one other --svg picture.svg"), line).twice(&["picture.svg"])
    };
    cases.extend(fits(
        "levels",
        capture(level(3), &frames(level(3), 1), None),
        "refused 1: one is of level 2, that of other: 3; give two captures of one level.",
    ));
    cases.extend(fits(
        "lengths",
        capture(row, &frames(row, 1), None),
        "refused 2: the line of one has this many bytes: 212, that of other: 106; give two captures of as many frames.",
    ));
    cases
}

fn wrong_files() -> Vec<Case> {
    let row = level(2);
    let good = capture(row, &frames(row, 1), None);
    let one = |name: &str| Case::new(name).file("one", &good);
    let both = |name: &str| one(name).file("other", &good);
    let nowhere = words("compare one other --svg none/picture.svg");
    let here = || words("compare one other");
    vec![
        Case::new("compare-no-files").fails(here(), &cannot("one", "opened")),
        one("compare-no-second-file").fails(here(), &cannot("other", "opened")),
        one("compare-second-is-a-folder").folder("other").fails(here(), &cannot("other", "read")),
        both("compare-in-no-folder").fails(nowhere, &cannot("none/picture.svg", "written")),
        both("compare-picture-is-a-folder")
            .folder("picture.svg")
            .fails(words("compare one other --svg picture.svg"), &cannot("picture.svg", "written")),
    ]
}

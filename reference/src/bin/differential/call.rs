//! A call with its inputs, what came of it, and what the reference says of it.

use crate::face::UNWRITTEN;
use reference::{begins, copy_digits, late_multiplex, multiframe_start};
use reference::{build_multiframe, take_multiframe_apart};
use reference::{compare, compare_lines, compare_stretch, Differences, MOST_LISTED};
use reference::{extract, feed, fresh, line_digit, multiplex, read_notes, Counted, State};
use reference::{finder_feed, FinderState};
use reference::{judge, Judged};
use reference::{read_capture, repair, swap, write_capture};

/// What a multiplex or extract call is lent; reading notes is lent all but the buffer.
#[derive(Clone)]
pub struct Lending {
    pub level: u64,
    /// The vote before frame 0; reading notes takes none.
    pub earlier: u64,
    pub line: Vec<u8>,
    pub notes: Vec<u8>,
    pub buffer: Vec<u8>,
}

/// What repairing is lent.
#[derive(Clone)]
pub struct Worn {
    pub level: u64,
    pub earlier: u64,
    /// The switch for national digits: 0 is off.
    pub national: u64,
    pub line: Vec<u8>,
}

/// What judging is lent.
#[derive(Clone)]
pub struct Trace {
    pub level: u64,
    pub earlier: u64,
    pub line: Vec<u8>,
    pub pattern: u64,
    pub buffer: Vec<u8>,
}

#[derive(Clone)]
pub struct Piece {
    pub state: State,
    pub slice: Vec<u8>,
    pub first: u64,
    pub count: u64,
}

/// A piece for the finder of 2048 kbit/s frames.
#[derive(Clone)]
pub struct Hunt {
    pub state: FinderState,
    pub slice: Vec<u8>,
    pub first: u64,
    pub count: u64,
}

/// What a writer of captures is lent. The number says whether there is a label.
#[derive(Clone)]
pub struct Writing {
    pub level: u64,
    pub line: Vec<u8>,
    pub label: Vec<u8>,
    pub labelled: u64,
    pub file: Vec<u8>,
}

/// What a copy of digits is lent.
#[derive(Clone)]
pub struct Copying {
    pub to: Vec<u8>,
    pub at: u64,
    pub from: Vec<u8>,
    pub first: u64,
    pub count: u64,
}

/// What a search for a recording's beginning is lent.
#[derive(Clone)]
pub struct Search {
    pub read: Vec<u8>,
    pub digits: u64,
    pub sent: Vec<u8>,
    pub first: u64,
    pub count: u64,
}

/// What a call on a multiframe is lent.
#[derive(Clone)]
pub struct Whole {
    pub multiframe: Vec<u8>,
    pub channels: Vec<u8>,
    pub signalling: Vec<u8>,
    pub spare: Vec<u8>,
}

/// What a comparison of two lines is lent; a stretch has its first place and how many.
#[derive(Clone)]
pub struct Pair {
    pub level: u64,
    pub one: Vec<u8>,
    pub other: Vec<u8>,
}

pub enum Call {
    Multiplex(Lending),
    ReadNotes(Lending),
    Fresh(u64),
    Feed(Box<Piece>),
    LineDigit(Vec<u8>, u64),
    CaptureWrite(Writing),
    CaptureRead(Vec<u8>),
    MultiframeBuild(Whole),
    MultiframeApart(Whole),
    FinderFresh,
    FinderFeed(Hunt),
    Extract(Lending),
    Compare(Vec<u8>, Vec<u8>),
    /// What is lent, and the tributary's number. The buffer is one tributary's.
    Swap(Lending, u64),
    Repair(Worn),
    Judge(Trace),
    Copy(Copying),
    CompareLines(Pair),
    CompareStretch(Pair, u64, u64),
    LateMultiplex(Lending),
    Begins(Search),
    MultiframeStart(Vec<u8>),
}

/// The names of the calls, in the order of their numbers.
pub const NAMES: [&str; 30] = [
    "multiplex",
    "read_notes",
    "receiver_fresh",
    "receiver_feed",
    "line_digit",
    "capture_write",
    "capture_read",
    "multiframe_build",
    "multiframe_apart",
    "finder_fresh",
    "finder_feed",
    "extract",
    "compare",
    "rack_feed",
    "rack_reset",
    "rack_aligned",
    "swap",
    "repair",
    "judge",
    "copy_digits",
    "compare_lines",
    "compare_stretch",
    "place",
    "multiframe_place",
    "version",
    "late_multiplex",
    "begins",
    "multiframe_start",
    "verdict_fresh",
    "verdict_feed",
];

/// All that a call answers and leaves: two outcomes are equal or there is a disagreement.
#[derive(Clone, PartialEq)]
pub struct Outcome {
    /// The number returned.
    pub returned: u64,
    /// The answer and then the state, as arrays of numbers.
    pub numbers: Vec<u64>,
    /// Each lent slice after the call, also those that the call may only read.
    pub lent: Vec<(&'static str, Vec<u8>)>,
    /// Where something was written beside what was lent.
    pub outside: Vec<&'static str>,
}

impl Call {
    /// The call's number: its place among the names.
    pub fn name(&self) -> &'static str {
        match self {
            Call::Multiplex(_) => "multiplex",
            Call::ReadNotes(_) => "read_notes",
            Call::Fresh(_) => "receiver_fresh",
            Call::Feed(_) => "receiver_feed",
            Call::LineDigit(..) => "line_digit",
            Call::CaptureWrite(_) => "capture_write",
            Call::CaptureRead(_) => "capture_read",
            Call::MultiframeBuild(_) => "multiframe_build",
            Call::MultiframeApart(_) => "multiframe_apart",
            Call::FinderFresh => "finder_fresh",
            Call::FinderFeed(_) => "finder_feed",
            Call::Extract(_) => "extract",
            Call::Compare(..) => "compare",
            Call::Swap(..) => "swap",
            Call::Repair(_) => "repair",
            Call::Judge(_) => "judge",
            Call::Copy(_) => "copy_digits",
            Call::CompareLines(_) => "compare_lines",
            Call::CompareStretch(..) => "compare_stretch",
            Call::LateMultiplex(_) => "late_multiplex",
            Call::Begins(_) => "begins",
            Call::MultiframeStart(_) => "multiframe_start",
        }
    }

    /// What the outcome's numbers are.
    pub fn legend(&self) -> &'static str {
        match self {
            Call::Multiplex(_) => "four counts, frame",
            Call::ReadNotes(_) => "alignment, dissent of four",
            Call::Extract(_) => "four counts, frame",
            Call::Fresh(_) => "level, window, seen, mode, place, digits, zeros, few before, alarm",
            Call::Feed(_) => {
                "taken, ready, alarm, words; level, window, seen, mode, place, digits, zeros, few before, alarm"
            },
            Call::LineDigit(..) => "none",
            Call::CaptureWrite(_) => "bytes, named byte",
            Call::CaptureRead(_) => {
                "level, line, its bytes, labelled, label, its bytes, named byte"
            }
            Call::MultiframeBuild(_) => "named channel",
            Call::MultiframeApart(_) => "none",
            Call::FinderFresh => "window, seen, mode, place",
            Call::FinderFeed(_) => "taken, aligned; window, seen, mode, place",
            Call::Swap(..) => "digits taken",
            Call::Repair(_) => "changed: word, control of four, stuffing of four, national",
            Call::Judge(_) => "of each: fits, wrong by own, before and after, changes",
            Call::Copy(_) => "none",
            Call::LateMultiplex(_) => "four counts, frame",
            Call::Begins(_) => "number, differing",
            Call::MultiframeStart(_) => "frame",
            Call::Compare(..) => "file, byte, fifteen sums, all, listed; frame and place of each",
            Call::CompareLines(_) => "fifteen sums, all, listed; frame and place of each",
            Call::CompareStretch(..) => "fifteen sums, all",
        }
    }

    pub fn short(&self) -> String {
        match self {
            Call::Multiplex(with) | Call::ReadNotes(with) | Call::Extract(with) => with.short(),
            Call::LateMultiplex(with) => with.short(),
            Call::Begins(search) => format!(
                "read {}; digits {}; sent {}; first {} count {}",
                in_short(&search.read),
                search.digits,
                in_short(&search.sent),
                search.first,
                search.count
            ),
            Call::MultiframeStart(frames) => format!("frames {}", in_short(frames)),
            Call::Swap(with, tributary) => format!("tributary {tributary}; {}", with.short()),
            Call::Repair(worn) => format!(
                "level {}; earlier {}; national {}; line {}",
                worn.level,
                worn.earlier,
                worn.national,
                in_short(&worn.line)
            ),
            Call::Judge(trace) => format!(
                "level {}; earlier {}; line {}; pattern {}; buffer {}",
                trace.level,
                trace.earlier,
                in_short(&trace.line),
                trace.pattern,
                in_short(&trace.buffer)
            ),
            Call::Copy(with) => format!(
                "to {}; at {}; from {}; first {} count {}",
                in_short(&with.to),
                with.at,
                in_short(&with.from),
                with.first,
                with.count
            ),
            Call::Fresh(level) => format!("level {level}"),
            Call::Feed(piece) => format!(
                "state {:?}; frame store {}; slice {}; first {} count {}",
                state_numbers(&piece.state),
                in_short(&piece.state.frame),
                in_short(&piece.slice),
                piece.first,
                piece.count
            ),
            Call::LineDigit(line, place) => format!("line {}; place {place}", in_short(line)),
            Call::CaptureWrite(with) => format!(
                "level {}; line {}; label {}; labelled {}; file {}",
                with.level,
                in_short(&with.line),
                in_short(&with.label),
                with.labelled,
                in_short(&with.file)
            ),
            Call::CaptureRead(file) => format!("file {}", in_short(file)),
            Call::MultiframeBuild(with) | Call::MultiframeApart(with) => format!(
                "multiframe {}; channels {}; signalling {}; spare {}",
                in_short(&with.multiframe),
                in_short(&with.channels),
                in_short(&with.signalling),
                in_short(&with.spare)
            ),
            Call::FinderFresh => String::new(),
            Call::FinderFeed(hunt) => format!(
                "state {:?}; slice {}; first {} count {}",
                finder_numbers(&hunt.state),
                in_short(&hunt.slice),
                hunt.first,
                hunt.count
            ),
            Call::Compare(one, other) => {
                format!("one {}; other {}", in_short(one), in_short(other))
            }
            Call::CompareLines(pair) => pair.short(),
            Call::CompareStretch(pair, first, count) => {
                format!("{}; first {first} count {count}", pair.short())
            }
        }
    }

    pub fn by_reference(&self) -> Outcome {
        match self {
            Call::Multiplex(with) => multiplexed(with.clone()),
            Call::ReadNotes(with) => noted(with.clone()),
            Call::Fresh(level) => {
                let (refusal, state) = fresh(*level);
                let lent = vec![("frame store", state.frame.to_vec())];
                outcome(refusal, state_numbers(&state).to_vec(), lent)
            }
            Call::Feed(piece) => fed(piece),
            Call::LineDigit(line, place) => {
                outcome(line_digit(line, *place), vec![], vec![("line", line.clone())])
            }
            Call::CaptureWrite(with) => written(with.clone()),
            Call::CaptureRead(file) => {
                let (refusal, numbers) = read_numbers(file);
                outcome(refusal, numbers.to_vec(), vec![("file", file.clone())])
            }
            Call::MultiframeBuild(with) => built(with.clone()),
            Call::MultiframeApart(with) => taken_apart(with.clone()),
            Call::FinderFresh => {
                outcome(0, finder_numbers(&FinderState::default()).to_vec(), vec![])
            }
            Call::FinderFeed(hunt) => hunted(hunt),
            Call::Extract(with) => extracted(with.clone()),
            Call::Swap(with, tributary) => swapped(with.clone(), *tributary),
            Call::Repair(worn) => repaired(worn.clone()),
            Call::Judge(trace) => judged(trace.clone()),
            Call::Copy(with) => copied(with.clone()),
            Call::LateMultiplex(with) => late(with.clone()),
            Call::Begins(search) => {
                let Search { read, digits, sent, first, count } = search;
                let [refusal, numbers @ ..] = begins(read, *digits, sent, *first, *count);
                let lent = vec![("read", read.clone()), ("sent", sent.clone())];
                outcome(refusal, numbers.to_vec(), lent)
            }
            Call::MultiframeStart(frames) => {
                let [refusal, frame] = multiframe_start(frames);
                outcome(refusal, vec![frame], vec![("frames", frames.clone())])
            }
            Call::Compare(one, other) => {
                let (refusal, numbers) = compared_numbers(&compare(one, other));
                outcome(refusal, numbers, vec![("one", one.clone()), ("other", other.clone())])
            }
            Call::CompareLines(pair) => {
                let found = compare_lines(pair.level, &pair.one, &pair.other);
                let (refusal, numbers) = compared_numbers(&found);
                outcome(refusal, numbers[2..].to_vec(), pair.lines())
            }
            Call::CompareStretch(pair, first, count) => {
                let found = compare_stretch(pair.level, &pair.one, &pair.other, *first, *count);
                let (refusal, numbers) = compared_numbers(&found);
                outcome(refusal, numbers[2..18].to_vec(), pair.lines())
            }
        }
    }
}

impl Worn {
    /// The level, the earlier vote and the line of a call that is lent more, and the switch.
    pub fn of(with: Lending, national: u64) -> Worn {
        Worn { level: with.level, earlier: with.earlier, national, line: with.line }
    }
}

impl Pair {
    fn short(&self) -> String {
        let (one, other) = (in_short(&self.one), in_short(&self.other));
        format!("level {}; one {one}; other {other}", self.level)
    }

    fn lines(&self) -> Vec<(&'static str, Vec<u8>)> {
        vec![("one", self.one.clone()), ("other", self.other.clone())]
    }
}

impl Lending {
    fn short(&self) -> String {
        format!(
            "level {}; earlier {}; line {}; notes {}; buffer {}",
            self.level,
            self.earlier,
            in_short(&self.line),
            in_short(&self.notes),
            in_short(&self.buffer)
        )
    }
}

pub fn state_numbers(state: &State) -> [u64; 9] {
    let stretch = [state.stretch_digits, state.stretch_zeros, state.few_before, state.alarm];
    let [digits, zeros, few, alarm] = stretch;
    [state.level, state.window, state.seen, state.mode, state.place, digits, zeros, few, alarm]
}

fn outcome(returned: u64, numbers: Vec<u64>, lent: Vec<(&'static str, Vec<u8>)>) -> Outcome {
    Outcome { returned, numbers, lent, outside: vec![] }
}

fn multiplexed(mut with: Lending) -> Outcome {
    let answer = multiplex(with.level, with.earlier, &mut with.line, &with.notes, &with.buffer);
    outcome(answer.refusal, counted_numbers(&answer), slices(with))
}

fn extracted(mut with: Lending) -> Outcome {
    let answer = extract(with.level, with.earlier, &with.line, &with.notes, &mut with.buffer);
    outcome(answer.refusal, counted_numbers(&answer), slices(with))
}

fn swapped(mut with: Lending, tributary: u64) -> Outcome {
    let (level, earlier) = (with.level, with.earlier);
    let answer = swap(level, earlier, tributary, &mut with.line, &with.notes, &with.buffer);
    outcome(answer.refusal, vec![answer.taken], slices(with))
}

fn repaired(mut worn: Worn) -> Outcome {
    let answer = repair(worn.level, worn.earlier, worn.national, &mut worn.line);
    let numbers =
        [&[answer.word], &answer.control[..], &answer.stuffing, &[answer.national]].concat();
    outcome(answer.refusal, numbers, vec![("line", worn.line)])
}

fn late(mut with: Lending) -> Outcome {
    let (level, earlier) = (with.level, with.earlier);
    let answer = late_multiplex(level, earlier, &mut with.line, &with.notes, &with.buffer);
    outcome(answer.refusal, counted_numbers(&answer), slices(with))
}

fn copied(mut with: Copying) -> Outcome {
    let refusal = copy_digits(&mut with.to, with.at, &with.from, with.first, with.count);
    outcome(refusal, vec![], vec![("to", with.to), ("from", with.from)])
}

fn judged(trace: Trace) -> Outcome {
    let answer = judge(trace.level, trace.earlier, &trace.line, trace.pattern, &trace.buffer);
    let lent = vec![("line", trace.line), ("buffer", trace.buffer)];
    outcome(answer.refusal, judged_numbers(&answer), lent)
}

pub fn judged_numbers(answer: &Judged) -> Vec<u64> {
    let five = |j: usize| {
        let of = &answer.of[j];
        [of.fits, of.wrong[0], of.wrong[1], of.wrong[2], of.changes]
    };
    [five(0), five(1), five(2), five(3)].concat()
}

pub fn counted_numbers(answer: &Counted) -> Vec<u64> {
    [&answer.counts[..], &[answer.frame]].concat()
}

fn noted(mut with: Lending) -> Outcome {
    let answer = read_notes(with.level, &with.line, &mut with.notes);
    let numbers = [&[answer.alignment], &answer.dissent[..]].concat();
    outcome(answer.refusal, numbers, vec![("line", with.line), ("notes", with.notes)])
}

fn slices(with: Lending) -> Vec<(&'static str, Vec<u8>)> {
    vec![("line", with.line), ("notes", with.notes), ("buffer", with.buffer)]
}

fn fed(piece: &Piece) -> Outcome {
    let answer = feed(&piece.state, &piece.slice, piece.first, piece.count);
    let (ready, alarm) = (u64::from(answer.ready), u64::from(answer.alarm));
    let numbers = [answer.taken, ready, alarm, answer.words];
    let numbers = [&numbers[..], &state_numbers(&answer.state)].concat();
    let lent = vec![("frame store", answer.state.frame.to_vec()), ("slice", piece.slice.clone())];
    outcome(answer.refusal, numbers, lent)
}

pub fn finder_numbers(state: &FinderState) -> [u64; 4] {
    [state.window, state.seen, state.mode, state.place]
}

fn hunted(hunt: &Hunt) -> Outcome {
    let answer = finder_feed(&hunt.state, &hunt.slice, hunt.first, hunt.count);
    let numbers = [answer.taken, u64::from(answer.aligned)];
    let numbers = [&numbers[..], &finder_numbers(&answer.state)].concat();
    outcome(answer.refusal, numbers, vec![("slice", hunt.slice.clone())])
}

fn written(mut with: Writing) -> Outcome {
    let label = (with.labelled != 0).then_some(&with.label[..]);
    let answer = write_capture(with.level, &with.line, label, &mut with.file);
    let lent = vec![("line", with.line), ("label", with.label), ("file", with.file)];
    outcome(answer.refusal, vec![answer.bytes, answer.byte], lent)
}

fn built(mut with: Whole) -> Outcome {
    let (refusal, channel) =
        build_multiframe(&mut with.multiframe, &with.channels, &with.signalling, &with.spare);
    outcome(refusal, vec![channel], parts(with))
}

fn taken_apart(mut with: Whole) -> Outcome {
    let refusal = take_multiframe_apart(
        &with.multiframe,
        &mut with.channels,
        &mut with.signalling,
        &mut with.spare,
    );
    outcome(refusal, vec![], parts(with))
}

fn parts(with: Whole) -> Vec<(&'static str, Vec<u8>)> {
    vec![
        ("multiframe", with.multiframe),
        ("channels", with.channels),
        ("signalling", with.signalling),
        ("spare", with.spare),
    ]
}

/// What the reference reads, in the face's order.
pub fn read_numbers(file: &[u8]) -> (u64, [u64; 7]) {
    let read = read_capture(file);
    let labelled = u64::from(read.label.is_some());
    let label = read.label.unwrap_or_default();
    let wide = |number: usize| number as u64;
    let line = [wide(read.line.start), wide(read.line.len())];
    let label = [wide(label.start), wide(label.len())];
    (read.refusal, [read.level, line[0], line[1], labelled, label[0], label[1], read.byte])
}

/// What the reference finds, in the face's order: the answer, then the list with its zeros, which a
/// refusal leaves unwritten.
pub fn compared_numbers(found: &Differences) -> (u64, Vec<u64>) {
    let all = found.places.len();
    let listed = all.min(MOST_LISTED);
    let mut numbers = vec![found.file, found.byte];
    numbers.extend(found.sums);
    numbers.extend([all as u64, listed as u64]);
    for (frame, place) in &found.places[..listed] {
        numbers.extend([*frame as u64, *place as u64]);
    }
    let after = if found.refusal == 0 { 0 } else { UNWRITTEN };
    numbers.resize(19 + 2 * MOST_LISTED, after);
    (found.refusal, numbers)
}

/// A slice in a few words: its length and its first bytes.
fn in_short(bytes: &[u8]) -> String {
    let first: String = bytes.iter().take(16).map(|byte| format!("{byte:02x} ")).collect();
    let more = if bytes.len() > 16 { ".." } else { "" };
    format!("{} bytes [{}{more}]", bytes.len(), first.trim_end())
}

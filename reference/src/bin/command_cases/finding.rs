//! Cases of find.

use crate::case::{in_turn, words, Case, OLD};
use crate::inputs::{level, levels, room};
use crate::stream::Stream;
use crate::texts::{self, cannot, no_level, written};
use crate::worked::{self, Event, Found, NONE_BEFORE};
use reference::level::Row;
use reference::random::Random;

const OUTPUTS: [&str; 3] = ["back.line", "back.notes", "back.tributaries"];

pub fn cases() -> Vec<Case> {
    let mut cases = Vec::new();
    levels().into_iter().for_each(|row| cases.extend(long_way(row)));
    levels().into_iter().for_each(|row| cases.extend(half_words(row)));
    [level(2), level(4)].into_iter().for_each(|row| cases.extend(ends(row)));
    levels().into_iter().for_each(|row| cases.extend(alarms(row)));
    cases.extend(nothing());
    cases.extend(long());
    cases.extend(in_turn(wrong_levels(), &OUTPUTS));
    cases.extend(wrong_inputs());
    cases.extend(wrong_outputs());
    cases
}

/// A recording, what is found in it, what find prints, and the files that it makes.
pub struct Finding {
    row: &'static Row,
    stream: Vec<u8>,
    pub found: Found,
    pub text: String,
    pub notes: Vec<u8>,
    pub tributaries: Vec<u8>,
}

impl Finding {
    pub fn of(row: &'static Row, stream: Vec<u8>) -> Finding {
        let found = worked::find(row, &stream);
        let taken = worked::take_found(row, NONE_BEFORE, &found);
        let text = texts::found(row, stream.len(), &found, &taken);
        let most = 8 * stream.len() / row.frame_digits;
        let tributaries = worked::quarters(&taken.tributaries, room(row, most));
        Finding { row, stream, found, text, notes: taken.notes, tributaries }
    }

    /// The recording must be what the case is made for.
    fn with_events(self, events: &[Event]) -> Finding {
        assert_eq!(
            self.found.events, events,
            "alignment is found or lost, or the alarm begins or ends, elsewhere"
        );
        self
    }

    /// The same for the frames handed over and the last mode.
    fn with_counts(self, frames: usize, mode: u64) -> Finding {
        let found = &self.found;
        let counts = (found.frames.len(), found.mode);
        assert_eq!(counts, (frames, mode), "other frames are handed over");
        self
    }

    /// The case without the files.
    fn prints(&self, name: &str) -> Case {
        let command = words(&format!("find -l {} stream", self.row.level));
        Case::new(&format!("find-{}-{name}", self.row.level))
            .file("stream", &self.stream)
            .accepted(command, &(self.text.clone() + &self.unknown_votes()))
    }

    /// What is said where files are written too.
    pub fn text_and_stretches(&self) -> String {
        self.text.clone() + &texts::stretches(self.row, &self.found) + &self.unknown_votes()
    }

    fn unknown_votes(&self) -> String {
        texts::unknown_votes(self.row, &self.found, false)
    }

    /// The same frames found by the other commands that read them, and after a vote that is given.
    fn read_otherwise(&self, name: &str, vote: Option<u8>) -> Vec<Case> {
        let (row, found) = (self.row, &self.found);
        let earlier = vote.unwrap_or(NONE_BEFORE);
        let option = vote.map_or(String::new(), |vote| format!(" --earlier {vote}"));
        let after = vote.map_or(String::new(), |vote| format!("-after-{vote}"));
        let case = |command: &str| {
            let name = format!("{command}-find-{}-{name}{after}", row.level);
            Case::new(&name).file("stream", &self.stream)
        };
        let call = |command: &str, outputs: &str| {
            words(&format!("{command} -l {}{option} stream {outputs}", row.level))
        };
        let taken = worked::take_found(row, earlier, found);
        let unknown = texts::unknown_votes(row, found, vote.is_some());
        let head = texts::stretches(row, found) + &unknown;
        let outputs = ["back.notes", "back.tributaries"];
        let take = head.clone() + &texts::taken(row, &taken) + &written(&outputs);
        let quarters = worked::quarters(&taken.tributaries, room(row, taken.notes.len()));
        let noted = head + &texts::noted_found(row, earlier, found);
        let text = texts::found(row, self.stream.len(), found, &taken) + &unknown;
        vec![
            case("take")
                .accepted(call("take --find", &outputs.join(" ")), &take)
                .makes(outputs[0], &taken.notes)
                .makes(outputs[1], &quarters),
            case("notes").accepted(call("notes --find", ""), &noted),
            case("find").accepted(call("find", ""), &text),
        ]
    }

    /// The case with the files.
    fn writes(&self, name: &str) -> Case {
        let command = words(&format!("find -l {} stream --out back", self.row.level));
        Case::new(&format!("find-{}-{name}-files", self.row.level))
            .file("stream", &self.stream)
            .accepted(command, &(self.text_and_stretches() + &written(&OUTPUTS)))
            .makes("back.line", &self.found.line(self.row))
            .makes("back.notes", &self.notes)
            .makes("back.tributaries", &self.tributaries)
    }
}

/// All that can happen: found after digits that are no frames, three wrong words that lose
/// nothing, four that do, found again, frames of ones, and an end inside a frame.
fn long_way(row: &'static Row) -> Vec<Case> {
    let n = row.frame_digits;
    let stream = Stream::new(row, row.level).junk(1237).good(70).wrong(3).good(5).wrong(4);
    let stream = stream.good(14).ones_after_word().good(2).ones(2 * n);
    let (stream, mode) = match row.level {
        3 => (stream.wrong(1).short_by(n / 2), 6),
        4 => (stream.good(1).short_by(n - 7), 5),
        _ => (stream.good(1).short_by(n / 2), 3),
    };
    let finding = Finding::of(row, stream.bytes());
    let found = &finding.found;
    let lost = Event::Lost(1237 + 81 * n);
    assert!(found.alignment().len() == 3 && found.alignment()[1] == lost);
    assert_eq!(found.mode, mode);
    let files = finding.writes("long-way");
    let files = if row.level == 3 {
        files.had("back.notes", OLD).had("back.tributaries", OLD)
    } else {
        files
    };
    let mut cases = vec![finding.prints("long-way"), files];
    for vote in [None, Some(0), Some(6), Some(15)] {
        cases.extend(finding.read_otherwise("long-way", vote));
    }
    if row.negative_places {
        // The vote before the gap is no vote before the second stretch.
        let through = worked::take(row, &found.line(row)).tributaries;
        assert!(
            found.stretches(row).len() == 2
                && through != worked::take_found(row, NONE_BEFORE, found).tributaries
        );
    }
    cases
}

/// A check that fails in the middle of a word must not lose that word: after one good word
/// too early, and after three digits too many in a run of frames.
fn half_words(row: &'static Row) -> Vec<Case> {
    let (n, length) = (row.frame_digits, row.word_length());
    let early = Stream::new(row, 5).zeros(384).word().zeros(n - 5).good(4);
    let first = 384 + length + n - 5;
    let early = Finding::of(row, early.bytes()).with_events(&[Event::Found(first + 2 * n)]);
    let slip = Stream::new(row, 6).zeros(21).good(5).zeros(3).good(8);
    let (found, again) = (Event::Found(21 + 2 * n), Event::Found(24 + 10 * n));
    let lost = Event::Lost(21 + 8 * n);
    let slip = Finding::of(row, slip.bytes()).with_events(&[found, lost, again]);
    vec![early.prints("early-word"), slip.prints("slip")]
}

/// Recordings that end at a border: whole words and whole frames, or a byte less.
fn ends(row: &'static Row) -> Vec<Case> {
    let stream = || Stream::new(row, 11).zeros(8 - row.word_length() % 8);
    let find = |bytes: &[u8]| Finding::of(row, bytes.to_vec());
    let third = stream().good(2).word().bytes();
    let frame = Stream::new(row, 12).zeros(16).good(3).bytes();
    let missed = Stream::new(row, 13).good(4).wrong(1).bytes();
    let (word_cut, frame_cut) = (&third[..third.len() - 1], &frame[..frame.len() - 1]);
    vec![
        find(&third).with_counts(0, 3).writes("ends-after-third-word"),
        find(word_cut).with_counts(0, 2).prints("ends-in-third-word"),
        find(&stream().word().bytes()).with_counts(0, 1).prints("ends-after-first-word"),
        find(&frame).with_counts(1, 3).writes("ends-after-first-frame"),
        find(frame_cut).with_counts(0, 3).writes("ends-in-first-frame"),
        find(&missed).with_counts(3, 4).prints("ends-with-a-missed-word"),
    ]
}

/// The alarm: framed ones raise none, ones do, and so few zeros are no matter; a stretch with one
/// zero too many does not count, and frames end it.
fn alarms(row: &'static Row) -> Vec<Case> {
    let (n, few) = (row.frame_digits, row.few_zeros);
    let framed = Stream::new(row, 20).ones_after_word().ones_after_word().ones_after_word();
    let framed = Finding::of(row, framed.ones_after_word().bytes());
    let framed = framed.with_events(&[Event::Found(2 * n)]).with_counts(2, 3);
    let stream = Stream::new(row, 21).good(3).zeros(few + 1).ones(3 * n - few - 1).good(5);
    let long = Finding::of(row, stream.bytes());
    let (begins, ends) = (Event::AlarmBegins(6 * n - 1), Event::AlarmEnds(8 * n - 1));
    assert!(long.found.events.contains(&begins) && long.found.events.contains(&ends));
    let at_limit = |zeros| {
        let stream = Stream::new(row, 22).zeros(few).ones(n - few).zeros(zeros).ones(2 * n - zeros);
        Finding::of(row, stream.bytes())
    };
    let limit = at_limit(few).with_events(&[Event::AlarmBegins(2 * n - 1)]);
    let over = at_limit(few + 1).with_events(&[]);
    vec![
        framed.prints("framed-ones"),
        long.writes("alarm"),
        limit.prints("alarm-at-the-limit"),
        over.prints("no-alarm-over-the-limit"),
    ]
}

/// Recordings in which alignment is not found.
fn nothing() -> Vec<Case> {
    let find = |number, bytes| Finding::of(level(number), bytes).with_events(&[]);
    let ones = Event::AlarmBegins(2 * level(4).frame_digits - 1);
    vec![
        find(2, vec![]).prints("empty"),
        find(3, vec![]).writes("empty"),
        find(4, Random::new(14).bytes(2500)).writes("random"),
        find(3, vec![0; 1000]).prints("zeros"),
        Finding::of(level(4), vec![0xFF; 1000]).with_events(&[ones]).prints("ones"),
        find(2, Stream::new(level(3), 15).good(20).bytes()).writes("frames-of-level-3"),
    ]
}

/// Recordings longer than 65,536 bytes: a frame handed over, and a third good word, that
/// stand across that border. And case 11 of those worked by hand.
fn long() -> Vec<Case> {
    let row = level(2);
    let n = row.frame_digits;
    let border = 8 * 65_536;
    let frames = Stream::new(row, 16).junk(1237).good(630).wrong(4).good(60).bytes();
    let frames = Finding::of(row, frames);
    let across = |after: usize| after - n < border && border < after;
    assert!(frames.found.frames.iter().any(|frame| across(frame.after)));
    assert_eq!(frames.found.alignment().len(), 3);
    let late = Stream::new(row, 17).zeros(border - 5 - 2 * n).good(4).bytes();
    let late = Finding::of(row, late).with_events(&[Event::Found(border - 5)]);
    let by_hand = worked::send(row, &[0x20], &[0; 104]).line.repeat(4);
    let by_hand = Finding::of(row, by_hand).with_counts(2, 3);
    vec![frames.writes("long"), late.prints("late"), by_hand.writes("worked-by-hand")]
}

fn wrong_levels() -> Vec<Case> {
    let frames = Stream::new(level(2), 18).good(4).bytes();
    let mut cases = Vec::new();
    // The first word twice: without and with older files where the outputs go.
    for word in ["5", "5", "8449"] {
        let command = words(&format!("find -l {word} stream --out back"));
        let case = Case::new(&format!("find-no-level-{word}")).file("stream", &frames);
        cases.push(case.fails(command, &no_level(word)));
    }
    let command = words("find -l 6 stream --out none/back");
    cases.push(Case::new("find-no-level-no-file").fails(command, &no_level("6")));
    cases
}

fn wrong_inputs() -> Vec<Case> {
    let command = || words("find -l 2 stream --out back");
    let folder = Case::new("find-stream-is-a-folder").folder("stream");
    let missing = cannot("stream", "opened");
    let mut cases = Case::new("find-no-stream").fails(command(), &missing).twice(&OUTPUTS);
    cases.extend(folder.fails(command(), &cannot("stream", "read")).twice(&OUTPUTS));
    cases.push(Case::new("find-no-stream-no-files").fails(words("find -l 2 stream"), &missing));
    cases
}

/// No output is touched if one of the three cannot be written.
fn wrong_outputs() -> Vec<Case> {
    let frames = Stream::new(level(2), 19).good(5).bytes();
    let given = |name| Case::new(name).file("stream", &frames);
    let is_a_folder = |name, path, others: [&str; 2]| {
        let case = given(name).folder(path);
        case.fails(words("find -l 2 stream --out back"), &cannot(path, "written")).twice(&others)
    };
    // Which of the three files is named is left to the program.
    let either = r"^failed: none/back\.(line|notes|tributaries) cannot be written: No such file or directory\.$";
    let command = words("find -l 2 stream --out none/back");
    [
        vec![given("find-in-no-folder").like(command, 3, &[], either)],
        is_a_folder("find-line-is-a-folder", OUTPUTS[0], [OUTPUTS[1], OUTPUTS[2]]),
        is_a_folder("find-notes-are-a-folder", OUTPUTS[1], [OUTPUTS[0], OUTPUTS[2]]),
        is_a_folder("find-tributaries-are-a-folder", OUTPUTS[2], [OUTPUTS[0], OUTPUTS[1]]),
    ]
    .concat()
}

//! Cases of hunt. Where alignment is found and lost is told twice: by the finder, digit by digit,
//! and by a search for words through all digits.

use crate::case::{words, Case};
use crate::multiframes;
use crate::texts::{cannot, time};
use reference::digits::{pack, unpack};
use reference::multiframe_start;
use reference::random::Random;
use reference::{finder_feed, FinderState, FRAME_DIGITS, SECOND_PLACE, WORD, WORD_PLACE};

pub fn cases() -> Vec<Case> {
    let mut cases = plain();
    cases.extend(ways());
    cases.extend(ends());
    cases.extend(long());
    cases.extend(nothing());
    cases.extend(wrong_inputs());
    cases
}

/// Found or lost, by the first digit of the word that decides it.
#[derive(Clone, Copy, Debug, PartialEq)]
enum Event {
    Found(usize),
    Lost(usize),
}

/// The events of a recording, and the mode at its end, by the finder's call.
fn told(recording: &[u8]) -> (Vec<Event>, u64) {
    let (mut state, mut at, mut events) = (FinderState::default(), 0, Vec::new());
    while at < 8 * recording.len() {
        let from = at / 8;
        let piece = &recording[from..recording.len().min(from + 65_536)];
        let first = (at % 8) as u64;
        let before = state.mode >= 3;
        let fed = finder_feed(&state, piece, first, 8 * piece.len() as u64 - first);
        assert_eq!(fed.refusal, 0, "a piece is refused");
        at += fed.taken as usize;
        match (before, fed.aligned) {
            (false, true) => events.push(Event::Found(at - WORD.len())),
            (true, false) => events.push(Event::Lost(at - WORD.len())),
            _ => {}
        }
        state = fed.state;
    }
    (events, state.mode)
}

/// The same events by a search: from a word on, whether its second digit and the next word
/// follow; and then whether three words in a row are wrong.
fn searched(recording: &[u8]) -> Vec<Event> {
    let digits = unpack(recording, 8 * recording.len());
    let (second, next) = (SECOND_PLACE as usize, WORD_PLACE as usize);
    let word_ends = |last: usize| last + 1 >= WORD.len() && digits[..=last].ends_with(&WORD);
    let (mut events, mut at) = (Vec::new(), 0);
    'hunt: while at < digits.len() {
        if !word_ends(at) {
            at += 1;
            continue;
        }
        if at + second >= digits.len() {
            break;
        }
        if digits[at + second] != 1 {
            at += second + 1;
            continue;
        }
        at += next;
        if at >= digits.len() {
            break;
        }
        if !word_ends(at) {
            at += 1;
            continue;
        }
        events.push(Event::Found(at + 1 - WORD.len()));
        let mut wrong = 0;
        while at + next < digits.len() {
            at += next;
            wrong = if word_ends(at) { 0 } else { wrong + 1 };
            if wrong == 3 {
                events.push(Event::Lost(at + 1 - WORD.len()));
                at += 1;
                continue 'hunt;
            }
        }
        break;
    }
    events
}

/// What is said of the multiframe's start in the sixteen frames from the one on whose word is found
/// at this digit; nothing where the recording ends before the sixteenth.
fn start(recording: &[u8], word: usize) -> String {
    let (first, digits) = (word - 1, unpack(recording, 8 * recording.len()));
    let Some(frames) = digits.get(first..first + 4096) else { return String::new() };
    match multiframe_start(&pack(frames)) {
        [0, 16] => "no multiframe begins in the sixteen frames from there on\n".into(),
        [0, frame] => {
            let digit = first + 256 * frame as usize;
            let time = time(2048, digit);
            format!("multiframe begins at digit {digit} ({time}): 0000 in byte 16\n")
        }
        other => panic!("refused: {other:?}"),
    }
}

fn text(recording: &[u8], events: &[Event], mode: u64) -> String {
    let bytes = recording.len();
    let mut text = format!("2048 kbit/s: {bytes} bytes, {} digits, numbered from 0.\n", 8 * bytes);
    for event in events {
        text += &match event {
            Event::Found(digit) => format!(
                "found at digit {digit} ({}): the second good word, after a second digit of 1\n{}",
                time(2048, *digit),
                start(recording, *digit)
            ),
            Event::Lost(digit) => {
                let time = time(2048, *digit);
                format!("lost at digit {digit} ({time}): the third wrong word in a row\n")
            }
        };
    }
    let found = events.iter().filter(|event| matches!(event, Event::Found(_))).count();
    if found == 0 {
        text += "alignment was not found: two good words 512 digits apart, with a second digit of \
                 1 between them, did not come\n";
    }
    text += &format!("times found: {found}\ntimes lost: {}\n", events.len() - found);
    text + &match mode {
        0 => "at the end: hunting\n".into(),
        1 => "at the end: one good word found\n".into(),
        2 => "at the end: one good word and a second digit of 1 found\n".into(),
        more => format!("at the end: aligned, {} words missed\n", more - 3),
    }
}

/// A recording in which this must happen.
fn hunts(name: &str, recording: &[u8], expected: &[Event], last: u64) -> Case {
    let (events, mode) = told(recording);
    assert_eq!((&events[..], mode), (expected, last), "{name} is no such recording");
    assert_eq!(events, searched(recording), "{name}: the search finds others");
    Case::new(&format!("hunt-{name}"))
        .file("recording", recording)
        .accepted(words("hunt recording"), &text(recording, &events, mode))
}

/// Frames of 2048 kbit/s without a multiframe: the words, second digits of 1, and ones, which
/// never look like a word.
#[derive(Default)]
struct Line(Vec<u8>);

impl Line {
    fn ones(mut self, count: usize) -> Line {
        self.0.extend(vec![1; count]);
        self
    }

    /// An even frame and the odd one after it, with this word and this second digit.
    fn pair(self, word: &[u8], second: u8) -> Line {
        let mut line = self.ones(1);
        line.0.extend(word);
        let mut line = line.ones(FRAME_DIGITS as usize - 8 + 1);
        line.0.push(second);
        line.ones(FRAME_DIGITS as usize - 2)
    }

    fn good(self, pairs: usize) -> Line {
        (0..pairs).fold(self, |line, _| line.pair(&WORD, 1))
    }

    fn wrong(self, pairs: usize) -> Line {
        (0..pairs).fold(self, |line, _| line.pair(&[0, 0, 1, 1, 1, 1, 1], 1))
    }

    fn bytes(self) -> Vec<u8> {
        pack(&self.0)
    }
}

use Event::{Found, Lost};

/// Frames from their first digit on, from the middle of one, and multiframes that are built.
fn plain() -> Vec<Case> {
    let line = || Line::default();
    let built = multiframes::build(&[vec![0; 480 * 4], vec![0xFF; 15 * 4], vec![0xFF; 9 * 4]]);
    vec![
        hunts("frames", &line().good(4).bytes(), &[Found(513)], 3),
        hunts("middle", &line().ones(203).good(5).bytes()[20..], &[Found(556)], 3),
        hunts("multiframes", &built, &[Found(513)], 3),
    ]
}

/// All that can happen: two wrong words that lose nothing, three that do, found again. After a
/// slip the word that has half come where alignment is lost counts: the window is kept.
fn ways() -> Vec<Case> {
    let all = Line::default().ones(77).good(5).wrong(2).good(3).wrong(3).ones(64).good(4);
    let all = all.bytes();
    let (first, lost, again) = (77 + 513, 77 + 512 * 12 + 1, 77 + 512 * 13 + 64 + 513);
    let slip = Line::default().good(6).ones(5).good(6).bytes();
    let second = Line::default().good(1).pair(&WORD, 0).good(2).bytes();
    let zero = Line::default().pair(&WORD, 0).good(3).bytes();
    vec![
        hunts("all-ways", &all, &[Found(first), Lost(lost), Found(again)], 3),
        hunts("slip", &slip, &[Found(513), Lost(513 + 512 * 7), Found(513 + 512 * 8 + 5)], 3),
        hunts("second-digit-of-0-when-aligned", &second, &[Found(513)], 3),
        hunts("second-digit-of-0", &zero, &[Found(513 + 512)], 3),
    ]
}

/// Recordings that end at a border.
fn ends() -> Vec<Case> {
    let line = Line::default().good(2).bytes();
    let missed = Line::default().good(2).wrong(2).bytes();
    vec![
        hunts("ends-with-the-first-word", &line[..1], &[], 1),
        hunts("ends-before-the-second-digit", &line[..32], &[], 1),
        hunts("ends-with-the-second-digit", &line[..33], &[], 2),
        hunts("ends-before-the-second-word", &line[..64], &[], 2),
        hunts("ends-with-the-second-word", &line[..65], &[Found(513)], 3),
        hunts("ends-with-a-missed-word", &missed[..129], &[Found(513)], 4),
        hunts("ends-with-two-missed-words", &missed, &[Found(513)], 5),
    ]
}

/// Recordings longer than what one call takes: a word that stands across that border.
fn long() -> Vec<Case> {
    let border = 8 * 65_536;
    let late = Line::default().ones(border - 4 - 513).good(1_200).bytes();
    let lost = Line::default().ones(99).good(1_030).wrong(3).good(5).bytes();
    let (gone, again) = (99 + 512 * 1_032 + 1, 99 + 512 * 1_034 + 1);
    vec![
        hunts("second-word-across-the-border", &late, &[Found(border - 4)], 3),
        hunts("long", &lost, &[Found(99 + 513), Lost(gone), Found(again)], 3),
    ]
}

fn nothing() -> Vec<Case> {
    vec![
        hunts("empty", &[], &[], 0),
        hunts("zeros", &[0; 1000], &[], 0),
        hunts("ones", &[0xFF; 70_000], &[], 0),
    ]
}

/// Random digits: whatever is found in them.
fn random() -> Case {
    let bytes = Random::new(260).bytes(70_000);
    let (events, mode) = told(&bytes);
    hunts("random", &bytes, &events, mode)
}

fn wrong_inputs() -> Vec<Case> {
    let command = || words("hunt recording");
    let folder = Case::new("hunt-folder").folder("recording");
    vec![
        random(),
        Case::new("hunt-missing").fails(command(), &cannot("recording", "opened")),
        folder.fails(command(), &cannot("recording", "read")),
    ]
}

//! Cases of LEVEL written with the vote before the first frame, as 12:5: every command that
//! multiplexes, extracts or reads notes, over several runs of 64 frames.

use crate::approving;
use crate::case::{at, words, Case};
use crate::inputs::{level, notes, room, tributaries_after};
use crate::texts::{self, no_level, no_such_bits, no_vote, written};
use crate::worked::{self, Sent, Taken};
use reference::level::Row;

/// Level, the vote as it is written, and what it is.
type Vote = (u64, &'static str, u8);

const VOTES: [Vote; 6] =
    [(12, "5", 5), (12, "0F", 15), (14, "a", 10), (14, "F", 15), (12, "00", 0), (14, "03", 3)];

pub fn cases() -> Vec<Case> {
    let mut cases = Vec::new();
    for (k, &(number, word, before)) in VOTES.iter().enumerate() {
        let frames = [1, 64, 65, 130][k % 4];
        let one = Voted::new(number, word, before, frames);
        cases.push(one.sends("send"));
        cases.push(one.sends("send --engine plain"));
        cases.push(one.takes("take"));
        cases.push(one.takes("take --engine plain"));
        cases.push(one.extracts());
        cases.push(one.noted());
        cases.push(one.agrees());
    }
    // Levels 2 to 4 do not look at the vote.
    cases.push(Voted::new(2, "F", 0, 3).sends("send"));
    cases.push(Voted::new(4, "ff", 0, 3).takes("take"));
    cases.extend(refused());
    cases
}

/// Frames sent after a vote.
struct Voted {
    row: &'static Row,
    word: String,
    before: u8,
    notes: Vec<u8>,
    buffer: Vec<u8>,
    sent: Sent,
}

impl Voted {
    fn new(number: u64, vote: &str, before: u8, frames: usize) -> Voted {
        let row = level(number);
        let notes = notes(row, frames, 400 + number);
        let buffer = tributaries_after(row, before, &notes, 410 + number);
        let sent = worked::send_after(row, before, &notes, &buffer);
        Voted { row, word: format!("{number}:{vote}"), before, notes, buffer, sent }
    }

    fn case(&self, command: &str) -> Case {
        let word = self.word.replace(':', "-after-");
        let command = command.replace(' ', "-");
        Case::new(&format!("{command}-{word}-{}-frames", self.notes.len()))
    }

    fn taken(&self) -> Taken {
        let taken = worked::take_after(self.row, self.before, &self.sent.line);
        let quarters = worked::quarters(&taken.tributaries, room(self.row, self.notes.len()));
        assert!(taken.notes == self.notes && quarters == self.buffer);
        taken
    }

    fn sends(&self, command: &str) -> Case {
        let text = texts::sent(self.row, self.notes.len(), &self.sent.counts);
        self.case(command)
            .file("notes", &self.notes)
            .file("tributaries", &self.buffer)
            .accepted(
                words(&format!("{command} {} notes tributaries line", at(&self.word))),
                &(text + &written(&["line"])),
            )
            .makes("line", &self.sent.line)
    }

    fn takes(&self, command: &str) -> Case {
        let text = texts::taken(self.row, &self.taken());
        self.case(command)
            .file("line", &self.sent.line)
            .accepted(
                words(&format!("{command} {} line notes tributaries", at(&self.word))),
                &(text + &written(&["notes", "tributaries"])),
            )
            .makes("notes", &self.notes)
            .makes("tributaries", &self.buffer)
    }

    fn extracts(&self) -> Case {
        let text = texts::extracted(self.row, &self.taken());
        self.case("extract")
            .file("line", &self.sent.line)
            .file("notes", &self.notes)
            .accepted(
                words(&format!("extract {} line notes tributaries", at(&self.word))),
                &(text + &written(&["tributaries"])),
            )
            .makes("tributaries", &self.buffer)
    }

    fn noted(&self) -> Case {
        let text = texts::noted_after(self.row, self.before, &self.sent.line);
        let command = words(&format!("notes {} line", at(&self.word)));
        self.case("notes").file("line", &self.sent.line).accepted(command, &text)
    }

    fn agrees(&self) -> Case {
        let compared = approving::compared(self.row, &self.sent.line);
        let command = words(&format!("agree {} line", at(&self.word)));
        let text = texts::agree(self.row, compared);
        self.case("agree").file("line", &self.sent.line).accepted(command, &text)
    }
}

/// A vote over F, words that are no vote, and notes with more than votes.
fn refused() -> Vec<Case> {
    let given =
        |name: &str| Case::new(name).file("notes", &[0, 0]).file("tributaries", &[0; 4 * 68 * 2]);
    let command = |word: &str| words(&format!("send {} notes tributaries line", at(word)));
    let mut cases = Vec::new();
    for (word, vote) in [
        ("12:16", "16"),
        ("14:16", "16"),
        ("12:ff", "ff"),
        ("14:1F", "1F"),
        ("12:x", "x"),
        ("12:005", "005"),
        ("12:+5", "+5"),
        ("12:5:5", "5:5"),
        ("3:x", "x"),
    ] {
        let case = given(&format!("send-{}", word.replace(':', "-after-")));
        cases.push(case.fails(command(word), &no_vote(vote)));
    }
    for (word, number) in [("5:5", "5"), ("13:0", "13"), ("12;5", "12;5"), ("112", "112")] {
        let case = given(&format!("send-no-level-{}", word.replace([':', ';'], "-")));
        cases.push(case.fails(command(word), &no_level(number)));
    }
    for (number, bits) in [(12, 0x10), (14, 0x80)] {
        let case = Case::new(&format!("send-{number}-no-such-bits"));
        let case = case.file("notes", &[0, bits]).file("tributaries", &[0; 4 * 68 * 2]);
        let command = words(&format!("send -l {number} notes tributaries line"));
        cases.push(case.fails(command, &no_such_bits("notes", 1)));
    }
    cases
}

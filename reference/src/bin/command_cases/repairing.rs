//! Cases of repair, of a line and of a capture. A line that was sent and whose damage leaves every
//! decision as it is must come back as it was sent, and the digits that were damaged are those
//! counted: no repair is asked for that. Of a random line the separate program says both, frame
//! by frame.

use crate::case::{at, in_turn, words, Case, OLD};
use crate::inputs::{level, levels, notes, tributaries_after};
use crate::keeping::{capture, frames};
use crate::showing::no_captures;
use crate::texts::{
    self, cannot, no_capture, no_level, no_vote, no_whole_frames, written, written_over, REPAIRED,
};
use crate::worked;
use reference::digits::{pack, unpack};
use reference::frame::{self, layout, Place};
use reference::level::Row;
use reference::random::Random;
use reference::{read_capture, repair, Repaired};

const OUTPUT: [&str; 1] = ["new"];

pub fn cases() -> Vec<Case> {
    let mut cases = lines();
    cases.extend(captures());
    cases.extend(in_turn(refused_lines(), &OUTPUT));
    cases.extend(in_turn(refused_captures(), &OUTPUT));
    cases.extend(wrong_files());
    cases
}

/// A line as it came, what it must become, and how many digits differ.
struct Worn {
    row: &'static Row,
    line: Vec<u8>,
    new: Vec<u8>,
    changed: Repaired,
    /// Whether the national digits are repaired too.
    national: bool,
}

impl Worn {
    /// A line sent after this vote, with damage to words, control digits and stuffing digits.
    fn sent(number: u64, before: u8, frames: usize) -> Worn {
        let row = level(number);
        let list = notes(row, frames, 600 + number);
        let buffer = tributaries_after(row, before, &list, 610 + number);
        let new = worked::send_after(row, before, &list, &buffer).line;
        let (mut random, mut changed) = (Random::new(620 + number), Repaired::default());
        let mut line = Vec::new();
        let mut preceding = before;
        for (bytes, &note) in new.chunks(row.frame_bytes()).zip(&list) {
            let mut digits = unpack(bytes, row.frame_digits);
            for place in damage(row, preceding, note, &mut random) {
                digits[place] ^= 1;
                count(&mut changed, layout(row)[place]);
            }
            line.extend(pack(&digits));
            preceding = note;
        }
        Worn { row, line, new, changed, national: false }
    }

    /// The same with national digits damaged too, where the level has any, and repaired.
    fn national(number: u64, before: u8, frames: usize) -> Worn {
        let mut worn = Worn::sent(number, before, frames);
        let mut random = Random::new(640 + number);
        let bytes = worn.row.frame_bytes();
        for frame in worn.line.chunks_mut(bytes) {
            let mut digits = unpack(frame, worn.row.frame_digits);
            for (digit, place) in digits.iter_mut().zip(layout(worn.row)) {
                if matches!(place, Place::National(_)) && random.digit() == 1 {
                    *digit ^= 1;
                    worn.changed.national += 1;
                }
            }
            frame.copy_from_slice(&pack(&digits));
        }
        Worn { national: true, ..worn }
    }

    /// A line of random digits, repaired after this vote.
    fn random(number: u64, before: u8, frames: usize, national: bool) -> Worn {
        let row = level(number);
        let line = Random::new(630 + number).bytes(frames * row.frame_bytes());
        let (mut new, mut changed) = (line.clone(), Repaired::default());
        let mut preceding = before;
        for bytes in new.chunks_mut(row.frame_bytes()) {
            let note = frame::read(row, &unpack(bytes, row.frame_digits)).note;
            let one = repair(number, preceding.into(), national.into(), bytes);
            assert_eq!(one.refusal, 0);
            changed.word += one.word;
            changed.national += one.national;
            (0..4).for_each(|j| changed.control[j] += one.control[j]);
            (0..4).for_each(|j| changed.stuffing[j] += one.stuffing[j]);
            preceding = note;
        }
        Worn { row, line, new, changed, national }
    }

    /// The command's name and its option.
    fn command(&self) -> &'static str {
        if self.national {
            "repair --national"
        } else {
            "repair"
        }
    }

    /// Level, frames, and the table.
    fn text(&self) -> String {
        let (row, frames) = (self.row, self.line.len() / self.row.frame_bytes());
        let head = format!("Level {}, {} kbit/s\nframes: {frames}\n", row.level, row.rate);
        head + &table(&self.changed, self.national)
    }

    fn of_line(&self, name: &str, vote: &str) -> Case {
        let word = format!("{}{vote}", self.row.level);
        let command = self.command();
        let case = command.replace(' ', "-");
        Case::new(&format!("{case}-{}-{name}", word.replace(':', "-after-")))
            .file("line", &self.line)
            .had("new", OLD)
            .accepted(
                words(&format!("{command} {} line new", at(&word))),
                &(self.text() + &written(&OUTPUT)),
            )
            .makes("new", &self.new)
    }

    fn of_capture(&self, name: &str, label: Option<&[u8]>, vote: &str) -> Case {
        let said =
            texts::capture(self.row, &self.line, label) + &table(&self.changed, self.national);
        let command = self.command();
        let vote_name = vote.replace(':', "-after-");
        let case = command.replace(' ', "-");
        Case::new(&format!("{case}-capture-{}{vote_name}-{name}", self.row.level))
            .file("capture", &capture(self.row, &self.line, label))
            .accepted(
                words(&format!("{command} {} capture new", at(vote))),
                &(said + &written(&OUTPUT)),
            )
            .makes("new", &capture(self.row, &self.new, label))
    }

    /// What was repaired is repaired again: nothing is changed, and nothing counted.
    fn again(&self, case: Case, label: Option<&[u8]>, vote: &str) -> Case {
        let said = texts::capture(self.row, &self.new, label) + "digits repaired: 0\n" + REPAIRED;
        let command = self.command();
        case.accepted(
            words(&format!("{command} {} new again", at(vote))),
            &(said + &written(&["again"])),
        )
        .makes("again", &capture(self.row, &self.new, label))
    }
}

/// The places of a frame that are damaged: up to two digits of the word, fewer than half of each
/// control group, and some of the justification places that carry nothing.
fn damage(row: &Row, before: u8, note: u8, random: &mut Random) -> Vec<usize> {
    let places = |wanted: &dyn Fn(Place) -> bool| {
        let named = layout(row).into_iter().enumerate();
        named.filter(|&(_, place)| wanted(place)).map(|(k, _)| k).collect::<Vec<usize>>()
    };
    let mut wrong = places(&|place| matches!(place, Place::Word(_)));
    let first = random.index(wrong.len());
    wrong.rotate_left(first);
    wrong.truncate(random.index(3));
    for j in 0..4 {
        let mut group = places(&|place| place == Place::Control(j));
        let first = random.index(group.len());
        group.rotate_left(first);
        let few = random.index((group.len() + 1) / 2);
        wrong.extend(&group[..few]);
        for own in [Place::Negative(j), Place::Justification(j)] {
            let idle = places(&|place| place == own).into_iter();
            let idle = idle.filter(|_| frame::carried(row, before, note, own).is_none());
            wrong.extend(idle.filter(|_| random.digit() == 1));
        }
    }
    wrong
}

fn count(changed: &mut Repaired, place: Place) {
    match place {
        Place::Word(_) => changed.word += 1,
        Place::Control(j) => changed.control[j] += 1,
        Place::Negative(j) | Place::Justification(j) => changed.stuffing[j] += 1,
        other => panic!("no damage is done at {other:?}"),
    }
}

/// What is said of the digits changed.
fn table(changed: &Repaired, national: bool) -> String {
    let sum = |of: &[u64; 4]| of.iter().sum::<u64>();
    let all = changed.word + changed.national + sum(&changed.control) + sum(&changed.stuffing);
    let mut text = format!("digits repaired: {all}\n");
    if all == 0 {
        return text + REPAIRED;
    }
    text += &format!("\n  alignment word  {:>6}", changed.word);
    if national {
        text += &format!("\n  national digits {:>6}", changed.national);
    }
    text += "\n                  control  stuffing\n";
    for j in 0..4 {
        let (control, stuffing) = (changed.control[j], changed.stuffing[j]);
        text += &format!("  tributary {}     {control:>7}{stuffing:>10}\n", j + 1);
    }
    text + REPAIRED
}

fn lines() -> Vec<Case> {
    let mut cases = Vec::new();
    for row in levels() {
        for frames in [0, 1, 64, 65, 130] {
            cases.push(Worn::sent(row.level, 0, frames).of_line(&format!("{frames}-frames"), ""));
        }
        cases.push(Worn::random(row.level, 0, 70, false).of_line("random", ""));
        cases.push(Worn::random(row.level, 0, 70, true).of_line("random", ""));
        cases.push(Worn::national(row.level, 0, 65).of_line("65-frames", ""));
    }
    for (number, vote, before) in [(12, ":F", 15), (12, ":05", 5), (14, ":a", 10), (14, ":F", 15)] {
        cases.push(Worn::sent(number, before, 66).of_line("66-frames", vote));
        cases.push(Worn::random(number, before, 65, false).of_line("random", vote));
    }
    // Levels 2 to 4 do not look at the vote.
    cases.push(Worn::sent(3, 0, 2).of_line("2-frames", ":ff"));
    // A file that is read is evidence, and never written over.
    cases.push(
        Case::new("repair-2-by-its-own-name")
            .file("line", &Worn::sent(2, 0, 130).line)
            .fails(words("repair -l 2 line line"), &written_over("NEW", "line", "LINE")),
    );
    cases
}

fn captures() -> Vec<Case> {
    let mut cases = Vec::new();
    let most = Some(&b"A label of 32 bytes, no more ..."[..]);
    for row in levels() {
        let three = Worn::sent(row.level, 0, 3);
        let label = Some(&b"hop A"[..]);
        cases.push(three.again(three.of_capture("three-frames", label, ""), label, ""));
        cases.push(Worn::sent(row.level, 0, 64).of_capture("64-frames", None, ""));
        cases.push(Worn::sent(row.level, 0, 0).of_capture("no-frames", Some(b""), ""));
        cases.push(
            Worn::random(row.level, 0, 64, false).of_capture("random", most, "").had("new", OLD),
        );
        let both = Worn::national(row.level, 0, 4);
        cases.push(both.again(both.of_capture("four-frames", label, ""), label, ""));
    }
    for (number, vote, before) in [(12, ":F", 15), (12, ":05", 5), (14, ":a", 10), (14, ":F", 15)] {
        let one = Worn::sent(number, before, 9);
        cases.push(one.again(one.of_capture("nine-frames", None, vote), None, vote));
        cases.push(Worn::random(number, before, 5, true).of_capture("random", None, vote));
    }
    cases.push(Worn::sent(4, 0, 2).of_capture("two-frames", None, ":ff"));
    // By another spelling of the name too.
    let own = Worn::sent(14, 0, 64);
    for path in ["capture", "./capture", "deep/../capture"] {
        cases.push(
            Case::new(&format!("repair-capture-14-by-its-own-name-{}", path.replace('/', "-")))
                .folder("deep")
                .file("capture", &capture(own.row, &own.line, most))
                .fails(
                    words(&format!("repair capture {path}")),
                    &written_over("NEW", path, "LINE"),
                ),
        );
    }
    cases
}

fn refused_lines() -> Vec<Case> {
    let case = |name: &str, bytes: usize| {
        Case::new(&format!("repair-{name}")).file("line", &vec![0; bytes])
    };
    let command = |word: &str| words(&format!("repair {} line new", at(word)));
    let mut cases = Vec::new();
    for word in ["5", "02"] {
        cases.push(case(&format!("no-level-{word}"), 105).fails(command(word), &no_level(word)));
    }
    for (number, bytes) in [(2, 105), (3, 65 * 192 + 1), (4, 1), (12, 131), (14, 273)] {
        let row = level(number);
        let case = case(&format!("{number}-{bytes}-bytes"), bytes);
        cases.push(case.fails(command(&number.to_string()), &no_whole_frames(row, "line", bytes)));
    }
    for (word, vote) in [("12:16", "16"), ("14:ff", "ff"), ("12:x", "x")] {
        let name = format!("{}-no-vote", word.replace(':', "-after-"));
        cases.push(case(&name, 1).fails(command(word), &no_vote(vote)));
    }
    cases
}

/// Every file that is no capture, answered as by the reader, also where the vote is over F; then
/// the vote.
fn refused_captures() -> Vec<Case> {
    let mut cases = Vec::new();
    for (k, (name, file)) in no_captures().into_iter().enumerate() {
        assert_ne!(read_capture(&file).refusal, 0, "{name}");
        let vote = if k % 3 == 0 { ":16" } else { "" };
        let case = Case::new(&format!("repair-capture-{name}")).file("capture", &file);
        let command = words(&format!("repair {} capture new", at(vote)));
        cases.push(case.fails(command, &no_capture("capture", &file)));
    }
    for (number, vote, count) in [(12, ":16", 2), (14, ":ff", 1), (12, ":1F", 0), (12, ":x", 1)] {
        let file = capture(level(number), &frames(level(number), count), Some(b"hop A"));
        let case = Case::new(&format!("repair-capture-{number}-no-vote-{count}"));
        let case = case.file("capture", &file);
        let command = words(&format!("repair {} capture new", at(vote)));
        cases.push(case.fails(command, &no_vote(&vote[1..])));
    }
    cases
}

fn wrong_files() -> Vec<Case> {
    let file = capture(level(2), &frames(level(2), 2), None);
    let kept = |name: &str| Case::new(name).file("capture", &file);
    let line = |name: &str| Case::new(name).file("line", &frames(level(2), 2));
    let fails = |case: Case, command, path, be| case.fails(words(command), &cannot(path, be));
    let (on_line, on_capture) = ("repair -l 2 line new", "repair capture new");
    let none = |name: &str| Case::new(name);
    [
        fails(none("repair-no-line"), on_line, "line", "opened").twice(&OUTPUT),
        fails(none("repair-no-capture"), on_capture, "capture", "opened").twice(&OUTPUT),
        fails(none("repair-line-is-a-folder").folder("line"), on_line, "line", "read")
            .twice(&OUTPUT),
        fails(none("repair-capture-is-a-folder").folder("capture"), on_capture, "capture", "read")
            .twice(&OUTPUT),
        vec![
            fails(line("repair-in-no-folder"), "repair -l 2 line none/new", "none/new", "written"),
            fails(line("repair-in-a-folder").folder("new"), on_line, "new", "written"),
            fails(kept("repair-capture-nowhere"), "repair capture none/new", "none/new", "written"),
            fails(kept("repair-capture-in-a-folder").folder("new"), on_capture, "new", "written"),
        ],
    ]
    .concat()
}

//! `notes`: the notes of a line, a capture or the frames found in a recording, as a table.

use serde::Serialize;
use spritbobbin::{read_notes, vote_after, Level, Note, Noted};

use crate::acts::{Act, Acts};
use crate::cli::Notes;
use crate::failure::Failure;
use crate::files::{self, Output};
use crate::level::UNKNOWN_VOTE;
use crate::report::{written, Report, Saying, Telling};
use crate::runs::Line;
use crate::stretches::{self, unknown_text};
use crate::totals::{Counted, Totals};

/// The row of a frame.
#[derive(Serialize)]
struct Row {
    frame: u64,
    note: u8,
    /// The tributaries that are stuffed; at levels 12 and 14 those whose vote is 1.
    decided: Vec<usize>,
    /// The remote alarm digit and the national digits.
    #[serde(skip_serializing_if = "Vec::is_empty")]
    service: Vec<u8>,
    /// What the frame does for each tributary, at levels 12 and 14: +, 0 or -.
    #[serde(skip_serializing_if = "Option::is_none")]
    acts: Option<String>,
    dissent: [usize; 4],
    alignment_wrong: usize,
}

/// What stands below the rows.
#[derive(Serialize)]
struct Read {
    #[serde(flatten)]
    counted: Counted,
    written: Vec<String>,
}

pub fn run(call: Notes, mut saying: Saying) -> Result<u8, Failure> {
    if let Some(notes) = &call.notes {
        files::distinct(&[("LINE", &call.line)], &[("NOTES", notes)])?;
        saying.aside = files::any_standard(&[notes]);
    }
    let earlier = call.after.earlier.as_deref();
    let (line, found) = Line::open_or_find(
        &call.line,
        call.of.level.as_deref(),
        earlier,
        call.finding.find,
        saying,
    )?;
    let mut notes = call.notes.as_deref().map(Output::create).transpose()?;
    let mut telling = saying.telling();
    telling.text(&stretches::text(line.level, found.as_deref()))?;
    if let Some(found) = &found {
        telling.field("stretches", found)?;
    }
    let votes_unknown = stretches::votes_unknown(line.level, found.as_deref(), earlier.is_some());
    if !votes_unknown.is_empty() {
        telling.text(&unknown_text(&votes_unknown))?;
        telling.field("votes_unknown", &votes_unknown)?;
    }
    telling.text(head(line.level))?;
    telling.list("rows")?;
    let mut totals = Totals::of_level(line.level);
    let mut acts = Acts::of_level(line.level);
    let mut before = line.earlier;
    // The table itself says how far it is.
    let silent = Saying { quiet: true, ..saying };
    line.runs(silent, |run| {
        if run.behind_gap {
            before = UNKNOWN_VOTE;
        }
        for (frame, one) in (run.first..).zip(run.line.chunks(line.level.frame_bytes())) {
            let mut note = [0];
            let noted = read_notes(line.level, one, &mut note)?;
            let [byte] = note;
            say(&mut telling, line.level, frame, byte, acts.act(before, byte), &noted)?;
            totals.add_notes(before, &note);
            totals.add_errors(&noted);
            before = vote_after(before, &note);
            if let Some(notes) = &mut notes {
                notes.append(&note)?;
            }
        }
        Ok(())
    })?;
    telling.list_ends()?;
    let written = files::keep(notes.into_iter().collect())?;
    telling.say(&Read { counted: totals.taken(), written })?;
    telling.end()?;
    Ok(0)
}

fn head(level: Level) -> &'static str {
    if level.looks_at_earlier() {
        return "    frame    votes  acts     dissent 1 2 3 4  alignment\n";
    }
    "    frame  stuffed  service  dissent 1 2 3 4  alignment\n"
}

fn say(
    telling: &mut Telling,
    level: Level,
    frame: u64,
    byte: u8,
    acts: [Act; 4],
    noted: &Noted,
) -> Result<(), Failure> {
    let note = Note(byte);
    let row = Row {
        frame,
        note: byte,
        decided: (1..=4).filter(|tributary| note.decision(*tributary)).collect(),
        service: note.service(level).map(u8::from).collect(),
        acts: level.looks_at_earlier().then(|| acts.iter().map(sign).collect()),
        dissent: noted.dissent,
        alignment_wrong: noted.alignment,
    };
    telling.text(&row.text())?;
    telling.item(&row)
}

fn sign(act: &Act) -> char {
    match act {
        Act::Stuffed => '+',
        Act::Neither => '0',
        Act::Negative => '-',
    }
}

impl Row {
    fn text(&self) -> String {
        let mark = |tributary: usize| match self.decided.contains(&tributary) {
            true => tributary.to_string(),
            false => "-".into(),
        };
        let decided: String = (1..=4).map(mark).collect();
        let service = || self.service.iter().map(u8::to_string).collect::<String>();
        let rest = self.acts.clone().unwrap_or_else(service);
        let [a, b, c, d] = self.dissent;
        format!(
            "{:>9}  {decided:7}  {rest:7}  {:7} {a} {b} {c} {d}  {:>9}\n",
            self.frame, "", self.alignment_wrong
        )
    }
}

impl Report for Read {
    fn text(&self) -> String {
        let Counted { level, frames, tributaries, alignment_wrong } = &self.counted;
        let four = |numbers: Vec<u64>| {
            numbers.iter().map(u64::to_string).collect::<Vec<String>>().join(" ")
        };
        let mut text = format!("Level {level}: {frames} notes read.\n");
        let stuffed = four(tributaries.iter().map(|one| one.stuffed).collect());
        text += &format!("stuffed frames of tributaries 1 to 4:     {stuffed}\n");
        let negative: Vec<u64> = tributaries.iter().filter_map(|one| one.negative).collect();
        if !negative.is_empty() {
            text += &format!("negative digits of tributaries 1 to 4:    {}\n", four(negative));
        }
        let dissent = four(tributaries.iter().filter_map(|one| one.dissent).collect());
        text += &format!("dissenting digits of tributaries 1 to 4:  {dissent}\n");
        text += &format!("alignment digits wrong: {}\n", alignment_wrong.unwrap_or(0));
        text + &written(&self.written)
    }
}

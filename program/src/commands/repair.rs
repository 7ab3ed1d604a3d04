//! `repair`: a line or a capture with its worn digits set right, in a new file.

use serde::Serialize;
use spritbobbin::{read_notes, vote_after, Repaired};

use crate::captures::Holds;
use crate::cli::Repair;
use crate::failure::Failure;
use crate::files;
use crate::made::Made;
use crate::report::{written, Report, Saying};
use crate::runs::Line;
use crate::totals::sums;

/// How many digits were changed.
#[derive(Clone, Copy, Debug, Default, Serialize)]
struct Sums {
    word: u64,
    control: [u64; 4],
    stuffing: [u64; 4],
    national: u64,
}

#[derive(Serialize)]
struct Told {
    level: u64,
    kilobits: u32,
    frames: u64,
    #[serde(skip_serializing_if = "Option::is_none")]
    label: Option<String>,
    #[serde(skip_serializing_if = "Option::is_none")]
    label_shown: Option<String>,
    repaired: u64,
    #[serde(flatten)]
    sums: Sums,
    evidence: bool,
    written: Vec<String>,
    asked_national: bool,
}

pub fn run(call: Repair, mut saying: Saying) -> Result<u8, Failure> {
    files::distinct(&[("LINE", &call.line)], &[("NEW", &call.new)])?;
    saying.aside = files::any_standard(&[&call.new]);
    let line = Line::open(&call.line, call.of.level.as_deref(), call.after.earlier.as_deref())?;
    let mut new = Made::create(&call.new, &line)?;
    let (mut total, mut earlier, mut room) = (Sums::default(), line.earlier, Vec::new());
    line.runs(saying, |run| {
        room.clear();
        room.extend_from_slice(run.line);
        let changed = spritbobbin::repair(line.level, earlier, call.national, &mut room)?;
        total.add(&changed);
        // The vote of the run's last frame, which no repair changes.
        if let Some(last) = room.chunks(line.level.frame_bytes()).last() {
            let mut note = [0];
            read_notes(line.level, last, &mut note)?;
            earlier = vote_after(earlier, &note);
        }
        new.append(&room)
    })?;
    let written = new.keep()?;
    let bytes = usize::try_from(line.bytes()).unwrap_or(0);
    let holds = Holds::of(line.level, bytes, line.label.as_deref());
    saying.say(&Told {
        level: holds.level,
        kilobits: holds.kilobits,
        frames: line.frames,
        label: holds.label,
        label_shown: line.captured.then_some(holds.label_shown),
        repaired: total.all(),
        sums: total,
        evidence: false,
        written,
        asked_national: call.national,
    })?;
    Ok(0)
}

impl Sums {
    fn add(&mut self, changed: &Repaired) {
        self.word = self.word.saturating_add(changed.word as u64);
        self.control = sums(self.control, changed.control.map(|digits| digits as u64));
        self.stuffing = sums(self.stuffing, changed.stuffing.map(|digits| digits as u64));
        self.national = self.national.saturating_add(changed.national as u64);
    }

    fn all(&self) -> u64 {
        let four = self.control.iter().chain(&self.stuffing);
        four.fold(self.word.saturating_add(self.national), |sum, more| sum.saturating_add(*more))
    }
}

impl Report for Told {
    fn text(&self) -> String {
        let Told { level, kilobits, frames, repaired, .. } = self;
        let mut text = format!("Level {level}, {kilobits} kbit/s\nframes: {frames}\n");
        if let Some(label) = &self.label_shown {
            text += &format!("label: {label}\n");
        }
        text += &format!("digits repaired: {repaired}\n");
        if self.repaired > 0 {
            text += &format!("\n  alignment word  {:>6}\n", self.sums.word);
            if self.asked_national {
                text += &format!("  national digits {:>6}\n", self.sums.national);
            }
            text += "                  control  stuffing\n";
            let rows = (1..).zip(self.sums.control).zip(self.sums.stuffing);
            for ((number, control), stuffing) in rows {
                text += &format!("  tributary {number}     {control:>7}{stuffing:>10}\n");
            }
        }
        text += "What is repaired is no evidence: keep the file that was read.\n";
        text + &written(&self.written)
    }
}

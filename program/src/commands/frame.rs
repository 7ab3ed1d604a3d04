//! `frame`: the frame of a level, place by place; with a note, what its frame holds.

use serde::Serialize;
use spritbobbin::{digits, multiplex, place, Kind, Level, Place, Refusal};

use crate::acts::{Act, Acts};
use crate::cli::Frame;
use crate::failure::Failure;
use crate::files::{self, Output};
use crate::level;
use crate::pictures::frame::{draw, Cell};
use crate::places::{all, drawn, sets};
use crate::report::{written, Report, Saying};

/// Places of one kind in a row.
#[derive(Serialize)]
struct Run {
    set: u64,
    first: usize,
    last: usize,
    kind: &'static str,
    /// The tributaries that own the first four, in turn.
    #[serde(skip_serializing_if = "Vec::is_empty")]
    tributaries: Vec<usize>,
    /// With a note: the digits, or of justification places `digit` or `stuffing` for each.
    #[serde(skip_serializing_if = "Option::is_none")]
    holds: Option<String>,
}

#[derive(Serialize)]
struct Framed {
    level: u64,
    digits: usize,
    sets: u64,
    tributary_digits: usize,
    negative_places: bool,
    runs: Vec<Run>,
    written: Vec<String>,
}

pub fn run(call: Frame, mut saying: Saying) -> Result<u8, Failure> {
    let of = level::level(&call.of.level)?;
    let earlier = level::earlier(of, call.after.earlier.as_deref())?;
    let note = call.note.as_deref().map(level::note).transpose()?;
    let places = all(of)?;
    let held = note.map(|note| held(of, earlier, note, &places)).transpose()?;
    let mut written = Vec::new();
    if let Some(svg) = &call.svg {
        saying.aside = files::any_standard(&[svg]);
        let mut output = Output::create(svg)?;
        output.append(picture(of, &places, held.as_deref()).as_bytes())?;
        written = files::keep(vec![output])?;
    }
    saying.say(&Framed {
        level: of.number(),
        digits: of.frame_digits(),
        sets: sets(&places),
        tributary_digits: of.tributary_digits(),
        negative_places: of.looks_at_earlier(),
        runs: runs(of, &places, held.as_deref()),
        written,
    })?;
    Ok(0)
}

/// What each place of a frame of this note holds, where its tributaries are zeros: a digit; of a justification place whether it carries one.
fn held(of: Level, earlier: u8, note: u8, places: &[Place]) -> Result<Vec<&'static str>, Failure> {
    let (mut line, buffer) = (vec![0; of.frame_bytes()], vec![0; of.buffer_bytes(1)]);
    multiplex(of, earlier, &mut line, &[note], &buffer)
        .map_err(|refusal| refused(refusal, of, note))?;
    let acts = Acts::of_level(of).act(earlier, note);
    let act = |tributary: Option<usize>| {
        let number = tributary.unwrap_or(0).saturating_sub(1);
        acts.get(number).copied().unwrap_or(Act::Neither)
    };
    let carried = |carries: bool| if carries { "digit" } else { "stuffing" };
    let one = |(place, digit): (&Place, u8)| match place.kind {
        Kind::Justification => carried(act(place.tributary) != Act::Stuffed),
        Kind::Negative => carried(act(place.tributary) == Act::Negative),
        _ if digit == 1 => "1",
        _ => "0",
    };
    Ok(places.iter().zip(digits(&line)).map(one).collect())
}

fn refused(refusal: Refusal, of: Level, note: u8) -> Failure {
    match refusal {
        Refusal::NoteBits { .. } if of.looks_at_earlier() => Failure::refused(
            5,
            format!("the note {note:02X} has a bit over 3 set; a note of level 12 or 14 has votes alone."),
        ),
        Refusal::NoteBits { .. } => Failure::refused(
            5,
            format!("the note {note:02X} has bit 6 or 7 set; only level 4 has these national digits."),
        ),
        Refusal::National { .. } => {
            let bits = if of == Level::Four { "bits 5, 6 and 7 are" } else { "bit 5 is" };
            Failure::refused(
                10,
                format!("the note {note:02X} has a national digit of 0; at {of} {bits} 1 in every note."),
            )
        }
        other => other.into(),
    }
}

/// The runs of places of one kind; a national digit stands alone, and a set begins a run.
fn runs(of: Level, places: &[Place], held: Option<&[&'static str]>) -> Vec<Run> {
    let mut runs: Vec<Run> = Vec::new();
    let mut set = 0_u64;
    for (number, one) in places.iter().enumerate() {
        let kind = name(of, one.kind);
        let holds = held.and_then(|held| held.get(number)).copied();
        let alone = kind == "national";
        match runs.last_mut().filter(|last| last.kind == kind && !alone) {
            Some(last) => {
                last.last = number;
                if last.tributaries.len() < 4 {
                    last.tributaries.extend(one.tributary);
                }
                if let (Some(all), Some(more)) = (&mut last.holds, holds) {
                    if more.len() > 1 {
                        all.push(' ');
                    }
                    all.push_str(more);
                }
            }
            None => {
                let begins = matches!(one.kind, Kind::Word | Kind::Control);
                set = set.saturating_add(u64::from(begins));
                let holds = holds.filter(|_| one.kind != Kind::Ordinary).map(String::from);
                let tributaries = one.tributary.into_iter().collect();
                runs.push(Run { set, first: number, last: number, kind, tributaries, holds });
            }
        }
    }
    runs
}

fn name(of: Level, kind: Kind) -> &'static str {
    match kind {
        Kind::Word => "alignment word",
        Kind::RemoteAlarm => "remote alarm",
        Kind::Service if of.looks_at_earlier() => "service",
        Kind::Service => "national",
        Kind::Control => "control",
        Kind::Justification if of.looks_at_earlier() => "positive justification",
        Kind::Justification => "justification",
        Kind::Negative => "negative justification",
        _ => "tributary digits in turn",
    }
}

fn picture(of: Level, places: &[Place], held: Option<&[&'static str]>) -> String {
    let cell = |(number, place): (usize, &Place)| Cell {
        place: drawn(place),
        holds: held
            .filter(|_| place.kind != Kind::Ordinary)
            .and_then(|held| held.get(number))
            .map(|holds| if *holds == "stuffing" { "stuff".into() } else { (*holds).into() }),
    };
    let cells: Vec<Cell> = places.iter().enumerate().map(cell).collect();
    draw(of, sets(places), &cells)
}

impl Report for Framed {
    fn text(&self) -> String {
        let Framed { level, digits, sets, tributary_digits, .. } = self;
        let more = match self.negative_places {
            true => ", one more where its negative place carries one",
            false => "",
        };
        let mut text = format!(
            "Level {level}: a frame of {digits} digits, places 0 on, in {sets} sets; each tributary has {tributary_digits} \
             digits, one fewer where stuffed{more}."
        );
        let mut set = 0;
        for run in &self.runs {
            if run.set == set {
                text += ", ";
            } else {
                text += &format!("\n  set {}: ", run.set);
            }
            set = run.set;
            text += &run.text();
        }
        text + "\n" + &written(&self.written)
    }
}

impl Run {
    fn text(&self) -> String {
        let mut text = self.first.to_string();
        if self.last > self.first {
            text += &format!("-{}", self.last);
        }
        text += &format!(" {}", self.kind);
        for tributary in &self.tributaries {
            text += &format!(" {tributary}");
        }
        if let Some(holds) = &self.holds {
            text += &format!(" = {holds}");
        }
        text
    }
}

/// What a place of the library is called where digits that differ are listed.
pub fn differing(of: Level, number: usize) -> Result<(&'static str, usize), Failure> {
    let Place { kind, tributary } = place(of, number)?;
    let name = match kind {
        Kind::Word => "alignment word",
        Kind::RemoteAlarm => "remote alarm",
        Kind::Service => "national",
        Kind::Control => "control",
        Kind::Justification | Kind::Negative => "justification",
        _ => "ordinary",
    };
    Ok((name, tributary.unwrap_or(0)))
}

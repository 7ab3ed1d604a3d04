//! A verdict: did the clock move, or the frame index? Reads a recording of whole frames, of any length, and
//! the digits that were sent into its tributaries, four equal quarters, and says of each tributary by whose
//! decisions it is what was sent, and how many wrong digits and slips that takes.
//!
//!     verdict LEVEL RECORDING SENT

use std::env;
use std::error::Error;
use std::fs;

use spritbobbin::{read_notes, Level, TributaryVerdict, VerdictState, MOST_FRAMES};

fn main() -> Result<(), Box<dyn Error>> {
    let words: Vec<String> = env::args().skip(1).collect();
    let [level, recording, sent] = &words[..] else {
        return Err("say: verdict LEVEL RECORDING SENT".into());
    };
    let level = Level::try_from(level.parse::<u64>()?)?;
    let (recording, sent) = (fs::read(recording)?, fs::read(sent)?);
    let mut state = VerdictState::new(level, 0, None)?;
    let mut of = [TributaryVerdict::default(); 4];
    let mut rest = &recording[..];
    while !rest.is_empty() {
        let (run, after) = rest.split_at(rest.len().min(MOST_FRAMES * level.frame_bytes()));
        // The frame after a run decides its last frame's reading "after".
        let next = match after.get(..level.frame_bytes()) {
            Some(frame) => {
                let mut note = [0];
                read_notes(level, frame, &mut note)?;
                Some(note[0] & 0x0F)
            }
            None => None,
        };
        of = state.feed(run, next, &sent, 0)?;
        rest = after;
    }
    for (number, tributary) in (1..).zip(&of) {
        println!("tributary {number}: {}", said(tributary));
    }
    Ok(())
}

/// The cheapest reading, and what each of the three takes.
fn said(of: &TributaryVerdict) -> String {
    let takes = [of.own, of.before, of.after];
    let costs = takes.map(|reading| reading.cost());
    let least = costs.iter().min();
    let said = match costs.map(|cost| Some(&cost) == least) {
        [true, false, false] => "the index is right",
        [false, true, false] => "the index is late",
        [false, false, true] => "the index is early",
        [false, true, true] => "the index is late or early",
        _ => "it cannot be told",
    };
    let takes = takes.map(|one| format!("{} wrong and {} slips", one.wrong, one.slips));
    format!("{said}; own, before, after: {}", takes.join(", "))
}

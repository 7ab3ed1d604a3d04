//! What is said of the frames that were found in a recording: where each stretch of them was, and where a frame is read without the
//! vote before it.

use spritbobbin::Level;

use crate::listening::Stretch;
use crate::times::time;

/// A line for each stretch; nothing where no recording was looked through.
pub fn text(level: Level, found: Option<&[Stretch]>) -> String {
    let Some(found) = found else { return String::new() };
    if found.is_empty() {
        return format!(
            "no frames found: three good words in a row, {} digits apart, did not come\n",
            level.frame_digits()
        );
    }
    found.iter().map(|stretch| one(level, stretch)).collect()
}

fn one(level: Level, stretch: &Stretch) -> String {
    let Stretch { digit, first, frames } = *stretch;
    let last = first.saturating_add(frames).saturating_sub(1);
    let time = time(level.kilobits(), digit);
    format!("frames {first} to {last}: from digit {digit} of the recording on ({time})\n")
}

/// The frames that are read without knowing the vote before them: at levels 12 and 14 the first of each stretch, but for that of the first
/// stretch where the vote is given.
pub fn votes_unknown(level: Level, found: Option<&[Stretch]>, given: bool) -> Vec<u64> {
    let found = found.filter(|_| level.looks_at_earlier()).unwrap_or_default();
    found.iter().skip(usize::from(given)).map(|stretch| stretch.first).collect()
}

/// What that means for what is read.
pub fn unknown_text(frames: &[u64]) -> String {
    let which = match frames {
        [] => return String::new(),
        [frame] => format!("frame {frame}"),
        [0, ..] => "the first frame of each stretch".into(),
        _ => "the first frame of each stretch but the first".into(),
    };
    format!(
        "The vote before {which} is not known and taken as 0: there a tributary that voted 1 has a \
         digit too many.\n"
    )
}

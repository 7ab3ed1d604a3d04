//! The words of a call that are no files: a level, a vote, a note, a tributary, a pattern.

use spritbobbin::Level;

use crate::failure::Failure;

/// The level that a word is: its number, or the line's rate in kbit/s, with `pzn` behind it for the frames with
/// positive/zero/negative justification.
pub fn level(word: &str) -> Result<Level, Failure> {
    let known = |level: &Level| word == level.number().to_string() || word == rate(*level);
    Level::ALL.into_iter().find(known).ok_or_else(|| {
        Failure::refused(
            1,
            format!(
                "no level {}; LEVEL is 2, 3, 4, 12 or 14, or the rate: 8448, 34368, 139264, \
                 8448pzn or 139264pzn.",
                crate::report::shown(word.as_ref())
            ),
        )
    })
}

/// The rate as it is said for a level.
fn rate(level: Level) -> String {
    format!("{}{}", level.kilobits(), if level.looks_at_earlier() { "pzn" } else { "" })
}

/// The vote that is taken where the frame before is not known: before a line, and behind each gap of a recording.
pub const UNKNOWN_VOTE: u8 = 0;

/// The vote of the frame before the first, one bit to a tributary: 0 to 15, or a hexadecimal digit as in a note.
pub fn earlier(level: Level, word: Option<&str>) -> Result<u8, Failure> {
    let Some(word) = word else { return Ok(UNKNOWN_VOTE) };
    let short = word.len() < 3 && word.bytes().all(|byte| byte.is_ascii_hexdigit());
    // What is written in decimal digits alone is decimal: 10 is ten.
    let decimal = || word.parse::<u8>().ok();
    let number = decimal().or_else(|| u8::from_str_radix(word, 16).ok()).filter(|_| short);
    match number {
        Some(vote) if vote < 16 || !level.looks_at_earlier() => Ok(vote.min(15)),
        _ => Err(Failure::refused(
            5,
            format!(
                "{} is no vote of the frame before the first; it has a bit for each tributary, 0 to \
                 15 or 0 to F.",
                crate::report::shown(word.as_ref())
            ),
        )),
    }
}

/// A note: two hexadecimal digits.
pub fn note(word: &str) -> Result<u8, Failure> {
    let wrong = || Failure::Call(format!("NOTE is two hexadecimal digits, as 3F, and not {word}."));
    if word.len() != 2 || word.starts_with('+') {
        return Err(wrong());
    }
    u8::from_str_radix(word, 16).map_err(|_| wrong())
}

/// The tributary that a word is: 1 to 4.
pub fn tributary(word: &str) -> Result<usize, Failure> {
    let number = ["1", "2", "3", "4"].iter().position(|known| *known == word);
    number.map(|place| place.saturating_add(1)).ok_or_else(|| {
        let word = crate::report::shown(word.as_ref());
        Failure::refused(12, format!("no tributary {word}; TRIBUTARY is 1, 2, 3 or 4."))
    })
}

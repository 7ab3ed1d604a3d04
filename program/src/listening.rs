//! A recording begun anywhere: a receiver listens to it from its first digit to its last, and what changes is seen at its own digit.

use std::path::Path;

use serde::Serialize;
use spritbobbin::{digits_in, Frame, Level, Mode, Receiver};

use crate::failure::Failure;
use crate::files::{Output, Stream, CHUNK};
use crate::progress::Progress;
use crate::report::Saying;
use crate::runs::Line;

/// What was heard: alignment found and lost at the first digit of the word that decides it, the alarm at the last digit of the stretch
/// that decides it, and a frame, which begins at this digit.
#[derive(Debug)]
pub enum Heard<'a> {
    Found { digit: u64 },
    Lost { digit: u64 },
    AlarmBegins { digit: u64 },
    AlarmEnds { digit: u64 },
    Frame { frame: &'a Frame, digit: u64 },
}

/// What a recording came to.
#[derive(Debug)]
pub struct Listened {
    pub bytes: u64,
    pub words: u64,
    pub mode: Mode,
}

/// Feeds a recording to a fresh receiver, and hands on what is heard.
pub fn listen(
    stream: &mut Stream,
    level: Level,
    saying: Saying,
    mut heard: impl FnMut(Heard<'_>) -> Result<(), Failure>,
) -> Result<Listened, Failure> {
    let mut receiver = Receiver::new(level);
    let progress = Progress::of(stream.bytes(), saying);
    let mut chunk = vec![0; CHUNK];
    let (mut bytes, mut words): (u64, u64) = (0, 0);
    loop {
        let count = stream.read(&mut chunk)?;
        if count == 0 {
            return Ok(Listened { bytes, words, mode: receiver.mode() });
        }
        let piece = chunk.get(..count).unwrap_or_default();
        words = words.saturating_add(feed(&mut receiver, piece, digits_in(bytes), &mut heard)?);
        bytes = bytes.saturating_add(count as u64);
        progress.at(bytes);
    }
}

/// Feeds a piece whose first digit has this number, up to each digit at which more than one thing could change, and answers the words
/// tested. An aligned receiver is fed up to a frame's last digit: of so few digits one word is judged and one stretch ends.
fn feed(
    receiver: &mut Receiver,
    piece: &[u8],
    number: u64,
    heard: &mut impl FnMut(Heard<'_>) -> Result<(), Failure>,
) -> Result<u64, Failure> {
    let all = usize::try_from(digits_in(piece.len() as u64)).unwrap_or(0);
    let (frame, word) = (receiver.level().frame_digits(), receiver.level().word_digits() as u64);
    let mut first: usize = 0;
    let mut words: u64 = 0;
    while first < all {
        let (aligned, alarm) = (receiver.is_aligned(), receiver.has_alarm());
        let share = if aligned { frame } else { receiver.until_change() };
        // Where the word ends that is judged next.
        let due = frame.saturating_sub(receiver.place()).saturating_add(first);
        let taken = receiver.take(piece, first, share.min(all.saturating_sub(first)));
        // A frame is long, and is not moved.
        let taken = taken.as_ref().map_err(|refusal| Failure::from(*refusal))?;
        if taken.digits == 0 {
            break;
        }
        first = first.saturating_add(taken.digits);
        words = words.saturating_add(taken.words as u64);
        let digits = number.saturating_add(first as u64);
        let turn = match (aligned, receiver.is_aligned()) {
            (false, true) => {
                let since = word.saturating_add(receiver.place() as u64);
                Some((digits, Heard::Found { digit: digits.saturating_sub(since) }))
            }
            (true, false) => {
                let end = number.saturating_add(due as u64);
                Some((end, Heard::Lost { digit: end.saturating_sub(word) }))
            }
            _ => None,
        };
        // Stretches are cut from the recording's first digit on.
        let stretch = digits.saturating_sub(digits.checked_rem(frame as u64).unwrap_or(0));
        let ends = stretch.saturating_sub(1);
        let alarm = match (alarm, taken.alarm) {
            (false, true) => Some((stretch, Heard::AlarmBegins { digit: ends })),
            (true, false) => Some((stretch, Heard::AlarmEnds { digit: ends })),
            _ => None,
        };
        let mut turns: Vec<(u64, Heard<'_>)> = turn.into_iter().chain(alarm).collect();
        turns.sort_by_key(|(decided, _)| *decided);
        turns.into_iter().try_for_each(|(_, turn)| heard(turn))?;
        if let Some(complete) = &taken.frame {
            let digit = digits.saturating_sub(frame as u64);
            heard(Heard::Frame { frame: complete, digit })?;
        }
    }
    Ok(words)
}

/// Frames of a recording that follow one another without a gap.
#[derive(Clone, Copy, Debug, PartialEq, Eq, Serialize)]
pub struct Stretch {
    /// The digit of the recording at which its first frame begins.
    pub digit: u64,
    /// The number of its first frame among all that were handed over.
    pub first: u64,
    pub frames: u64,
}

/// Adds a frame that begins at this digit to the stretches, and answers whether it is behind a gap.
pub fn add_frame(stretches: &mut Vec<Stretch>, level: Level, digit: u64) -> bool {
    let frame = level.frame_digits() as u64;
    let next = |one: &Stretch| one.digit.saturating_add(frame.saturating_mul(one.frames));
    if let Some(last) = stretches.last_mut().filter(|last| next(last) == digit) {
        last.frames = last.frames.saturating_add(1);
        return false;
    }
    let first = stretches.last().map_or(0, |last| last.first.saturating_add(last.frames));
    stretches.push(Stretch { digit, first, frames: 1 });
    first > 0
}

/// The frames of a recording as a line, and where they were.
pub fn found(
    name: &Path,
    level: Level,
    earlier: u8,
    saying: Saying,
) -> Result<(Line, Vec<Stretch>), Failure> {
    let mut stream = Stream::open(name)?;
    let mut frames = Output::aside(name)?;
    let mut stretches = Vec::new();
    listen(&mut stream, level, saying, |heard| {
        if let Heard::Frame { frame, digit } = heard {
            add_frame(&mut stretches, level, digit);
            frames.append(frame.bytes())?;
        }
        Ok(())
    })?;
    let line = Line::of_input(frames.read_again()?, level, earlier)?;
    Ok((line.in_stretches(&stretches), stretches))
}

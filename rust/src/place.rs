//! What a place is, of a frame and of a multiframe.

use crate::raw::{self, count};
use crate::{Level, Refusal};

/// What a place of a frame is for.
#[derive(Clone, Copy, Debug, PartialEq, Eq, Hash)]
#[non_exhaustive]
pub enum Kind {
    /// The alignment word.
    Word,
    /// The remote alarm digit.
    RemoteAlarm,
    /// A national digit, or a service digit that no note has.
    Service,
    /// A control digit.
    Control,
    /// A justification digit; at levels 12 and 14 a positive place.
    Justification,
    /// A negative place: levels 12 and 14 only.
    Negative,
    /// An ordinary digit of a tributary.
    Ordinary,
}

/// What a place of a frame is.
#[derive(Clone, Copy, Debug, PartialEq, Eq, Hash)]
pub struct Place {
    /// What it is for.
    pub kind: Kind,
    /// The tributary, 1 to 4, whose digit stands there.
    pub tributary: Option<usize>,
}

/// What a place of a frame is, places counted from 0.
///
/// # Errors
///
/// [`Refusal::Place`] where the frame has no such place.
///
/// ```
/// use spritbobbin::{place, Kind, Level, Place};
///
/// # fn main() -> Result<(), spritbobbin::Refusal> {
/// assert_eq!(place(Level::Two, 9)?, Place { kind: Kind::Word, tributary: None });
/// assert_eq!(place(Level::Two, 640)?, Place { kind: Kind::Justification, tributary: Some(1) });
/// assert_eq!(place(Level::Two, 848).unwrap_err().number(), 7);
/// # Ok(())
/// # }
/// ```
pub fn place(level: Level, place: usize) -> Result<Place, Refusal> {
    let mut answer = [0; 2];
    // Sound: nothing is lent but the answer.
    let number = unsafe { raw::spritbobbin_place(level.number(), place as u64, &mut answer) };
    match number {
        0 => {}
        1 => return Err(Refusal::Level { number: level.number() }),
        7 => return Err(Refusal::Place { place, places: level.frame_digits() }),
        _ => return Err(Refusal::Unknown { number }),
    }
    let kind = match answer[0] {
        0 => Kind::Word,
        1 => Kind::RemoteAlarm,
        2 => Kind::Service,
        3 => Kind::Control,
        4 => Kind::Justification,
        5 => Kind::Negative,
        6 => Kind::Ordinary,
        number => return Err(Refusal::Unknown { number }),
    };
    Ok(Place { kind, tributary: Some(count(answer[1])).filter(|&number| number != 0) })
}

/// What a place of a multiframe of 2048 kbit/s is.
#[derive(Clone, Copy, Debug, PartialEq, Eq, Hash)]
#[non_exhaustive]
pub enum MultiframePlace {
    /// A digit of the word, which is this: byte 0 of even frames.
    Word(u8),
    /// The second digit of byte 0 of odd frames, always 1.
    Second,
    /// A digit of the 0000 that starts the multiframe: byte 16 of frame 0.
    Start,
    /// M: reserved for international use.
    International,
    /// A: alarm.
    Alarm,
    /// N: for use at home.
    National,
    /// X: beside the alarm of the multiframe.
    X,
    /// Y: the alarm of the multiframe.
    Y,
    /// Signalling of this channel, 1 to 30.
    Signalling(usize),
    /// A digit of this channel, 1 to 30.
    Channel(usize),
}

/// What a place of a multiframe is, 0 to 4095: digit `place % 8` of byte `place / 8 % 32` of frame
/// `place / 256`.
///
/// # Errors
///
/// [`Refusal::Place`] where the multiframe has no such place.
///
/// ```
/// use spritbobbin::{multiframe_place, MultiframePlace};
///
/// # fn main() -> Result<(), spritbobbin::Refusal> {
/// assert_eq!(multiframe_place(3)?, MultiframePlace::Word(1));
/// assert_eq!(multiframe_place(256 + 16 * 8 + 4)?, MultiframePlace::Signalling(16));
/// assert_eq!(multiframe_place(4096).unwrap_err().number(), 7);
/// # Ok(())
/// # }
/// ```
pub fn multiframe_place(place: usize) -> Result<MultiframePlace, Refusal> {
    let mut answer = [0; 2];
    // Sound: nothing is lent but the answer.
    let number = unsafe { raw::spritbobbin_multiframe_place(place as u64, &mut answer) };
    match number {
        0 => {}
        7 => return Err(Refusal::Place { place, places: 4096 }),
        _ => return Err(Refusal::Unknown { number }),
    }
    Ok(match answer[0] {
        0 => MultiframePlace::Word(answer[1] as u8),
        1 => MultiframePlace::Second,
        2 => MultiframePlace::Start,
        3 => MultiframePlace::International,
        4 => MultiframePlace::Alarm,
        5 => MultiframePlace::National,
        6 => MultiframePlace::X,
        7 => MultiframePlace::Y,
        8 => MultiframePlace::Signalling(count(answer[1])),
        9 => MultiframePlace::Channel(count(answer[1])),
        number => return Err(Refusal::Unknown { number }),
    })
}

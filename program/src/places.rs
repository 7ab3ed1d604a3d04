//! The places of a frame, as the library names them.

use spritbobbin::{place, Kind, Level, Place};

use crate::failure::Failure;
use crate::pictures;

/// Every place of a frame.
pub fn all(level: Level) -> Result<Vec<Place>, Failure> {
    (0..level.frame_digits()).map(|number| place(level, number).map_err(Failure::from)).collect()
}

/// How many sets a frame has: each begins with the word or with control digits.
pub fn sets(places: &[Place]) -> u64 {
    let heads = |pair: &[Place]| match pair {
        [before, one] => before.kind != one.kind && matches!(one.kind, Kind::Word | Kind::Control),
        _ => false,
    };
    1 + places.windows(2).filter(|pair| heads(pair)).count() as u64
}

/// A place as the drawings take it.
pub fn drawn(place: &Place) -> pictures::Place {
    let kind = match place.kind {
        Kind::Word => pictures::Kind::Word,
        Kind::RemoteAlarm => pictures::Kind::RemoteAlarm,
        Kind::Service => pictures::Kind::Service,
        Kind::Control => pictures::Kind::Control,
        Kind::Justification => pictures::Kind::Justification,
        Kind::Negative => pictures::Kind::Negative,
        _ => pictures::Kind::Ordinary,
    };
    pictures::Place { kind, tributary: place.tributary.unwrap_or(0) as u64 }
}

//! A frame as a list of named places, and the same list filled or read.

use crate::level::Row;
use std::collections::VecDeque;

/// What stands at a place. Tributaries 1 to 4 are counted from 0 here, as their bits in
/// a note are; so are the word's digits and the national digits.
#[derive(Clone, Copy, Debug, PartialEq, Eq)]
pub enum Place {
    Word(usize),
    RemoteAlarm,
    National(usize),
    /// A service digit without a bit in the note.
    Service,
    Control(usize),
    /// A negative place.
    Negative(usize),
    /// A justification digit; where there are negative places, a positive one.
    Justification(usize),
    Tributary(usize),
}

/// The digits of one tributary that are still to be sent.
pub type Waiting = VecDeque<u8>;

/// All places of a frame in order, set by set: each set's head, then tributary digits in
/// turn until the set is full.
pub fn layout(row: &Row) -> Vec<Place> {
    let mut places = Vec::new();
    for set in 0..row.sets {
        let mut these = head(row, set);
        for tributary in (0..4).cycle().take(row.set_digits - these.len()) {
            these.push(Place::Tributary(tributary));
        }
        places.extend(these);
    }
    places
}

/// The number of a place's kind and of the tributary that owns it, by the header's list; the place's
/// refusal first.
pub fn place_numbers(level: u64, place: u64) -> [u64; 3] {
    let places = match crate::level::row(level) {
        Some(row) => layout(row),
        None => return [1, 0, 0],
    };
    let found = usize::try_from(place).ok().and_then(|at| places.get(at));
    let owned = |j: &usize| *j as u64 + 1;
    match found {
        None => [7, 0, 0],
        Some(Place::Word(_)) => [0, 0, 0],
        Some(Place::RemoteAlarm) => [0, 1, 0],
        Some(Place::National(_) | Place::Service) => [0, 2, 0],
        Some(Place::Control(j)) => [0, 3, owned(j)],
        Some(Place::Justification(j)) => [0, 4, owned(j)],
        Some(Place::Negative(j)) => [0, 5, owned(j)],
        Some(Place::Tributary(j)) => [0, 6, owned(j)],
    }
}

fn head(row: &Row, set: usize) -> Vec<Place> {
    let mut places = Vec::new();
    let service = |digits| (0..digits).map(|_| Place::Service);
    if set == 0 {
        places.extend((0..row.word_length()).map(Place::Word));
        places.extend((0..row.remote_alarm_digits).map(|_| Place::RemoteAlarm));
        places.extend((0..row.national_digits).map(Place::National));
        places.extend(service(row.first_service_digits));
        return places;
    }
    places.extend((0..4).map(Place::Control));
    if set < row.sets - 1 {
        places.extend(service(row.middle_service_digits));
        return places;
    }
    if row.negative_places {
        places.extend((0..4).map(Place::Negative));
    }
    places.extend((0..4).map(Place::Justification));
    places
}

/// What a frame does for one tributary.
#[derive(Clone, Copy, Debug, PartialEq, Eq)]
pub enum Action {
    /// The justification place carries no digit.
    Stuffed,
    /// The justification place carries one.
    Plain,
    /// The negative place carries one too.
    Negative,
}

/// The action of a frame with this note for tributary j, counted from 0; `before` has the
/// preceding frame's votes, and counts only where there are negative places.
pub fn action(row: &Row, before: u8, note: u8, j: usize) -> Action {
    match (row.negative_places, note_digit(before, j), note_digit(note, j)) {
        (false, _, 1) | (true, 1, 1) => Action::Stuffed,
        (true, 0, 0) => Action::Negative,
        _ => Action::Plain,
    }
}

/// Whose digit a place carries in a frame with these votes, if it carries any.
pub fn carried(row: &Row, before: u8, note: u8, place: Place) -> Option<usize> {
    let acts = |j| action(row, before, note, j);
    match place {
        Place::Tributary(j) => Some(j),
        Place::Justification(j) => Some(j).filter(|&j| acts(j) != Action::Stuffed),
        Place::Negative(j) => Some(j).filter(|&j| acts(j) == Action::Negative),
        Place::Word(_) | Place::RemoteAlarm | Place::National(_) => None,
        Place::Service | Place::Control(_) => None,
    }
}

/// Bit `bit` of a note, as a digit.
fn note_digit(note: u8, bit: usize) -> u8 {
    note >> bit & 1
}

/// The digits of one frame; `before` has the preceding frame's votes.
pub fn fill(row: &Row, before: u8, note: u8, waiting: &mut [Waiting]) -> Vec<u8> {
    let word = row.word_digits();
    let mut digit_at = |place| match (carried(row, before, note, place), place) {
        // Room for the most digits of every frame was asked for, so the list never runs dry.
        (Some(j), _) => waiting[j].pop_front().unwrap_or(0),
        (None, Place::Word(k)) => word[k],
        (None, Place::RemoteAlarm) => note_digit(note, 4),
        (None, Place::National(k)) => note_digit(note, 5 + k),
        (None, Place::Control(j)) => note_digit(note, j),
        // Service digits without a bit, stuffing digits and unused negative places are sent as 1.
        (None, _) => 1,
    };
    layout(row).into_iter().map(&mut digit_at).collect()
}

/// Makes the control digits of a frame say the decisions of a note; every other digit stays.
pub fn say(row: &Row, note: u8, digits: &mut [u8]) {
    for (place, digit) in layout(row).into_iter().zip(digits) {
        if let Place::Control(j) = place {
            *digit = note_digit(note, j);
        }
    }
}

/// Puts one tributary's digits into a frame: its control digits by the note, a digit at each place
/// that carries one, and 1 at its places that carry none.
pub fn put(
    row: &Row,
    before: u8,
    note: u8,
    tributary: usize,
    waiting: &mut Waiting,
    digits: &mut [u8],
) {
    for (place, digit) in layout(row).into_iter().zip(digits) {
        if owner(place) != Some(tributary) {
            continue;
        }
        *digit = match place {
            Place::Control(_) => note_digit(note, tributary),
            _ if carried(row, before, note, place).is_none() => 1,
            _ => waiting.pop_front().unwrap_or(0),
        };
    }
}

/// Whose own place this is, if it is any tributary's.
fn owner(place: Place) -> Option<usize> {
    match place {
        Place::Control(j) | Place::Negative(j) => Some(j),
        Place::Justification(j) | Place::Tributary(j) => Some(j),
        Place::Word(_) | Place::RemoteAlarm | Place::National(_) | Place::Service => None,
    }
}

/// What one received frame says.
pub struct Read {
    pub note: u8,
    /// Alignment digits that differ from the word.
    pub alignment: u64,
    /// Each tributary's control digits that differ from their majority.
    pub dissent: [u64; 4],
}

/// Reads the note of one frame, and counts its wrong digits.
pub fn read(row: &Row, digits: &[u8]) -> Read {
    let named: Vec<(Place, u8)> = layout(row).into_iter().zip(digits.iter().copied()).collect();
    let group = |j| pick(&named, Place::Control(j));
    let mut note = 0;
    for &(place, digit) in &named {
        match place {
            Place::RemoteAlarm => note |= digit << 4,
            Place::National(k) => note |= digit << (5 + k),
            Place::Justification(j) => note |= u8::from(stuffed(&group(j))) << j,
            _ => {}
        }
    }
    let dissent = [0, 1, 2, 3].map(|j| dissent(&group(j)));
    Read { note, alignment: wrong_digits(row, digits), dissent }
}

/// The four tributaries' digits in one frame, by a note and the one before. Only their votes
/// are looked at, and no control digit is.
pub fn take(row: &Row, before: u8, note: u8, digits: &[u8]) -> [Vec<u8>; 4] {
    let mut tributaries = [0, 1, 2, 3].map(|_| Vec::new());
    for (place, &digit) in layout(row).into_iter().zip(digits) {
        if let Some(j) = carried(row, before, note, place) {
            tributaries[j].push(digit);
        }
    }
    tributaries
}

fn pick(named: &[(Place, u8)], wanted: Place) -> Vec<u8> {
    named.iter().filter(|(place, _)| *place == wanted).map(|&(_, digit)| digit).collect()
}

fn wrong_digits(row: &Row, digits: &[u8]) -> u64 {
    let word = row.word_digits();
    word.iter().zip(digits).filter(|(sent, received)| sent != received).count() as u64
}

/// The majority of a control group: at least 2 of 3, or 3 of 5.
pub fn stuffed(group: &[u8]) -> bool {
    let ones = group.iter().filter(|&&digit| digit == 1).count();
    ones > group.len() - ones
}

/// How many digits of a control group differ from its majority.
pub fn dissent(group: &[u8]) -> u64 {
    let majority = u8::from(stuffed(group));
    group.iter().filter(|&&digit| digit != majority).count() as u64
}

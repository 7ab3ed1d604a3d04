//! The multiframe of 2048 kbit/s: built out of channels, signalling and spare digits, and taken
//! apart. Each frame is first written down as the letters of the tables, a letter to a digit, and
//! the letters say from which of the lists a digit comes.

use crate::digits::{pack, unpack};
use std::iter::repeat;

/// A digit of a multiframe: what it is fixed at, or whose list it is the next of.
#[derive(Clone, Copy, PartialEq, Eq)]
enum Place {
    Fixed(u8),
    Spare,
    Signalling(usize),
    Channel(usize),
}

/// Table 1: M is reserved, A the alarm, and the five others are for use at home.
const WITH_WORD: &str = "M0011011";
const WITHOUT_WORD: &str = "M1APCBTY";

/// Byte 16 of frame 0 by G.704.
const FIRST_SIXTEENTH: &str = "0000XYXX";

fn of_letters(letters: &str) -> Vec<Place> {
    let place = |letter| match letter {
        '0' => Place::Fixed(0),
        '1' => Place::Fixed(1),
        _ => Place::Spare,
    };
    letters.chars().map(place).collect()
}

/// The 32 bytes of a frame, each as its eight places.
fn frame(number: usize) -> Vec<Place> {
    let mut places = of_letters(if number % 2 == 0 { WITH_WORD } else { WITHOUT_WORD });
    let channel = |channel| repeat(Place::Channel(channel)).take(8);
    places.extend((1..=15).flat_map(channel));
    if number == 0 {
        places.extend(of_letters(FIRST_SIXTEENTH));
    } else {
        places.extend([Place::Signalling(number); 4]);
        places.extend([Place::Signalling(number + 15); 4]);
    }
    places.extend((16..=30).flat_map(channel));
    places
}

fn multiframe() -> Vec<Place> {
    (0..16).flat_map(frame).collect()
}

/// The refusal of a place, the number of its kind by the header's list, and the digit fixed there or
/// the channel: read off the letters of the tables.
pub fn multiframe_place(place: u64) -> [u64; 3] {
    let at = match usize::try_from(place) {
        Ok(at) if at < 4096 => at,
        _ => return [7, 0, 0],
    };
    let (frame, byte, digit) = (at / 256, at / 8 % 32, at % 8);
    let letters = match (byte, frame) {
        (0, _) if frame % 2 == 0 => WITH_WORD,
        (0, _) => WITHOUT_WORD,
        (16, 0) => FIRST_SIXTEENTH,
        (16, _) => return [0, 8, (if digit < 4 { frame } else { frame + 15 }) as u64],
        _ => return [0, 9, (if byte < 16 { byte } else { byte - 1 }) as u64],
    };
    match (letters.as_bytes()[digit], letters) {
        (b'0', WITH_WORD) => [0, 0, 0],
        (b'1', WITH_WORD) => [0, 0, 1],
        (b'1', WITHOUT_WORD) => [0, 1, 1],
        (b'0', FIRST_SIXTEENTH) => [0, 2, 0],
        (b'M', _) => [0, 3, 0],
        (b'A', _) => [0, 4, 0],
        (b'X', _) => [0, 6, 0],
        (b'Y', FIRST_SIXTEENTH) => [0, 7, 0],
        _ => [0, 5, 0],
    }
}

/// The digits that are lent, in the order in which the places of each kind take them.
struct Lists {
    channels: Vec<Vec<u8>>,
    signalling: Vec<Vec<u8>>,
    spare: Vec<u8>,
}

/// The lengths in bytes of multiframe, channels, signalling and spare digits: 2, or 0.
pub fn multiframe_refusal(lengths: [u64; 4]) -> u64 {
    if lengths == [512, 480, 15, 9] {
        0
    } else {
        2
    }
}

fn lengths(multiframe: &[u8], channels: &[u8], signalling: &[u8], spare: &[u8]) -> [u64; 4] {
    [multiframe, channels, signalling, spare].map(|slice| slice.len() as u64)
}

/// The four signalling digits of a channel.
fn signal(signalling: &[u8], channel: usize) -> Vec<u8> {
    let byte = signalling[(channel - 1) % 15];
    let four = if channel <= 15 { byte >> 4 } else { byte & 15 };
    unpack(&[four << 4], 4)
}

/// Builds a multiframe; the refusal, and the channel that 11 names.
pub fn build_multiframe(
    multiframe_bytes: &mut [u8],
    channels: &[u8],
    signalling: &[u8],
    spare: &[u8],
) -> (u64, u64) {
    let refusal = multiframe_refusal(lengths(multiframe_bytes, channels, signalling, spare));
    if refusal != 0 {
        return (refusal, 0);
    }
    if let Some(silent) = (1..=15).find(|&channel| signal(signalling, channel) == [0; 4]) {
        return (11, silent as u64);
    }
    let mut lists = Lists {
        channels: channels.chunks(16).map(|bytes| unpack(bytes, 128)).collect(),
        signalling: (1..=30).map(|channel| signal(signalling, channel)).collect(),
        spare: unpack(spare, 68),
    };
    let digits: Vec<u8> = multiframe().into_iter().map(|place| lists.next(place)).collect();
    multiframe_bytes.copy_from_slice(&pack(&digits));
    (0, 0)
}

impl Lists {
    fn next(&mut self, place: Place) -> u8 {
        match place {
            Place::Fixed(digit) => digit,
            Place::Spare => self.spare.remove(0),
            Place::Signalling(channel) => self.signalling[channel - 1].remove(0),
            Place::Channel(channel) => self.channels[channel - 1].remove(0),
        }
    }
}

/// Takes a multiframe apart; the refusal.
pub fn take_multiframe_apart(
    multiframe_bytes: &[u8],
    channels: &mut [u8],
    signalling: &mut [u8],
    spare: &mut [u8],
) -> u64 {
    let refusal = multiframe_refusal(lengths(multiframe_bytes, channels, signalling, spare));
    if refusal != 0 {
        return refusal;
    }
    let placed: Vec<(Place, u8)> =
        multiframe().into_iter().zip(unpack(multiframe_bytes, 4096)).collect();
    let all = |wanted: Place| -> Vec<u8> {
        placed.iter().filter(|(place, _)| *place == wanted).map(|(_, digit)| *digit).collect()
    };
    let channel_digits: Vec<u8> =
        (1..=30).flat_map(|channel| all(Place::Channel(channel))).collect();
    let signals =
        (1..=15).flat_map(|k| [all(Place::Signalling(k)), all(Place::Signalling(k + 15))]);
    channels.copy_from_slice(&pack(&channel_digits));
    signalling.copy_from_slice(&pack(&signals.flatten().collect::<Vec<u8>>()));
    spare.copy_from_slice(&pack(&all(Place::Spare)));
    0
}

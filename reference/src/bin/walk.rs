//! The recording of the guide's first walk, and what was sent: `walk DIR` writes `recording` and `sent` into DIR.
//!
//! 300 frames of level 2, made by a multiplexer that acts on each decision a frame late. One digit in a thousand is
//! wrong, the first frame is cut, and 480 digits of noise stand before it. The clocks of the tributaries are off by
//! about -20, 0, +10 and +30 parts in a million.

use reference::digits::{pack, unpack};
use reference::judging::{line_of, Reading};
use reference::level::row;
use reference::random::Random;
use std::path::Path;
use std::{env, fs, io, process};

const FRAMES: usize = 300;

/// Out of 100,000 frames so many stuff the tributary: 42,424 at its nominal rate, 206 fewer where it is 10 ppm fast.
const STUFFED: [usize; 4] = [42_836, 42_424, 42_218, 41_806];

/// The note of a frame: national digit 1, and a decision wherever a whole digit is to be left out.
fn note(frame: usize) -> u8 {
    let due = |frames: usize, j: usize| (frames * STUFFED[j] + j * 25_000) / 100_000;
    let decided = |j: usize| due(frame + 1, j) - due(frame, j);
    (0..4).fold(0x20, |note, j| note | (decided(j) as u8) << j)
}

fn main() -> io::Result<()> {
    let folder = env::args().nth(1).unwrap_or_else(|| {
        eprintln!("walk DIR: the folder to write into is missing");
        process::exit(2);
    });
    let row = row(2).expect("level 2");
    let mut random = Random::new(7);
    // A quarter has room for every digit of a frame, and whole bytes.
    let quarter = (FRAMES * row.most_digits() + 7) / 8;
    let sent = [0; 4].map(|_| random.digits(8 * quarter));
    let notes: Vec<u8> = (0..FRAMES).map(note).collect();
    let line = line_of(row, 0, &notes, &sent, Reading::Before, 0);
    let mut digits = random.digits(480);
    digits.extend(&unpack(&line, 8 * line.len())[264..]);
    for digit in &mut digits[480..] {
        *digit ^= u8::from(random.once_in(1000));
    }
    let folder = Path::new(&folder);
    fs::write(folder.join("recording"), pack(&digits))?;
    fs::write(folder.join("sent"), sent.iter().flat_map(|digits| pack(digits)).collect::<Vec<u8>>())
}

//! Calls that swap one tributary of a line: lines of any kind, votes of any kind with bits that are
//! nobody's, every set of faults, and lengths that no memory holds.

use crate::call::Call;
use crate::face::{spritbobbin_swap, UNWRITTEN};
use crate::levels::any_row;
use crate::multiplexing::lending;
use crate::Run;
use reference::level::{row, Row, LEVELS};
use reference::random::Random;
use reference::swap_refusal;

/// The call's name.
const SWAP: &str = "swap";

/// Faults by refusal number, 1 to 5 from the lowest bit on, then 12.
type Faults = u64;
const ALL_FAULTS: Faults = 1 << 6;

pub fn part(run: &mut Run) {
    for row in LEVELS.into_iter().filter_map(row) {
        for frames in 0..=64 {
            one(run, row, frames, 0);
        }
        for tributary in 1..=4 {
            for _ in 0..30 {
                there_and_swapped(run, row, tributary);
            }
        }
    }
    for _ in 0..6 {
        for faults in 0..ALL_FAULTS {
            for row in LEVELS.into_iter().filter_map(row) {
                let frames = run.random.index(4);
                one(run, row, frames, faults);
            }
        }
    }
    for _ in 0..run.often(2_000) {
        let row = any_row(&mut run.random);
        let (frames, faults) = (run.random.index(5), run.random.below(ALL_FAULTS));
        let faults = if run.random.once_in(3) { faults } else { 0 };
        one(run, row, frames, faults);
    }
}

/// One call on a line of any digits.
fn one(run: &mut Run, row: &Row, frames: usize, faults: Faults) {
    let random = &mut run.random;
    let mut with = lending(random, row.level, frames, faults & 0x1F & !(1 << 3));
    with.buffer = buffer(random, row, frames, faults >> 3 & 1 == 1);
    if random.once_in(2) {
        // Bits that are not looked at, of the other tributaries and of service digits.
        let more = random.bytes(with.notes.len());
        with.notes.iter_mut().zip(more).for_each(|(note, more)| *note ^= more);
    }
    let tributary = match faults >> 5 & 1 {
        0 => 1 + random.below(4),
        _ => random.pick(&[0, 0, 5, 6, 8, 255, 256 + 1, (1 << 32) + 2, 1 << 63, u64::MAX]),
    };
    run.compare(&Call::Swap(with, tributary));
}

/// The digits of one tributary: room for the most of every frame and some bytes to spare, or too
/// little room. No multiple of 4 is asked for.
fn buffer(random: &mut Random, row: &Row, frames: usize, short: bool) -> Vec<u8> {
    let least = (frames * row.most_digits() + 7) / 8;
    let bytes = match short {
        true if random.once_in(2) => least.saturating_sub(1),
        true => random.index(least),
        false => least + random.pick(&[0, 0, 1, 2, 3, 17]),
    };
    random.filled(bytes)
}

/// A sound send whose tributary is then swapped twice: by votes of its own, and by the opposite.
fn there_and_swapped(run: &mut Run, row: &Row, tributary: u64) {
    let frames = 1 + run.random.index(16);
    let mut with = lending(&mut run.random, row.level, frames, 0);
    let sent = run.compare(&Call::Multiplex(with.clone()));
    with.line.clone_from(&sent.lent[0].1);
    with.notes = run.random.bytes(frames);
    for _ in 0..2 {
        with.buffer = buffer(&mut run.random, row, frames, false);
        let swapped = run.compare(&Call::Swap(with.clone(), tributary));
        with.line.clone_from(&swapped.lent[0].1);
        with.notes.iter_mut().for_each(|note| *note = !*note);
        with.earlier ^= 0x0F;
    }
}

/// Pointers and lengths for which the call is refused, or that lend nothing at all.
pub fn by_lengths(run: &mut Run, level: u64, earlier: u64, tributary: u64, lengths: [u64; 3]) {
    let [line, notes, buffer] = lengths;
    let refusal = swap_refusal(level, earlier, tributary, lengths);
    let inputs = format!(
        "level {level}, earlier {earlier}, tributary {tributary}, \
         line {line}, notes {notes}, buffer {buffer} bytes"
    );
    if refusal == 0 && lengths != [0; 3] {
        return;
    }
    let (mut memory, mut answer) = ([0_u8; 4096], [UNWRITTEN]);
    let at = if lengths == [0; 3] { std::ptr::null_mut() } else { memory.as_mut_ptr() };
    // Sound if the face judges lengths before it reads or writes, and makes no slice of a null
    // pointer.
    let returned = unsafe {
        let (l, n, b, a) = (line as usize, notes as usize, buffer as usize, answer.as_mut_ptr());
        spritbobbin_swap(level, earlier, tributary, at, l, at, n, at, b, a)
    };
    run.expect(SWAP, &inputs, &[refusal, 0], &[returned, answer[0]]);
}

//! Calls on multiframes: every length at its border, silent channels, one digit at a time, and
//! random content both ways.

use crate::call::{Call, Whole};
use crate::face::{spritbobbin_multiframe_apart, spritbobbin_multiframe_build, UNWRITTEN};
use crate::Run;
use reference::multiframe_refusal;

const LENGTHS: [usize; 4] = [512, 480, 15, 9];

pub fn part(run: &mut Run) {
    borders(run);
    silent(run);
    single_digits(run);
    for _ in 0..run.often(2_000) {
        both_ways(run);
    }
}

/// Slices of these lengths with any content; channels 1 to 15 seldom signal 0000.
fn whole(run: &mut Run, [m, c, s, x]: [usize; 4]) -> Whole {
    let mut signalling = run.random.filled(s);
    if !run.random.once_in(8) {
        signalling.iter_mut().filter(|byte| **byte < 16).for_each(|byte| *byte |= 0x90);
    }
    Whole {
        multiframe: run.random.filled(m),
        channels: run.random.filled(c),
        signalling,
        spare: run.random.filled(x),
    }
}

fn compare(run: &mut Run, with: Whole) {
    run.compare(&Call::MultiframeBuild(with.clone()));
    run.compare(&Call::MultiframeApart(with));
}

/// Each length a little off, and far off, and two of them exchanged.
fn borders(run: &mut Run) {
    for which in 0..4 {
        let right = LENGTHS[which];
        for length in [0, 1, right - 1, right, right + 1, 2 * right, 8 * right] {
            let mut lengths = LENGTHS;
            lengths[which] = length;
            for _ in 0..8 {
                let with = whole(run, lengths);
                compare(run, with);
            }
        }
        for other in 0..which {
            let mut lengths = LENGTHS;
            lengths.swap(which, other);
            let with = whole(run, lengths);
            compare(run, with);
        }
    }
}

/// Each of the thirty channels silent alone, and two at once.
fn silent(run: &mut Run) {
    for one in 0..30 {
        for other in 0..30 {
            let mut with = whole(run, LENGTHS);
            with.signalling = vec![0xFF; 15];
            for channel in [one, other] {
                with.signalling[channel % 15] &= if channel < 15 { 0x0F } else { 0xF0 };
            }
            compare(run, with);
        }
    }
}

/// Every digit that is lent is the only one that is 1, or the only 0.
fn single_digits(run: &mut Run) {
    for all in [0_u8, 0xFF] {
        let even = Whole {
            multiframe: vec![all; 512],
            channels: vec![all; 480],
            signalling: vec![0xFF; 15],
            spare: vec![all; 9],
        };
        for digit in 0..4096 {
            let bit = 0x80 >> (digit % 8);
            let mut with = even.clone();
            with.multiframe[digit / 8] ^= bit;
            run.compare(&Call::MultiframeApart(with));
            let mut with = even.clone();
            let lists = [&mut with.channels, &mut with.signalling, &mut with.spare];
            for list in lists {
                if let Some(byte) = list.get_mut(digit / 8) {
                    *byte ^= bit;
                }
            }
            run.compare(&Call::MultiframeBuild(with));
        }
    }
}

/// Built, taken apart, and built again.
fn both_ways(run: &mut Run) {
    let mut with = whole(run, LENGTHS);
    let built = run.compare(&Call::MultiframeBuild(with.clone()));
    with.multiframe = built.lent[0].1.clone();
    let apart = run.compare(&Call::MultiframeApart(with.clone()));
    if built.returned != 0 {
        return;
    }
    let mut spare = with.spare.clone();
    spare[8] &= 0xF0;
    let back = [&with.channels, &with.signalling, &spare];
    if (0..3).any(|which| apart.lent[which + 1].1 != *back[which]) {
        println!("DISAGREEMENT: a multiframe taken apart is not what it was built of");
        run.end_with_disagreement();
    }
}

/// Lengths that no memory holds, and null pointers: refused for their lengths alone.
pub fn false_lengths(run: &mut Run) {
    let longs = [0, 1 << 62, (1 << 63) - 1, 1 << 63, u64::MAX, (1 << 32) + 512];
    for which in 0..4 {
        for long in longs {
            let mut lengths = LENGTHS.map(|length| length as u64);
            lengths[which] = long;
            one_false_length(run, lengths);
            one_false_length(run, [long; 4]);
        }
    }
}

fn one_false_length(run: &mut Run, lengths: [u64; 4]) {
    let refusal = multiframe_refusal(lengths);
    let (mut memory, mut answer) = ([0_u8; 4096], [UNWRITTEN; 1]);
    let at = if lengths == [0; 4] { std::ptr::null_mut() } else { memory.as_mut_ptr() };
    let inputs = format!("multiframe, channels, signalling, spare of {lengths:?} bytes");
    let [m, c, s, x] = lengths.map(|length| length as usize);
    // Sound if the face judges lengths before it reads or writes; nothing is lent but a little
    // memory that all pointers share.
    let returned = unsafe {
        [
            spritbobbin_multiframe_build(at, m, at, c, at, s, at, x, answer.as_mut_ptr()),
            spritbobbin_multiframe_apart(at, m, at, c, at, s, at, x),
        ]
    };
    run.expect("multiframe_build", &inputs, &[refusal, 0], &[returned[0], answer[0]]);
    run.expect("multiframe_apart", &inputs, &[refusal], &returned[1..]);
}

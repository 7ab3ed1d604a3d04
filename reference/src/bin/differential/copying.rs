//! Copies of digits: every beginning and end in a byte, slices of any length, numbers near the slices' ends
//! and numbers whose sums do not fit in 64 bits.

use crate::call::{Call, Copying};
use crate::face::spritbobbin_copy_digits;
use crate::Run;
use reference::copy_refusal;

/// The call's name.
const COPY: &str = "copy_digits";

pub fn part(run: &mut Run) {
    for at in 0..9 {
        for first in 0..9 {
            for count in [0, 1, 2, 7, 8, 9, 23, 24, 25, 31, 32, 33, 40, 63, 64, 65, 71] {
                one(run, [10, 11], at, first, count);
            }
        }
    }
    for _ in 0..run.often(4_000) {
        let random = &mut run.random;
        let lengths = [random.index(70), random.index(70)];
        let mut begin = |bytes: usize| {
            let within = random.below(8 * bytes as u64 + 1);
            random.near(within)
        };
        let [at, first] = [begin(lengths[0]), begin(lengths[1])];
        let room = (8 * lengths[0] as u64).saturating_sub(at);
        let there = (8 * lengths[1] as u64).saturating_sub(first);
        let count = random.near(room.min(there));
        one(run, lengths, at, first, count);
    }
}

fn one(run: &mut Run, [to, from]: [usize; 2], at: u64, first: u64, count: u64) {
    let (to, from) = (run.random.filled(to), run.random.filled(from));
    run.compare(&Call::Copy(Copying { to, at, from, first, count }));
}

/// Nothing lent, and lengths that no memory holds, where the copy is refused for one of them.
pub fn by_lengths(run: &mut Run, lengths: [u64; 2]) {
    let mut memory = [0_u8; 64];
    let end = |bytes: u64| bytes.wrapping_mul(8);
    for (at, first, count) in [
        (0, 0, 0),
        (0, 0, 1),
        (1, 0, 0),
        (end(lengths[0]), end(lengths[1]), 1),
        (u64::MAX, 8, u64::MAX),
        (8, u64::MAX, u64::MAX),
        (u64::MAX, u64::MAX, 1),
        (1 << 63, 1 << 63, 1 << 63),
    ] {
        let refusal = copy_refusal(lengths[0], at, lengths[1], first, count);
        let nothing = lengths == [0; 2];
        if refusal == 0 && !nothing {
            continue;
        }
        let inputs = format!("lengths {lengths:?}, at {at}, first {first}, count {count}");
        let to = if nothing { std::ptr::null_mut() } else { memory.as_mut_ptr() };
        let [to_bytes, from_bytes] = lengths.map(|bytes| bytes as usize);
        // Sound if the face judges lengths before it reads or writes, and makes no slice of a null
        // pointer.
        let returned =
            unsafe { spritbobbin_copy_digits(to, to_bytes, at, to, from_bytes, first, count) };
        run.expect(COPY, &inputs, &[refusal], &[returned]);
    }
}

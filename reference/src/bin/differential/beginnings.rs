//! Lines of a late multiplexer with every set of faults, searches for a recording's beginning, and frames of
//! 2048 kbit/s of which one may begin the multiframe.

use crate::call::{Call, Search};
use crate::face::{spritbobbin_begins, UNWRITTEN};
use crate::levels::any_row;
use crate::multiplexing::lending;
use crate::Run;
use reference::begins_refusal;
use reference::level::LEVELS;

/// The call's name.
const BEGINS: &str = "begins";

pub fn part(run: &mut Run) {
    late_lines(run);
    for _ in 0..run.often(4_000) {
        searched(run);
    }
    for _ in 0..run.often(3_000) {
        started(run);
    }
}

/// Every level with every number of frames, and every set of faults.
fn late_lines(run: &mut Run) {
    for level in LEVELS {
        for frames in 0..=64 {
            let with = lending(&mut run.random, level, frames, 0);
            run.compare(&Call::LateMultiplex(with));
        }
    }
    for faults in 0..1 << 6 {
        for _ in 0..run.often(30) {
            let (level, frames) = (any_row(&mut run.random).level, run.random.index(5));
            let with = lending(&mut run.random, level, frames, faults);
            run.compare(&Call::LateMultiplex(with));
        }
    }
}

/// A reading that is a part of what was sent, worn or not, or any digits; numbers near their borders.
fn searched(run: &mut Run) {
    let random = &mut run.random;
    let (read, sent) = (random.index(20), random.index(60));
    let sent = random.filled(sent);
    let mut read = random.filled(read);
    if random.once_in(2) && sent.len() > read.len() {
        let from = random.index(sent.len() - read.len());
        read = sent[from..from + read.len()].to_vec();
        if !read.is_empty() && random.once_in(2) {
            let at = random.index(read.len());
            read[at] ^= random.number() as u8;
        }
    }
    let (all, most) = (8 * sent.len() as u64, 8 * read.len() as u64);
    let digits = if random.once_in(2) { most } else { random.near(most) };
    let first = if random.once_in(2) { random.below(20) } else { random.near(all) };
    let left = all.saturating_sub(digits).saturating_sub(first).wrapping_add(1);
    let count = random.near(left);
    run.compare(&Call::Begins(Search { read, digits, sent, first, count }));
}

/// Sixteen frames of any digits in which some look like the multiframe's first, and other lengths.
fn started(run: &mut Run) {
    let random = &mut run.random;
    let length = if random.once_in(8) { random.index(1100) } else { 512 };
    let mut frames = random.filled(length);
    for frame in frames.chunks_mut(32).filter(|frame| frame.len() == 32) {
        if random.once_in(6) {
            frame[0] = 0x1B | frame[0] & 0x80;
            frame[16] &= 0x0F;
        }
        if random.once_in(6) {
            frame[random.pick(&[0, 16])] ^= 1 << random.below(8);
        }
    }
    run.compare(&Call::MultiframeStart(frames));
}

/// Nothing lent, and lengths that no memory holds, where the search is refused for one of them.
pub fn by_lengths(run: &mut Run, [read, sent]: [u64; 2]) {
    let memory = [0_u8; 64];
    let large = [0, 1, 8, 1 << 62, 1 << 63, u64::MAX - 1, u64::MAX];
    for digits in large {
        for (first, count) in large.into_iter().flat_map(|a| large.map(|b| (a, b))) {
            let refusal = begins_refusal(read, digits, sent, first, count);
            let nothing = [read, sent] == [0; 2];
            if refusal == 0 && !nothing {
                continue;
            }
            let inputs =
                format!("read {read}, sent {sent} bytes; {digits} digits, {first}, {count}");
            let at = if nothing { std::ptr::null() } else { memory.as_ptr() };
            let mut answer = [UNWRITTEN; 2];
            // Sound if the face judges lengths before it reads, and makes no slice of a null pointer.
            let returned = unsafe {
                let (r, s, a) = (read as usize, sent as usize, answer.as_mut_ptr());
                spritbobbin_begins(at, r, digits, at, s, first, count, a)
            };
            run.expect(BEGINS, &inputs, &[refusal, 0, 0], &[&[returned], &answer[..]].concat());
        }
    }
}

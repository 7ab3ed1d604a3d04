//! Calls that repair a line: sent lines with digits changed, lines of any digits, the switch for
//! national digits on and off, every set of faults, and lengths that no memory holds.

use crate::call::{Call, Worn};
use crate::face::{spritbobbin_repair, UNWRITTEN};
use crate::levels::any_row;
use crate::multiplexing::{any_earlier, damage, lending};
use crate::Run;
use reference::level::{row, Row, LEVELS};
use reference::random::Random;
use reference::repair_refusal;

/// The call's name.
const REPAIR: &str = "repair";

pub fn part(run: &mut Run) {
    for row in LEVELS.into_iter().filter_map(row) {
        for frames in 0..=64 {
            sent_and_worn(run, row, frames);
        }
    }
    for _ in 0..run.often(2_000) {
        let row = any_row(&mut run.random);
        let frames = run.random.index(6);
        sent_and_worn(run, row, frames);
        any_digits(run, row, frames);
    }
    for _ in 0..20 {
        // Level, line and earlier vote, each right or wrong.
        for faults in [0, 1, 2, 3].into_iter().flat_map(|two| [two, two | 1 << 4]) {
            for row in LEVELS.into_iter().filter_map(row) {
                let frames = run.random.index(4);
                let with = lending(&mut run.random, row.level, frames, faults);
                for national in [0, 1] {
                    run.compare(&Call::Repair(Worn::of(with.clone(), national)));
                }
            }
        }
    }
}

/// The switch off, on, or any number, which is on.
fn switch(random: &mut Random) -> u64 {
    match random.below(5) {
        0 | 1 => 0,
        2 | 3 => 1,
        _ => random.hostile(),
    }
}

/// A sound send with digits changed, repaired, and what that leaves repaired once more.
fn sent_and_worn(run: &mut Run, row: &Row, frames: usize) {
    let mut with = lending(&mut run.random, row.level, frames, 0);
    let sent = run.compare(&Call::Multiplex(with.clone()));
    with.line.clone_from(&sent.lent[0].1);
    damage(&mut run.random, &mut with);
    if run.random.once_in(4) {
        with.earlier = any_earlier(&mut run.random);
    }
    let national = switch(&mut run.random);
    let mut worn = Worn::of(with, national);
    let first = run.compare(&Call::Repair(worn.clone()));
    worn.line.clone_from(&first.lent[0].1);
    let second = run.compare(&Call::Repair(worn));
    if second.numbers.iter().any(|&changed| changed != 0) {
        println!("DISAGREEMENT: a second repair changes digits");
        run.end_with_disagreement();
    }
}

fn any_digits(run: &mut Run, row: &Row, frames: usize) {
    let random = &mut run.random;
    let line = match random.below(3) {
        0 => random.filled(frames * row.frame_bytes()),
        _ => random.bytes(frames * row.frame_bytes()),
    };
    let (earlier, national) = (any_earlier(random), switch(random));
    let mut worn = Worn { level: row.level, earlier, national, line };
    let first = run.compare(&Call::Repair(worn.clone()));
    // The other way round, on what this leaves: on after off changes national digits alone, and off
    // after on nothing.
    worn.national = u64::from(national == 0);
    worn.line.clone_from(&first.lent[0].1);
    let second = run.compare(&Call::Repair(worn));
    let most = if national == 0 { second.numbers[9] } else { 0 };
    if second.numbers.iter().sum::<u64>() != most {
        println!("DISAGREEMENT: the switch changes more than national digits");
        run.end_with_disagreement();
    }
}

/// A pointer and a length for which the call is refused, or that lend nothing at all.
pub fn by_length(run: &mut Run, level: u64, earlier: u64, line: u64) {
    let refusal = repair_refusal(level, earlier, line);
    if refusal == 0 && line != 0 {
        return;
    }
    for national in [0, 1, u64::MAX] {
        let (mut memory, mut answer) = ([0_u8; 4096], [UNWRITTEN; 10]);
        let at = if line == 0 { std::ptr::null_mut() } else { memory.as_mut_ptr() };
        // Sound if the face judges the length before it reads or writes, and makes no slice of a null
        // pointer.
        let returned = unsafe {
            spritbobbin_repair(level, earlier, national, at, line as usize, answer.as_mut_ptr())
        };
        let inputs =
            format!("level {level}, earlier {earlier}, national {national}, line {line} bytes");
        let expected = [&[refusal], &[0; 10][..]].concat();
        run.expect(REPAIR, &inputs, &expected, &[&[returned], &answer[..]].concat());
    }
}

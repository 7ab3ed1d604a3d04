//! Where a recording begins in what was sent, where a multiframe begins, and the line of a multiplexer that
//! acts a frame late, which the verdict calls late.

use spritbobbin::{begins, copy_digits, digits, judge, late_multiplex, multiplex, read_notes};
use spritbobbin::{Beginning, Level, Multiframe, Refusal, SentInto};

/// Bytes without a pattern.
fn scattered(seed: u32, bytes: usize) -> Vec<u8> {
    let step = |x: &mut u32| {
        *x = x.wrapping_mul(1_664_525).wrapping_add(1_013_904_223);
        Some((*x >> 24) as u8)
    };
    std::iter::repeat(()).scan(seed, |x, ()| step(x)).take(bytes).collect()
}

#[test]
fn a_worn_beginning_is_found_at_any_number() {
    let sent = scattered(7, 300);
    for at in [0, 1, 7, 8, 500, 1023, 1024, 1500, 1888] {
        let mut read = vec![0; 64];
        copy_digits(&mut read, 0, &sent, at, 512).unwrap();
        for worn in [3, 30, 63] {
            read[worn] ^= 0x24;
        }
        assert_eq!(begins(&read, 512, &sent, 0, 1889), Ok(Beginning { at, differing: 6 }));
    }
}

#[test]
fn as_the_digits_say() {
    let (sent, read) = (scattered(1, 20), scattered(2, 6));
    let (all, ours): (Vec<u8>, Vec<u8>) = (digits(&sent).collect(), digits(&read).collect());
    for count in 1..=80 {
        for (length, first) in [(0, 3), (1, 0), (31, 5), (32, 0), (33, 9), (48, 20)] {
            let differ = |m: usize| (0..length).filter(|k| ours[*k] != all[m + k]).count();
            // Of equal ones `min_by_key` gives the first.
            let at = (first..first + count).min_by_key(|m| differ(*m)).unwrap();
            let found = begins(&read, length, &sent, first, count);
            assert_eq!(
                found,
                Ok(Beginning { at, differing: differ(at) }),
                "{length} {first} {count}"
            );
        }
    }
}

#[test]
fn refused() {
    let wrong = |first, count, bytes| Err(Refusal::Digits { first, count, bytes });
    assert_eq!(begins(&[0; 2], 17, &[0; 9], 0, 1), wrong(0, 17, 2));
    assert_eq!(begins(&[0; 2], 16, &[0; 9], 0, 58), wrong(0, 73, 9));
    assert_eq!(begins(&[0; 2], 16, &[0; 9], 3, 0), wrong(3, 16, 9));
    assert_eq!(begins(&[0; 2], 16, &[0; 9], usize::MAX, 2), wrong(usize::MAX, 17, 9));
    assert!(begins(&[0; 2], 16, &[0; 9], 0, 57).is_ok());
    assert_eq!(begins(&[], 0, &[], 0, 1), Ok(Beginning { at: 0, differing: 0 }));
}

#[test]
fn the_verdict_calls_the_late_line_late() {
    for level in Level::ALL {
        let national = level.national_bits();
        // No vote is that of the frame before and of the frame after alike all the time.
        let votes =
            [0b0110, 0b0011, 0b1011, 0b1100, 0b0100, 0b0001, 0b1001, 0b1110, 0b0110, 0b0101];
        let notes = votes.map(|vote| vote | national);
        let buffer = scattered(5, level.buffer_bytes(notes.len()));
        let mut line = vec![0; notes.len() * level.frame_bytes()];
        late_multiplex(level, 0b1001, &mut line, &notes, &buffer).unwrap();
        let mut said = [0; 10];
        read_notes(level, &line, &mut said).unwrap();
        assert_eq!(said, notes, "{level} says its own decisions");
        for (j, verdict) in
            judge(level, 0b1001, &line, SentInto::Digits(&buffer)).unwrap().iter().enumerate()
        {
            assert_eq!(verdict.before, 0, "{level}, tributary {}", j + 1);
            assert_ne!(verdict.own, 0, "{level}, tributary {}", j + 1);
        }
    }
}

#[test]
fn a_late_line_is_refused_as_a_right_one() {
    for level in Level::ALL {
        let (frame, national) = (level.frame_bytes(), level.national_bits());
        for frames in [0, 1, 64, 65, 70] {
            for (notes, note) in [(frames, national), (frames + 1, national), (frames, 0xFF)] {
                for note in [note, note & 0x4F] {
                    let notes = vec![note; notes];
                    let buffer = vec![0; level.buffer_bytes(frames)];
                    let (mut right, mut late) = (vec![1; frames * frame], vec![1; frames * frame]);
                    let sent = multiplex(level, 0, &mut right, &notes, &buffer).err();
                    assert_eq!(late_multiplex(level, 0, &mut late, &notes, &buffer).err(), sent);
                    assert!(sent.is_none() || late == vec![1; frames * frame]);
                }
            }
        }
    }
}

#[test]
fn a_built_multiframe_begun_with_any_frame() {
    let mut carried = Multiframe { channels: [[0; 16]; 30], signalling: [0x10; 15], spare: [0; 9] };
    for spare in [[0; 9], [0xFF; 9]] {
        carried.spare = spare;
        let built = carried.build().unwrap();
        for first in 0..16 {
            let mut frames = built;
            frames.rotate_left(32 * first);
            assert_eq!(Multiframe::start(&frames), Some((16 - first) % 16));
        }
    }
    assert_eq!(Multiframe::start(&[0; 512]), None);
}

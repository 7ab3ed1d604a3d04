//! Digits carried from slice to slice: every beginning and end in a byte, any number of them, and no other
//! digit touched.

use spritbobbin::{copy_digits, digits, Refusal};

/// Bytes without a pattern.
fn scattered(seed: usize, bytes: usize) -> Vec<u8> {
    (0..bytes).map(|at| (at * at * 31 + at * seed + seed / 3) as u8).collect()
}

/// The digits that a copy leaves, said by the digits of both slices.
fn expected(to: &[u8], at: usize, from: &[u8], first: usize, count: usize) -> Vec<u8> {
    let mut left: Vec<u8> = digits(to).collect();
    let moved: Vec<u8> = digits(from).skip(first).take(count).collect();
    left.splice(at..at + count, moved);
    left
}

#[test]
fn any_place_any_number() {
    let (to, from) = (scattered(5, 40), scattered(11, 45));
    for (at, first) in (0..17).flat_map(|at| (0..17).map(move |first| (at, first))) {
        for count in (0..75).chain([127, 128, 129, 255, 256, 8 * 40 - at]) {
            let mut left = to.clone();
            copy_digits(&mut left, at, &from, first, count).unwrap();
            let wanted = expected(&to, at, &from, first, count);
            assert!(digits(&left).eq(wanted), "at {at}, first {first}, count {count}");
        }
    }
}

#[test]
fn refused_and_untouched() {
    let wrong = |first, count, bytes| Err(Refusal::Digits { first, count, bytes });
    let mut to = [0xA5; 3];
    for (at, first, count) in [(20, 0, 5), (25, 0, 0), (usize::MAX, 0, 1), (8, 0, usize::MAX - 7)] {
        assert_eq!(copy_digits(&mut to, at, &[0; 4], first, count), wrong(at, count, 3));
    }
    for (first, count) in [(28, 5), (33, 0), (usize::MAX, 2), (usize::MAX - 1, 2)] {
        assert_eq!(copy_digits(&mut to, 0, &[0; 4], first, count), wrong(first, count, 4));
    }
    assert_eq!(to, [0xA5; 3]);
    assert_eq!(copy_digits(&mut to, 24, &[0; 4], 32, 0), Ok(()));
    assert_eq!(copy_digits(&mut [], 0, &[], 0, 0), Ok(()));
}

//! The comparison of two captures, held against what can be said without it.

use reference::{compare, write_capture};

fn capture(level: u64, line: &[u8]) -> Vec<u8> {
    let mut file = vec![0; 7 + line.len()];
    assert_eq!(write_capture(level, line, None, &mut file).refusal, 0);
    file
}

/// The sums and places of a line of zeros beside the same with ones at these places.
fn turned(level: u64, bytes: usize, places: &[usize]) -> ([u64; 15], Vec<(usize, usize)>) {
    let zeros = vec![0; bytes];
    let mut ones = zeros.clone();
    for place in places {
        ones[place / 8] |= 0x80 >> (place % 8);
    }
    let found = compare(&capture(level, &zeros), &capture(level, &ones));
    assert_eq!((found.refusal, found.file, found.byte), (0, 0, 0));
    (found.sums, found.places)
}

/// A place of each kind at level 2, by the table of the specification.
#[test]
fn each_sum() {
    let places = [0, 10, 11, 212, 640, 12, 213, 641, 13, 214, 642, 14, 215, 643, 15];
    for (sum, place) in places.into_iter().enumerate() {
        let (sums, found) = turned(2, 2 * 106, &[848 + place]);
        let mut expected = [0; 15];
        expected[sum] = 1;
        assert_eq!((sums, found), (expected, vec![(1, place)]), "place {place}");
    }
}

/// A place of each kind at level 12, by section 4 of document 000: groups of 264, service digits at
/// 5 to 8 of groups II and III (so 268 on and 532 on, counted from 0), in group IV from 792 on four
/// control digits, four negative places, four positive ones and then tributary digits.
#[test]
fn each_sum_at_level_12() {
    let of = |sum| move |place| (sum, place);
    let word = (0..8).map(of(0));
    let service = (268..272).chain(532..536).map(of(2));
    let four = |first: usize, sum: usize| (0..4).map(move |j| (sum + 3 * j, first + j));
    let control = four(264, 3).chain(four(528, 3)).chain(four(792, 3));
    let justification = four(796, 4).chain(four(800, 4));
    let ordinary = four(8, 5).chain(four(272, 5)).chain(four(804, 5)).chain(four(1052, 5));
    for (sum, place) in word.chain(service).chain(control).chain(justification).chain(ordinary) {
        let (sums, found) = turned(12, 2 * 132, &[1056 + place]);
        let mut expected = [0; 15];
        expected[sum] = 1;
        assert_eq!((sums, found), (expected, vec![(1, place)]), "place {place}");
    }
}

/// All digits of a frame: the word, the service digits, and of each tributary its control group, its
/// justification places and n - 1 others. Levels 12 and 14 have two justification places, and of the
/// service digits no remote alarm.
#[test]
fn a_whole_frame() {
    for (level, bytes, word, alarm, national, group, places, n) in [
        (2, 106, 10, 1, 1, 3, 1, 206),
        (3, 192, 10, 1, 1, 3, 1, 378),
        (4, 366, 12, 1, 3, 5, 1, 723),
        (12, 132, 8, 0, 8, 3, 2, 256),
        (14, 272, 10, 0, 2, 3, 2, 537),
    ] {
        let mut expected = vec![word, alarm, national];
        expected.extend([group, places, n - 1].repeat(4));
        let (sums, places) = turned(level, bytes, &(0..8 * bytes).collect::<Vec<_>>());
        assert_eq!(sums.to_vec(), expected);
        assert_eq!(sums.iter().sum::<u64>(), 8 * bytes as u64);
        assert_eq!(places, (0..8 * bytes).map(|place| (0, place)).collect::<Vec<_>>());
    }
}

/// The first file is judged whole before the second, and the level before the length.
#[test]
fn the_order() {
    let good = capture(2, &[0; 106]);
    let mut level = good.clone();
    level[3] = 9;
    let said = |one: &[u8], other: &[u8]| {
        let found = compare(one, other);
        assert_eq!((found.sums, found.places.len()), ([0; 15], 0));
        (found.refusal, found.file, found.byte)
    };
    assert_eq!(said(&level, &[]), (1, 1, 0));
    assert_eq!(said(&good, &level), (1, 2, 0));
    assert_eq!(said(&good, &good[..50]), (9, 2, 4));
    assert_eq!(said(&good, &capture(3, &[])), (1, 0, 0));
    assert_eq!(said(&good, &capture(2, &[])), (2, 0, 0));
}

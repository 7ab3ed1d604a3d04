//! The finder of 2048 kbit/s frames: found, lost and found again, in pieces of any size, and refused.

use spritbobbin::{Finder, FinderMode, FinderState, Refusal, Turn};

/// Pairs of frames of ones, with a word in each pair that is named.
fn line(pairs: usize, with_word: impl Fn(usize) -> bool) -> Vec<u8> {
    let mut bytes = vec![0xFF; 64 * pairs];
    for pair in (0..pairs).filter(|pair| with_word(*pair)) {
        bytes[64 * pair] = 0x9B;
    }
    bytes
}

#[test]
fn found_lost_and_found_again() {
    // Words in pairs 0 to 2 and from 6 on: those of 3, 4 and 5 are wrong.
    let bytes = line(10, |pair| !(3..=5).contains(&pair));
    let end_of_word = |pair: usize| 512 * pair + 8;
    let expected = [
        Turn::Found { digits: end_of_word(1) },
        Turn::Lost { digits: end_of_word(5) },
        Turn::Found { digits: end_of_word(7) },
    ];
    let mut finder = Finder::new();
    let turns: Vec<Turn> = finder.feed(&bytes).collect();
    assert_eq!(turns, expected);
    assert_eq!(finder.mode(), FinderMode::Aligned { missed: 0 });

    for size in [1, 7, 31, 64, 1000] {
        let (mut finder, mut turns, mut before) = (Finder::new(), Vec::new(), 0);
        for chunk in bytes.chunks(size) {
            for turn in finder.feed(chunk) {
                turns.push(match turn {
                    Turn::Found { digits } => Turn::Found { digits: before + digits },
                    Turn::Lost { digits } => Turn::Lost { digits: before + digits },
                });
            }
            before += 8 * chunk.len();
        }
        assert_eq!(turns, expected, "in pieces of {size} bytes");
    }
}

#[test]
fn two_wrong_words_are_not_lost() {
    let bytes = line(8, |pair| pair != 3 && pair != 4);
    let mut finder = Finder::new();
    assert_eq!(finder.feed(&bytes).count(), 1);
    assert!(finder.is_aligned());
}

#[test]
fn a_second_digit_of_0_is_not_found() {
    let mut bytes = line(3, |_| true);
    bytes[32] = 0b1011_1111; // byte 0 of frame 1
    let mut finder = Finder::new();
    let turns: Vec<Turn> = finder.feed(&bytes).collect();
    assert_eq!(turns, [Turn::Found { digits: 512 * 2 + 8 }]);

    // The last digit of that byte is another: it does not matter.
    let mut bytes = line(3, |_| true);
    bytes[32] = 0b1111_1110;
    let mut finder = Finder::new();
    assert_eq!(finder.feed(&bytes).next(), Some(Turn::Found { digits: 520 }));
}

#[test]
fn turns_not_walked_are_taken_all_the_same() {
    let bytes = line(4, |_| true);
    let mut finder = Finder::new();
    drop(finder.feed(&bytes));
    assert!(finder.is_aligned());
    assert_eq!(finder.state().place, 504); // four pairs, less the eight digits of the first byte
}

#[test]
fn refused() {
    let valid = FinderState { window: 127, seen: 7, mode: FinderMode::SecondSeen, place: 250 };
    assert!(Finder::resume(&valid).is_ok());
    for state in [
        FinderState { window: 128, ..valid },
        FinderState { seen: 8, ..valid },
        FinderState { seen: 6, ..valid },
        FinderState { mode: FinderMode::Aligned { missed: 3 }, ..valid },
        FinderState { mode: FinderMode::WordFound, ..valid },
        FinderState { place: 249, ..valid },
        FinderState { place: 512, ..valid },
        FinderState { mode: FinderMode::Hunting, ..valid },
    ] {
        assert_eq!(Finder::resume(&state), Err(Refusal::State), "{state:?}");
    }
    let mut finder = Finder::new();
    assert_eq!(finder.take(&[0; 65_537], 0, 0), Err(Refusal::Slice { bytes: 65_537 }));
    let digits = Refusal::Digits { first: 9, count: 0, bytes: 1 };
    assert_eq!(finder.take(&[0], 9, 0), Err(digits));
    let digits = Refusal::Digits { first: usize::MAX, count: 2, bytes: 1 };
    assert_eq!(finder.take(&[0], usize::MAX, 2), Err(digits));
    assert_eq!(finder, Finder::new());
}

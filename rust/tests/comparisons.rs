//! Comparisons: each kind of place, the first 64, and every refusal in its order.

use spritbobbin::{
    compare, compare_lines, compare_stretch, write_capture, Differences, FileOf, Level, LinePlace,
    NotCompared, Refusal,
};

fn capture(level: Level, line: &[u8], label: Option<&[u8]>) -> Vec<u8> {
    let mut file = vec![0; 60 + line.len()];
    let bytes = write_capture(level, line, label, &mut file).unwrap();
    file.truncate(bytes);
    file
}

/// What differs between a line of zeros and the same with ones at these places.
fn turned(level: Level, frames: usize, places: &[usize]) -> Differences {
    let zeros = vec![0; frames * level.frame_bytes()];
    let mut ones = zeros.clone();
    for place in places {
        ones[place / 8] |= 0x80 >> (place % 8);
    }
    let (one, other) = (capture(level, &zeros, None), capture(level, &ones, Some(b"south")));
    let found = compare(&one, &other).unwrap();
    assert_eq!(found, compare(&other, &one).unwrap(), "exchanged");
    assert_eq!(found, compare_lines(level, &zeros, &ones).unwrap(), "the lines alone");
    found
}

#[test]
fn each_kind() {
    let found = turned(Level::Two, 1, &[9, 10, 11, 12, 212, 640, 647, 843]);
    assert_eq!((found.word, found.remote_alarm, found.national), (1, 1, 1));
    let of = found.tributaries.map(|of| [of.control, of.justification, of.ordinary]);
    assert_eq!(of, [[1, 1, 1], [0, 0, 0], [0, 0, 0], [0, 0, 2]]);
    let found = turned(Level::Four, 2, &[12, 13, 14, 15, 2928 + 15, 2928 + 2445, 2928 + 2443]);
    assert_eq!((found.word, found.remote_alarm, found.national), (0, 1, 4));
    let of = found.tributaries.map(|of| [of.control, of.justification, of.ordinary]);
    assert_eq!(of, [[0, 0, 0], [0, 1, 0], [0, 0, 0], [1, 0, 0]]);
    assert_eq!(found.first[6], LinePlace { frame: 1, place: 2445 });
}

/// Positive and negative places are justification places, and every service place counts as national.
#[test]
fn each_kind_at_levels_12_and_14() {
    let found = turned(Level::Twelve, 1, &[7, 8, 264, 268, 535, 796, 803, 807, 1055]);
    assert_eq!((found.word, found.remote_alarm, found.national), (1, 0, 2));
    let of = found.tributaries.map(|of| [of.control, of.justification, of.ordinary]);
    assert_eq!(of, [[1, 1, 1], [0, 0, 0], [0, 0, 0], [0, 1, 2]]);
    let found = turned(Level::Fourteen, 1, &[9, 10, 11, 12, 544, 548, 1635, 1637, 1643, 2175]);
    assert_eq!((found.word, found.remote_alarm, found.national), (1, 0, 2));
    let of = found.tributaries.map(|of| [of.control, of.justification, of.ordinary]);
    assert_eq!(of, [[1, 0, 2], [0, 1, 0], [0, 0, 0], [1, 1, 1]]);
}

#[test]
fn the_first_64() {
    let places: Vec<usize> = (0..65).map(|k| 100 + 7 * k).collect();
    for some in [0, 1, 63, 64, 65] {
        let found = turned(Level::Three, 1, &places[..some]);
        assert_eq!((found.all, found.first.len()), (some, some.min(64)));
        let expected = places[..some.min(64)].iter().map(|&place| LinePlace { frame: 0, place });
        assert!(found.first.iter().copied().eq(expected));
    }
}

#[test]
fn refusals_in_their_order() {
    let good = capture(Level::Two, &[0; 106], None);
    let cut = &good[..50];
    let field = |file| NotCompared::BadFile { file, why: Refusal::Field { byte: 4 } };
    assert_eq!(compare(cut, &[]), Err(field(FileOf::One)));
    assert_eq!(compare(&good, cut), Err(field(FileOf::Other)));
    let mut level = good.clone();
    level[3] = 9;
    let why = Refusal::Level { number: 9 };
    assert_eq!(compare(&level, cut), Err(NotCompared::BadFile { file: FileOf::One, why }));
    let other = capture(Level::Three, &[], None);
    let levels = NotCompared::Levels { one: Level::Two, other: Level::Three };
    assert_eq!(compare(&good, &other), Err(levels));
    assert_eq!(
        levels.to_string(),
        "the captures are of level 2 and level 3: compare two of one level"
    );
    let other = capture(Level::Two, &[], None);
    assert_eq!(compare(&good, &other), Err(NotCompared::Lines { one: 106, other: 0 }));
    assert_eq!(
        compare(cut, &good).unwrap_err().to_string(),
        "the first file: this is no capture: a field is wrong, missing or cut off at byte 4 \
         (counted from 0), or bytes follow there"
    );
}

/// Stretches one behind another add up to the comparison, and each has what lies in it.
#[test]
fn stretches_add_up() {
    let (one, other) = (vec![0; 2 * 192], vec![0xFF; 2 * 192]);
    let all = compare_lines(Level::Three, &one, &other).unwrap();
    let numbers = |found: &Differences| {
        let of = found.tributaries.map(|of| [of.control, of.justification, of.ordinary]);
        [&[found.word, found.remote_alarm, found.national], of.as_flattened(), &[found.all]]
            .concat()
    };
    let mut sums = vec![0; 16];
    for first in (0..2 * 1536).step_by(7) {
        let end = (first + 7).min(2 * 1536);
        let part = compare_stretch(Level::Three, &one, &other, first..end).unwrap();
        assert_eq!((part.all, part.first.len()), (end - first, 0));
        sums.iter_mut().zip(numbers(&part)).for_each(|(sum, part)| *sum += part);
    }
    assert_eq!(sums, numbers(&all));
}

#[test]
fn refused_lines() {
    let line = [0; 2 * 106];
    let bad = |bytes| {
        let why = Refusal::Line { level: Level::Two, bytes };
        Err(NotCompared::BadLine { why })
    };
    assert_eq!(compare_lines(Level::Two, &line[1..], &line), bad(211));
    assert_eq!(compare_lines(Level::Two, &[0; 65 * 106], &line), bad(65 * 106));
    let lengths = Err(NotCompared::Lines { one: 212, other: 106 });
    assert_eq!(compare_lines(Level::Two, &line, &line[106..]), lengths);
    assert_eq!(compare_stretch(Level::Two, &line, &line[106..], 0..usize::MAX), lengths);
    let why = Refusal::Digits { first: 1, count: 1696, bytes: 212 };
    let beyond = Err(NotCompared::BadLine { why });
    assert_eq!(compare_stretch(Level::Two, &line, &line, 1..1697), beyond);
    assert_eq!(compare_stretch(Level::Two, &line, &line, 0..1696), Ok(Differences::default()));
    assert_eq!(compare_stretch(Level::Two, &line, &line, 1696..1696), Ok(Differences::default()));
}

//! What a place is: the counts of each kind at each level, by the table of the specification, and the
//! multiframe's by tables 1 and 2 of G.704.

use spritbobbin::{multiframe_place, place, Kind, Level, MultiframePlace, Place, Refusal};

#[test]
fn as_many_of_each_kind_as_the_table_says() {
    // Word, remote alarm, service; control, justification, negative of each tributary.
    let table = [
        (Level::Two, [10, 1, 1], [3, 1, 0]),
        (Level::Three, [10, 1, 1], [3, 1, 0]),
        (Level::Four, [12, 1, 3], [5, 1, 0]),
        (Level::Twelve, [8, 0, 8], [3, 1, 1]),
        (Level::Fourteen, [10, 0, 2], [3, 1, 1]),
    ];
    for (level, shared, own) in table {
        let places: Vec<Place> =
            (0..level.frame_digits()).map(|at| place(level, at).unwrap()).collect();
        let count =
            |kind, tributary| places.iter().filter(|&&it| it == Place { kind, tributary }).count();
        let kinds = [Kind::Word, Kind::RemoteAlarm, Kind::Service];
        assert_eq!(kinds.map(|kind| count(kind, None)), shared, "{level}");
        for j in 1..=4 {
            let kinds = [Kind::Control, Kind::Justification, Kind::Negative];
            assert_eq!(kinds.map(|kind| count(kind, Some(j))), own, "{level}, tributary {j}");
            let ordinary = level.tributary_digits() - own[1];
            assert_eq!(count(Kind::Ordinary, Some(j)), ordinary, "{level}, tributary {j}");
        }
    }
}

#[test]
fn no_place_behind_the_last() {
    for level in Level::ALL {
        let places = level.frame_digits();
        for at in [places, places + 1, usize::MAX] {
            assert_eq!(place(level, at), Err(Refusal::Place { place: at, places }));
        }
    }
    for at in [4096, usize::MAX] {
        assert_eq!(multiframe_place(at), Err(Refusal::Place { place: at, places: 4096 }));
    }
    let refusal = multiframe_place(4096).unwrap_err();
    assert_eq!(refusal.to_string(), "there is no place 4096: ask for one of 4096, counted from 0");
}

#[test]
fn the_tables_of_the_multiframe() {
    use MultiframePlace::{Alarm, International, National, Second, Start, Word, X, Y};
    let byte = |frame: usize, byte: usize| {
        [0, 1, 2, 3, 4, 5, 6, 7].map(|i| multiframe_place(256 * frame + 8 * byte + i).unwrap())
    };
    for frame in 0..16 {
        let word = [0, 0, 1, 1, 0, 1, 1].map(Word);
        let (first, rest) = (byte(frame, 0)[0], &byte(frame, 0)[1..]);
        let without = [Second, Alarm, National, National, National, National, National];
        assert_eq!((first, rest), (International, &[word, without][frame % 2][..]));
        for channel in 1..=30 {
            let at = if channel < 16 { channel } else { channel + 1 };
            assert_eq!(byte(frame, at), [MultiframePlace::Channel(channel); 8]);
        }
        if frame > 0 {
            let both = [frame, frame + 15].map(|channel| [MultiframePlace::Signalling(channel); 4]);
            assert_eq!(byte(frame, 16), both.concat()[..]);
        }
    }
    assert_eq!(byte(0, 16), [Start, Start, Start, Start, X, Y, X, X]);
}

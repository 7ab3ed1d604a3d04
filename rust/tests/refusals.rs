//! Every refusal: exactly when, in which order, what it prints, and that nothing is written.

use spritbobbin::{extract, multiplex, read_notes, Level, Mode, Receiver, Refusal, State};

/// The refusals of multiplexing and of extraction, which are the same but for refusal 10, that are lent
/// so many bytes and these notes; and that reading notes is refused for the line and the number of notes alone.
fn refusals_after(
    earlier: u8,
    level: Level,
    line: usize,
    notes: &[u8],
    buffer: usize,
) -> [Option<Refusal>; 2] {
    let (mut frames, quarters) = (vec![0xA5; line], vec![0xA5; buffer]);
    let sent = multiplex(level, earlier, &mut frames, notes, &quarters).err();
    if sent.is_some() {
        assert_eq!(frames, vec![0xA5; line], "a refused call wrote the line");
    }
    let mut quarters_out = quarters.clone();
    let taken = extract(level, earlier, &frames, notes, &mut quarters_out).err();
    if taken.is_some() {
        assert_eq!(quarters_out, quarters, "a refused call wrote");
    }
    let mut notes_out = notes.to_vec();
    let read = read_notes(level, &frames, &mut notes_out).err();
    assert_eq!(read, taken.filter(|refusal| refusal.number() < 4));
    if read.is_some() {
        assert_eq!(notes_out, notes, "a refused call wrote");
    }
    [sent, taken]
}

fn refusals(level: Level, line: usize, notes: &[u8], buffer: usize) -> [Option<Refusal>; 2] {
    refusals_after(0, level, line, notes, buffer)
}

fn numbers(level: Level, line: usize, notes: &[u8], buffer: usize) -> [u64; 2] {
    refusals(level, line, notes, buffer).map(|refusal| refusal.map_or(0, |it| it.number()))
}

#[test]
fn borders() {
    for level in Level::ALL {
        let (frame, room) = (level.frame_bytes(), |frames| level.buffer_bytes(frames));
        for frames in [0, 1, 2, 7, 8, 63, 64] {
            let notes = vec![level.national_bits(); frames];
            assert_eq!(numbers(level, frames * frame, &notes, room(frames)), [0; 2]);
            assert_eq!(numbers(level, frames * frame, &notes, room(frames) + 4), [0; 2]);
            assert_eq!(numbers(level, frames * frame, &notes, room(frames) + 1), [4; 2]);
            assert_eq!(numbers(level, frames * frame + 1, &notes, room(frames)), [2; 2]);
            assert_eq!(numbers(level, frames * frame, &vec![0; frames + 1], room(frames)), [3; 2]);
        }
        for frames in [1, 2, 7, 8, 63, 64] {
            let notes = vec![0; frames];
            assert_eq!(numbers(level, frames * frame, &notes, room(frames) - 4), [4; 2]);
            assert_eq!(numbers(level, frames * frame, &notes[1..], room(frames)), [3; 2]);
            assert_eq!(numbers(level, frames * frame - 1, &notes, room(frames)), [2; 2]);
        }
        assert_eq!(numbers(level, 65 * frame, &[0; 65], room(65)), [2; 2]);
    }
}

#[test]
fn room_is_asked_for_whole_frames_even_where_stuffed() {
    // Eight stuffed frames need 1640 digits, 205 bytes; 1648 are asked for.
    assert_eq!(numbers(Level::Two, 8 * 106, &[0x2F; 8], 4 * 205), [4; 2]);
    assert_eq!(numbers(Level::Two, 8 * 106, &[0x2F; 8], 4 * 206), [0; 2]);
    // A stuffed frame of level 12 needs 255 digits, 32 bytes; 257 are asked for.
    let stuffed =
        |room| refusals_after(15, Level::Twelve, 132, &[0x0F], room).map(|it| it.is_some());
    assert_eq!((stuffed(4 * 32), stuffed(4 * 33)), ([true; 2], [false; 2]));
}

#[test]
fn the_first_that_applies_is_the_answer() {
    assert_eq!(numbers(Level::Two, 105, &[0x40; 2], 103), [2; 2]);
    assert_eq!(numbers(Level::Two, 106, &[0x40; 2], 103), [3; 2]);
    assert_eq!(numbers(Level::Two, 106, &[0x40], 103), [4; 2]);
    assert_eq!(numbers(Level::Two, 106, &[0x40], 104), [5; 2]);
}

#[test]
fn bits_6_and_7_belong_to_level_4() {
    for bit in [0x40, 0x80, 0xC0] {
        let notes = [0x3F, 0x00, bit, bit];
        for level in [Level::Two, Level::Three] {
            let both = refusals(level, 4 * level.frame_bytes(), &notes, level.buffer_bytes(4));
            assert_eq!(both, [Some(Refusal::NoteBits { level, frame: 2 }); 2]);
        }
        let notes = notes.map(|note| note | 0xE0);
        assert_eq!(numbers(Level::Four, 4 * 366, &notes, 4 * 362), [0; 2]);
    }
}

/// Every note by itself, and after and before one that is sent: multiplexing refuses with 10 exactly
/// those that the level knows and that lack a national digit, and names the first. Extraction never does.
#[test]
fn national_digits_are_sent_as_1() {
    for level in Level::ALL {
        let (frame, national) = (level.frame_bytes(), level.national_bits());
        for note in (0..=0xFF).filter(|note| note & !level.note_bits() == 0) {
            let wrong = note & national != national;
            let named = |frame| wrong.then_some(Refusal::National { level, frame });
            let of = |notes: &[u8]| {
                refusals(level, notes.len() * frame, notes, level.buffer_bytes(notes.len()))
            };
            assert_eq!(of(&[note]), [named(0), None], "{level}, {note:02x}");
            assert_eq!(of(&[national, note, note]), [named(1), None], "{level}, {note:02x}");
            assert_eq!(of(&[note, national]), [named(0), None], "{level}, {note:02x}");
        }
        assert_eq!(refusals(level, 0, &[], 0), [None; 2]);
    }
}

/// A bit that the level lacks is refused before, in any note; so is a short buffer.
#[test]
fn national_digits_come_last() {
    for level in [Level::Two, Level::Three] {
        let (line, room) = (3 * level.frame_bytes(), level.buffer_bytes(3));
        let bits = |frame| [Some(Refusal::NoteBits { level, frame }); 2];
        assert_eq!(refusals(level, line, &[0, 0x20, 0x40], room), bits(2));
        assert_eq!(refusals(level, line, &[0x20, 0x80, 0], room), bits(1));
        let buffer = Some(Refusal::Buffer { level, bytes: room - 4, frames: 3 });
        assert_eq!(refusals(level, line, &[0; 3], room - 4), [buffer; 2]);
    }
    assert_eq!(numbers(Level::Four, 366, &[0], 360), [4; 2]);
    assert_eq!(numbers(Level::Four, 366, &[0; 2], 364), [3; 2]);
    assert_eq!(numbers(Level::Four, 366, &[0], 364), [10, 0]);
}

#[test]
fn bits_4_to_7_belong_to_levels_2_to_4() {
    for level in [Level::Twelve, Level::Fourteen] {
        for bit in [0x10, 0x20, 0x40, 0x80] {
            let notes = [0x0F, 0x00, bit, bit];
            let both = refusals(level, 4 * level.frame_bytes(), &notes, level.buffer_bytes(4));
            assert_eq!(both, [Some(Refusal::NoteBits { level, frame: 2 }); 2]);
        }
    }
}

#[test]
fn the_earlier_vote() {
    for level in [Level::Twelve, Level::Fourteen] {
        let (frame, room) = (level.frame_bytes(), level.buffer_bytes(2));
        let number = |earlier, line, notes: &[u8], room| {
            let both = refusals_after(earlier, level, line, notes, room);
            both.map(|refusal| refusal.map_or(0, |it| it.number()))
        };
        assert_eq!(number(15, 2 * frame, &[0, 0x0F], room), [0; 2]);
        for earlier in [16, 17, 0x80, 0xFF] {
            // It is judged last but for the notes' bits, and in a line without frames too.
            let over = [Some(Refusal::Earlier { level, earlier }); 2];
            assert_eq!(refusals_after(earlier, level, 2 * frame, &[0, 0x10], room), over);
            assert_eq!(refusals_after(earlier, level, 0, &[], 0), over);
            assert_eq!(number(earlier, 2 * frame, &[0, 0], room - 4), [4; 2]);
            assert_eq!(number(earlier, 2 * frame, &[0], room), [3; 2]);
            assert_eq!(number(earlier, 2 * frame - 1, &[0, 0], room), [2; 2]);
        }
        let second = Some(Refusal::NoteBits { level, frame: 1 });
        assert_eq!(refusals_after(15, level, 2 * frame, &[0, 0x10], room), [second; 2]);
    }
}

#[test]
fn each_says_what_is_wrong_and_what_to_do() {
    let printed = |level, line, notes: &[u8], buffer| {
        refusals(level, line, notes, buffer)[0].unwrap().to_string()
    };
    assert_eq!(
        Level::try_from(7).unwrap_err().to_string(),
        "there is no level 7: use 2 (8448 kbit/s), 3 (34368 kbit/s), 4 (139264 kbit/s), \
         or with positive/zero/negative justification 12 (8448 kbit/s) or 14 (139264 kbit/s)"
    );
    assert_eq!(
        printed(Level::Two, 105, &[0], 104),
        "a line of 105 bytes is not a whole number of frames: at level 2 a frame has 106 bytes"
    );
    assert_eq!(
        printed(Level::Two, 65 * 106, &[0; 65], 6696),
        "a line of 65 frames is too long: give at most 64 at a time"
    );
    assert_eq!(
        printed(Level::Two, 106, &[0, 0], 104),
        "the notes have 2 bytes and the line has 1 frame: give each frame one byte"
    );
    assert_eq!(
        printed(Level::Two, 212, &[0, 0], 104),
        "a buffer of 104 bytes is too short: for 2 frames of level 2 give 208 bytes, \
         or a larger multiple of 4"
    );
    assert_eq!(
        printed(Level::Two, 106, &[0], 105),
        "a buffer of 105 bytes is not four equal quarters: for 1 frame of level 2 give 104 bytes, \
         or a larger multiple of 4"
    );
    assert_eq!(
        printed(Level::Three, 192, &[0x80], 192),
        "the note of frame 0 (counted from 0) has bit 6 or 7 set: clear both, \
         since level 3 has only one national digit, bit 5"
    );
    assert_eq!(
        printed(Level::Twelve, 132, &[0x10], 132),
        "the note of frame 0 (counted from 0) has one of bits 4 to 7 set: clear them, \
         since a note of level 12 has only votes"
    );
    assert_eq!(
        printed(Level::Three, 2 * 192, &[0x20, 0x10], 380),
        "the note of frame 1 (counted from 0) has a national digit of 0: set bit 5, \
         since level 3 sends national digits as 1"
    );
    assert_eq!(
        printed(Level::Four, 366, &[0xDF], 364),
        "the note of frame 0 (counted from 0) has a national digit of 0: set bits 5, 6 and 7, \
         since level 4 sends national digits as 1"
    );
    assert_eq!(
        refusals_after(16, Level::Fourteen, 272, &[0], 272)[0].unwrap().to_string(),
        "the earlier vote is 16: give 0 to 15, a bit to each tributary, \
         since frame 0 of level 14 acts on it too"
    );
}

#[test]
fn pieces() {
    let mut receiver = Receiver::new(Level::Two);
    let longest = vec![0; 65_536];
    assert_eq!(receiver.take(&longest, 0, 8 * 65_536).unwrap().digits, 8 * 65_536);
    let before = receiver.clone();

    let too_long = receiver.take(&vec![0; 65_537], usize::MAX, 0).unwrap_err();
    assert_eq!(too_long, Refusal::Slice { bytes: 65_537 });
    assert_eq!(too_long.number(), 2);
    for (first, count) in [(1, 8), (9, 0), (0, 9), (usize::MAX, 2), (2, usize::MAX)] {
        let past = receiver.take(&[0], first, count).unwrap_err();
        assert_eq!(past, Refusal::Digits { first, count, bytes: 1 });
        assert_eq!(past.number(), 7);
        assert!(past.to_string().contains("ask for no digit past"));
    }
    assert_eq!(receiver, before, "a refused piece changed the receiver");
    assert_eq!(receiver.take(&[0], 8, 0).unwrap().digits, 0);
    assert_eq!(receiver, before, "a piece of no digits changed the receiver");
}

fn aligned(level: Level) -> State {
    let seen = level.word_digits() as u64;
    State { seen, mode: Mode::Aligned { missed: 3 }, place: 5, ..Receiver::new(level).state() }
}

#[test]
fn states() {
    for level in Level::ALL {
        let good = aligned(level);
        let seen = good.seen;
        let last = level.frame_digits() as u64 - 1;
        let window = (1 << seen) - 1;
        assert!(Receiver::resume(&State { window, place: last, ..good.clone() }).is_ok());
        let stretch = State { stretch_digits: last, stretch_zeros: last, ..good.clone() };
        assert!(Receiver::resume(&State { few_before: true, alarm: true, ..stretch }).is_ok());
        let wrong = [
            State { window: window + 1, ..good.clone() },
            State { seen: seen + 1, ..good.clone() },
            State { seen: seen - 1, ..good.clone() },
            State { mode: Mode::Aligned { missed: 4 }, ..good.clone() },
            State { mode: Mode::Aligned { missed: 255 }, ..good.clone() },
            State { place: last + 1, ..good.clone() },
            State { mode: Mode::Hunting, ..good.clone() },
            State { stretch_digits: last + 1, ..good.clone() },
            State { stretch_zeros: 1, ..good.clone() },
        ];
        for state in wrong {
            assert_eq!(Receiver::resume(&state), Err(Refusal::State), "{state:?}");
        }
    }
    assert_eq!(Refusal::State.number(), 6);
}

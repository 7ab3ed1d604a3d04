//! Captures: the example of the request, every refusal, and that what is written is read.

use spritbobbin::{capture_bytes, multiplex, read_capture, write_capture, Capture, Level, Refusal};

/// Writes into a buffer of so many bytes; only the file's may change.
fn written(
    level: Level,
    line: &[u8],
    label: Option<&[u8]>,
    room: usize,
) -> Result<Vec<u8>, Refusal> {
    let mut file = vec![0xA5; room];
    let answer = write_capture(level, line, label, &mut file);
    let bytes = *answer.as_ref().unwrap_or(&0);
    assert!(file[bytes..].iter().all(|byte| *byte == 0xA5), "bytes after the file stay");
    answer.map(|_| file[..bytes].to_vec())
}

#[test]
fn the_example() {
    let mut line = [0; 106];
    multiplex(Level::Two, 0, &mut line, &[0x20], &[0; 104]).unwrap();
    let file = written(Level::Two, &line, None, 113).unwrap();
    assert_eq!(file.len(), 113);
    assert_eq!(file[..9], [0x01, 0x00, 0x01, 0x02, 0x02, 0x00, 0x6A, 0xF4, 0x10]);
    assert_eq!(file[7..], line);
}

#[test]
fn what_is_written_is_read() {
    for level in Level::ALL {
        for frames in [0, 1, 64] {
            let line = vec![0x5A; frames * level.frame_bytes()];
            for label in [None, Some(&[][..]), Some(&[0xC3]), Some(&[0x3C; 32])] {
                let room = capture_bytes(line.len(), label.map(<[u8]>::len));
                let file = written(level, &line, label, room + 1).unwrap();
                assert_eq!(file.len(), room);
                assert_eq!(read_capture(&file), Ok(Capture { level, line: &line, label }));
            }
        }
    }
}

#[test]
fn the_writers_refusals_in_their_order() {
    let (level, label) = (Level::Two, Some(&[0; 33][..]));
    let refused = |line: &[u8], label, room| written(level, line, label, room).unwrap_err();
    assert_eq!(refused(&[0; 105], label, 0), Refusal::Line { level, bytes: 105 });
    assert_eq!(refused(&[0; 106], label, 0), Refusal::Label { bytes: 33 });
    assert_eq!(refused(&[0; 106], None, 112), Refusal::File { bytes: 112, needed: 113 });
    assert_eq!(
        refused(&[0; 106], label, 0).to_string(),
        "a label of 33 bytes is too long: give at most 32 bytes"
    );
    assert_eq!(
        refused(&[0; 106], None, 112).to_string(),
        "the file has 113 bytes and there is room for 112: give a buffer of 113"
    );
}

#[test]
fn the_readers_refusals_in_their_order() {
    let level = Level::Two;
    for (file, byte) in [
        (&[][..], 0),
        (&[1, 0, 1, 2], 4),
        (&[1, 0, 1, 2, 2, 0, 1], 4),
        (&[1, 0, 1, 9, 2, 0, 0, 0], 7),
        (&[1, 0, 1, 2, 2, 0, 0, 3, 0, 33], 7),
        (&[1, 0, 1, 2, 2, 0, 0, 3, 0, 0, 0], 10),
    ] {
        assert_eq!(read_capture(file), Err(Refusal::Field { byte }));
    }
    assert_eq!(read_capture(&[1, 0, 1, 9, 2, 0, 1, 0]), Err(Refusal::Level { number: 9 }));
    assert_eq!(read_capture(&[1, 0, 1, 2, 2, 0, 1, 0]), Err(Refusal::Line { level, bytes: 1 }));
    assert_eq!(
        read_capture(&[1, 0, 1, 2]).unwrap_err().to_string(),
        "this is no capture: a field is wrong, missing or cut off at byte 4 (counted from 0), \
         or bytes follow there"
    );
}

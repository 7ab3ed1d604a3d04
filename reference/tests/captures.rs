//! The capture file: the example of the request, each refusal, and the smallest inputs on
//! which two careful readers could differ.

use reference::{multiplex, read_capture, write_capture, Read, Written};

/// Writes into a file of so many bytes, and gives its bytes if that is accepted.
fn written(level: u64, line: &[u8], label: Option<&[u8]>, room: usize) -> Result<Vec<u8>, u64> {
    let mut file = vec![0xA5; room];
    let answer = write_capture(level, line, label, &mut file);
    assert_eq!(answer.byte, 0);
    let bytes = answer.bytes as usize;
    assert!(file[bytes..].iter().all(|&byte| byte == 0xA5), "bytes after the file stay");
    if answer.refusal != 0 {
        assert_eq!(answer, Written { refusal: answer.refusal, bytes: 0, byte: 0 });
        return Err(answer.refusal);
    }
    Ok(file[..bytes].to_vec())
}

/// The refusal of a file and the byte that it names; nothing else may be answered.
fn refused(file: &[u8]) -> (u64, u64) {
    let read = read_capture(file);
    let nothing = Read { refusal: read.refusal, byte: read.byte, ..Read::default() };
    assert_eq!(read, nothing);
    (read.refusal, read.byte)
}

fn case_1() -> Vec<u8> {
    let mut line = vec![0; 106];
    assert_eq!(multiplex(2, 0, &mut line, &[0x20], &[0; 104]).refusal, 0);
    line
}

#[test]
fn the_example() {
    let line = case_1();
    let file = written(2, &line, None, 200).unwrap();
    assert_eq!(file.len(), 113);
    assert_eq!(file[..7], [0x01, 0x00, 0x01, 0x02, 0x02, 0x00, 0x6A]);
    assert_eq!(file[7..10], [0xF4, 0x10, 0x00]);
    assert_eq!(file[7..], line);
    let read = read_capture(&file);
    assert_eq!(read, Read { refusal: 0, level: 2, line: 7..113, label: None, byte: 0 });
}

#[test]
fn what_was_written_is_read() {
    for (level, frame) in [(2, 106), (3, 192), (4, 366), (12, 132), (14, 272)] {
        for frames in [0, 1, 64] {
            let line = vec![0x5A; frame * frames];
            for label in [None, Some(0), Some(1), Some(32)] {
                let label = label.map(|bytes| vec![0xC3; bytes]);
                let file = written(level, &line, label.as_deref(), 24_000).unwrap();
                let read = read_capture(&file);
                assert_eq!((read.refusal, read.level, read.byte), (0, level, 0));
                assert_eq!(file[read.line], line);
                assert_eq!(read.label.map(|place| file[place].to_vec()), label);
            }
        }
    }
}

#[test]
fn the_writers_refusals_in_their_order() {
    let long = [0; 33];
    assert_eq!(written(5, &[0; 105], Some(&long), 0), Err(1));
    assert_eq!(written(258, &[], None, 7), Err(1));
    for level in [11, 13, 15, 256 + 12] {
        assert_eq!(written(level, &[], None, 7), Err(1));
    }
    assert_eq!(written(2, &[0; 105], Some(&long), 0), Err(2));
    assert_eq!(written(2, &[0; 65 * 106], None, 10_000), Err(2));
    assert_eq!(written(2, &[0; 106], Some(&long), 0), Err(9));
    assert_eq!(written(2, &[0; 106], Some(&long[1..]), 147), Err(4));
    assert_eq!(written(2, &[0; 106], Some(&long[1..]), 148).map(|file| file.len()), Ok(148));
    assert_eq!(written(2, &[0; 106], None, 112), Err(4));
    assert_eq!(written(2, &[], None, 7), Ok(vec![1, 0, 1, 2, 2, 0, 0]));
    assert_eq!(written(2, &[], Some(&[]), 10), Ok(vec![1, 0, 1, 2, 2, 0, 0, 3, 0, 0]));
}

#[test]
fn the_field_at_fault_is_named() {
    // No field, a head that is cut off, a wrong tag, a wrong length.
    for file in
        [&[][..], &[1], &[1, 0, 1], &[2, 0, 1, 2], &[1, 0, 0], &[1, 1, 1, 2], &[1, 0, 2, 2, 2]]
    {
        assert_eq!(refused(file), (9, 0), "{file:?}");
    }
    for rest in [&[][..], &[2], &[2, 0], &[2, 0, 1], &[1, 0, 0], &[3, 0, 0], &[2, 1, 0, 0]] {
        assert_eq!(refused(&[&[1, 0, 1, 2], rest].concat()), (9, 4), "{rest:?}");
    }
    let short = [1, 0, 1, 2, 2, 0, 0];
    for rest in [&[0][..], &[3], &[3, 0], &[3, 0, 1], &[4, 0, 0], &[3, 0, 33], &[3, 1, 0]] {
        assert_eq!(refused(&[&short, rest].concat()), (9, 7), "{rest:?}");
    }
    assert_eq!(refused(&[&short[..], &[3, 0, 33], &[0; 33]].concat()), (9, 7));
    assert_eq!(refused(&[&short[..], &[3, 0, 0, 0]].concat()), (9, 10));
    assert_eq!(refused(&[&short[..], &[3, 0, 0, 3, 0, 0]].concat()), (9, 10));
    assert_eq!(refused(&[&short[..], &[3, 0, 2, 7, 7, 7]].concat()), (9, 12));
}

#[test]
fn the_level_and_the_line_are_judged_after_the_fields() {
    assert_eq!(refused(&[1, 0, 1, 9, 2, 0, 0, 0]), (9, 7));
    assert_eq!(refused(&[1, 0, 1, 9, 2, 0, 1, 0]), (1, 0));
    assert_eq!(refused(&[1, 0, 1, 2, 2, 0, 1, 0]), (2, 0));
    assert_eq!(refused(&[1, 0, 1, 13, 2, 0, 1, 0]), (1, 0));
    assert_eq!(refused(&[1, 0, 1, 14, 2, 0, 1, 0]), (2, 0));
    let long = [&[1, 0, 1, 2, 2, 0xFF, 0xFF][..], &[0; 65_535]].concat();
    assert_eq!(refused(&long), (2, 0));
    assert_eq!(refused(&long[..long.len() - 1]), (9, 4));
}

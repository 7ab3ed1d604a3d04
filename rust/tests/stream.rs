//! Frames out of streams that come in pieces of any size.

use std::io::{self, ErrorKind, Read};

use spritbobbin::{multiplex, FrameStream, Level, Mode, Receiver};

/// A line of so many frames, with tributaries that do not imitate the word.
fn line(level: Level, frames: usize) -> Vec<u8> {
    let note = |frame| (frame * 7 % 64) as u8 & level.note_bits() | level.national_bits();
    let notes: Vec<u8> = (0..frames).map(note).collect();
    let mut line = vec![0; frames * level.frame_bytes()];
    multiplex(level, 0, &mut line, &notes, &vec![0b0101_1011; level.buffer_bytes(frames)]).unwrap();
    line
}

fn found(receiver: &mut Receiver, bytes: &[u8]) -> Vec<Vec<u8>> {
    receiver.feed(bytes).map(|frame| frame.bytes().to_vec()).collect()
}

#[test]
fn the_first_frame_begins_with_the_third_word() {
    for level in Level::ALL {
        let line = line(level, 8);
        let expected: Vec<_> = line.chunks(level.frame_bytes()).skip(2).collect();
        assert_eq!(found(&mut Receiver::new(level), &line), expected);
    }
}

#[test]
fn pieces_of_any_size_give_the_same_frames() {
    for level in Level::ALL {
        let stream = [&[0x5B; 33][..], &line(level, 8)].concat();
        let mut whole = Receiver::new(level);
        let frames = found(&mut whole, &stream);
        assert!(frames.len() >= 5);
        for size in [1, 2, 3, 50, level.frame_bytes(), 1000] {
            let mut receiver = Receiver::new(level);
            let pieces = stream.chunks(size);
            let pieced: Vec<_> = pieces.flat_map(|piece| found(&mut receiver, piece)).collect();
            assert_eq!(pieced, frames, "{level}, pieces of {size} bytes");
            assert_eq!(receiver, whole);
        }
    }
}

/// The words that a receiver tests in pieces of at most so many digits.
fn words(level: Level, stream: &[u8], size: usize) -> usize {
    let (mut receiver, mut first, mut words) = (Receiver::new(level), 0, 0);
    while first < 8 * stream.len() {
        let count = size.min(8 * stream.len() - first);
        let taken = receiver.take(stream, first, count).unwrap();
        first += taken.digits;
        words += taken.words;
    }
    words
}

#[test]
fn words_tested_add_up() {
    // Fewer digits than a word has test none, eleven test two of ten.
    assert_eq!(words(Level::Two, &[0], 8), 0);
    assert_eq!(Receiver::new(Level::Two).take(&[0, 0], 0, 11).unwrap().words, 2);
    for level in Level::ALL {
        // One word to a frame, from the first digits on.
        assert_eq!(words(level, &line(level, 8), usize::MAX), 8);
        let stream = [&[0x5B; 33][..], &line(level, 8)].concat();
        let whole = words(level, &stream, usize::MAX);
        for size in [1, 7, 1000] {
            assert_eq!(words(level, &stream, size), whole, "{level}, pieces of {size} digits");
        }
    }
}

#[test]
fn a_slice_longer_than_one_piece() {
    let line = line(Level::Four, 64).repeat(10); // over three pieces of 65,536 bytes
    assert_eq!(found(&mut Receiver::new(Level::Four), &line).len(), 638);
}

#[test]
fn what_is_not_walked_is_taken_all_the_same() {
    let line = line(Level::Three, 8);
    let (mut walked, mut dropped) = (Receiver::new(Level::Three), Receiver::new(Level::Three));
    assert_eq!(walked.feed(&line).count(), 6);
    assert!(dropped.feed(&line).next().is_some());
    assert_eq!(dropped, walked);
}

#[test]
fn lost_after_four_wrong_words() {
    let (good, frame) = (line(Level::Two, 3), Level::Two.frame_bytes());
    let mut receiver = Receiver::new(Level::Two);
    assert_eq!(receiver.mode(), Mode::Hunting);
    assert_eq!(found(&mut receiver, &good).len(), 1);
    assert_eq!(receiver.mode(), Mode::Aligned { missed: 0 });
    // Each frame of zeros is handed over while fewer than four words are missed.
    for missed in 1..=3 {
        assert_eq!(found(&mut receiver, &vec![0; frame]), [vec![0; frame]]);
        assert_eq!(receiver.mode(), Mode::Aligned { missed });
    }
    assert!(receiver.is_aligned());
    assert!(found(&mut receiver, &vec![0; frame]).is_empty());
    assert!(!receiver.is_aligned());
}

#[test]
fn alarm_indication() {
    for level in Level::ALL {
        let bytes = level.frame_bytes();
        let mut receiver = Receiver::new(level);
        receiver.feed(&vec![0xFF; 2 * bytes - 1]).for_each(drop);
        assert!(!receiver.has_alarm());
        // The stretch's last digit, and what the call reports.
        assert!(!receiver.take(&[0xFF], 0, 7).unwrap().alarm);
        assert!(receiver.take(&[0xFF], 7, 1).unwrap().alarm && receiver.has_alarm());
        // Frames, of ones too, end it with the second stretch.
        let mut frame = line(level, 1);
        frame[level.frame_bytes() / 2..].fill(0xFF);
        receiver.feed(&frame).for_each(drop);
        assert!(receiver.has_alarm());
        receiver.feed(&frame).for_each(drop);
        assert!(!receiver.has_alarm());
    }
}

/// The most zeros of two stretches in a row that raise the alarm.
#[test]
fn few_zeros() {
    for (level, few) in Level::ALL.into_iter().zip([4, 4, 5, 2, 4]) {
        for zeros in [few, few + 1] {
            let mut stretch = vec![0xFF; level.frame_bytes()];
            stretch[50] = !((1 << zeros) - 1);
            let mut receiver = Receiver::new(level);
            receiver.feed(&stretch.repeat(2)).for_each(drop);
            assert_eq!(receiver.has_alarm(), zeros == few, "{level}, {zeros} zeros");
        }
    }
}

#[test]
fn resumed_receivers_go_on() {
    let line = line(Level::Four, 6);
    let (head, tail) = line.split_at(1000);
    let mut receiver = Receiver::new(Level::Four);
    assert_eq!(receiver.feed(head).count(), 0);
    let mut resumed = Receiver::resume(&receiver.state()).unwrap();
    assert_eq!(found(&mut resumed, tail), found(&mut receiver, tail));
    assert_eq!(resumed.state(), receiver.state());
}

/// A source that hands out a byte at a time and fails in between.
struct Stuttering<'a> {
    rest: &'a [u8],
    reads: usize,
}

impl Read for Stuttering<'_> {
    fn read(&mut self, into: &mut [u8]) -> io::Result<usize> {
        self.reads += 1;
        match self.reads {
            reads if reads % 5 == 0 => Err(ErrorKind::Interrupted.into()),
            300 | 301 => Err(ErrorKind::TimedOut.into()),
            _ => self.rest.read(&mut into[..1]),
        }
    }
}

#[test]
fn a_source_that_stutters_and_fails() {
    let line = line(Level::Two, 6);
    let mut frames = FrameStream::new(Level::Two, Stuttering { rest: &line, reads: 0 });
    let (good, failed): (Vec<_>, Vec<_>) = frames.by_ref().partition(|found| found.is_ok());
    let good: Vec<_> = good.into_iter().map(|frame| frame.unwrap().bytes().to_vec()).collect();
    assert_eq!(good, line.chunks(106).skip(2).collect::<Vec<_>>());
    assert_eq!(failed.len(), 1); // read 301; read 300 was only interrupted
    assert!(frames.next().is_none());
    assert!(frames.receiver().is_aligned());
}

//! A rack of lines: each answers as a receiver alone, and a record lies in memory as the library has it.

use spritbobbin::{Level, Mode, Rack, Receiver, Refusal, State, MOST_LINES};

fn stream(level: Level, frames: usize) -> Vec<u8> {
    let mut frame = vec![0; level.frame_bytes()];
    let word = match level.word_digits() {
        8 => [0xE6, 0x0F],
        12 => [0xFA, 0x0F],
        _ => [0xF4, 0x0F],
    };
    frame[..2].copy_from_slice(&word);
    frame.repeat(frames)
}

#[test]
fn each_line_answers_as_a_receiver_alone() -> Result<(), Refusal> {
    let levels: Vec<Level> = (0..MOST_LINES).map(|line| Level::ALL[line % 5]).collect();
    let mut rack = Rack::new(&levels)?;
    let mut alone: Vec<Receiver> = levels.iter().map(|level| Receiver::new(*level)).collect();
    for round in 0..7 {
        for line in (0..MOST_LINES).rev() {
            let whole = stream(levels[line], 5);
            let piece = &whole[31 * round..][..31 + line];
            let taken = rack.take(line, piece, round, 8 * 31 - round)?;
            assert_eq!(taken, alone[line].take(piece, round, 8 * 31 - round)?);
        }
    }
    for (line, receiver) in alone.iter().enumerate() {
        assert_eq!(rack.state(line), Some(receiver.state()));
        assert_eq!(rack.mode(line), Some(receiver.mode()));
    }
    assert_eq!(rack.aligned(), alone.iter().filter(|receiver| receiver.is_aligned()).count());
    Ok(())
}

#[test]
fn the_record_of_the_line_has_every_number_where_a_state_has_it() -> Result<(), Refusal> {
    // The library writes the records, and this package reads them: every number is another, so that one
    // that stood elsewhere would be seen.
    let mut rack = Rack::new(&[Level::Four, Level::Three, Level::Two])?;
    let mut alone = Receiver::new(Level::Three);
    let before = (rack.state(0), rack.state(2));
    let ones = vec![0xFF; 3 * 192];
    for piece in [&stream(Level::Three, 3)[..], &ones, &[0xF4]] {
        let frames = rack.feed(1, piece)?.collect::<Vec<_>>();
        assert_eq!(frames, alone.feed(piece).collect::<Vec<_>>());
    }
    let state = alone.state();
    let State {
        window, seen, mode, place, stretch_digits, stretch_zeros, few_before, alarm, ..
    } = state;
    assert!(window > 10 && seen == 10 && place > 10);
    assert_eq!(mode, Mode::Aligned { missed: 3 });
    assert_eq!((stretch_digits, stretch_zeros, few_before, alarm), (8, 3, true, true));
    assert_eq!(rack.state(1), Some(state));
    assert_eq!((rack.state(0), rack.state(2)), before);
    assert_eq!(rack.has_alarm(1), Some(true));
    Ok(())
}

#[test]
fn refusals_leave_every_line() -> Result<(), Refusal> {
    let mut rack = Rack::new(&[Level::Two; 3])?;
    drop(rack.feed(1, &stream(Level::Two, 4))?);
    let before = rack.clone();
    assert_eq!(rack.take(3, &[0], 0, 9), Err(Refusal::RackLine { line: 3, lines: 3 }));
    assert_eq!(rack.feed(3, &[]).err(), Some(Refusal::RackLine { line: 3, lines: 3 }));
    assert_eq!(rack.reset(3, Level::Two), Err(Refusal::RackLine { line: 3, lines: 3 }));
    assert_eq!(rack.take(1, &[0; 65_537], 0, 1), Err(Refusal::Slice { bytes: 65_537 }));
    assert_eq!(rack.take(1, &[0], 1, 8), Err(Refusal::Digits { first: 1, count: 8, bytes: 1 }));
    assert_eq!(rack, before);
    assert_eq!(rack.mode(1), Some(Mode::Aligned { missed: 0 }));
    assert_eq!(rack.mode(3), None);
    assert_eq!(Rack::new(&[Level::Two; 65]), Err(Refusal::Rack { lines: 65 }));
    assert_eq!(Rack::new(&[])?.aligned(), 0);
    assert_eq!(Refusal::RackLine { line: 3, lines: 3 }.number(), 8);
    Ok(())
}

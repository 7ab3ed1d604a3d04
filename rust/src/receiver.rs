//! Finding frames in a stream of digits.

use core::iter::FusedIterator;
use core::slice::Chunks;

use crate::level::MOST_BYTES;
use crate::raw::{self, count, STORE};
use crate::{Level, Refusal};

/// Finds frames in a stream of digits, which may come in pieces of any size.
///
/// A receiver is aligned after three good words in a row, each a frame after the last, and hunts
/// again after four wrong ones in a row. While aligned it hands over each frame at its last digit.
///
/// ```
/// use spritbobbin::{Level, Receiver};
///
/// let mut frame = [0; 106];
/// frame[0] = 0xF4;
/// let stream = frame.repeat(5);
///
/// let mut receiver = Receiver::new(Level::Two);
/// let mut found = Vec::new();
/// for chunk in stream.chunks(17) {
///     found.extend(receiver.feed(chunk));
/// }
/// // The first frame handed over begins with the third good word.
/// assert_eq!(found.len(), 3);
/// assert!(found.iter().all(|found| found.bytes() == frame));
/// assert!(receiver.is_aligned());
/// ```
#[derive(Clone, Debug, PartialEq, Eq)]
pub struct Receiver {
    level: Level,
    numbers: [u64; 9],
    store: [u8; STORE],
}

/// What a receiver is doing.
#[derive(Clone, Copy, Debug, PartialEq, Eq, Hash)]
pub enum Mode {
    /// Looking for a word at every digit.
    Hunting,
    /// One word was found.
    OneFound,
    /// Two words were found, a frame apart.
    TwoFound,
    /// Three in a row were found, and frames are handed over.
    Aligned {
        /// How many words in a row were wrong since, 0 to 3.
        missed: u8,
    },
}

/// A receiver's state, to be looked at, or saved and resumed from.
#[derive(Clone, Debug, PartialEq, Eq)]
pub struct State {
    /// The level that it was made for.
    pub level: Level,
    /// The last digits, as many as the word has, as a number: the newest digit is worth 1.
    pub window: u64,
    /// The digits since the receiver was made, stopping at as many as the word has.
    pub seen: u64,
    /// What it is doing.
    pub mode: Mode,
    /// The digits since the end of the last word; 0 while hunting.
    pub place: u64,
    /// The digits of the stretch that is being cut, fewer than a frame has.
    pub stretch_digits: u64,
    /// The zeros among them.
    pub stretch_zeros: u64,
    /// Whether the stretch before had few zeros.
    pub few_before: bool,
    /// Whether alarm indication stands.
    pub alarm: bool,
    /// The frame in hand.
    pub frame: [u8; STORE],
}

/// A frame as it was received.
#[derive(Clone, Debug, PartialEq, Eq)]
pub struct Frame {
    level: Level,
    store: [u8; STORE],
}

/// What one call took of a piece.
#[derive(Clone, Debug, PartialEq, Eq)]
pub struct Taken {
    /// How many digits.
    pub digits: usize,
    /// The frame that the last of them completed.
    pub frame: Option<Frame>,
    /// Whether alarm indication stands after the last of them.
    pub alarm: bool,
    /// At how many of them the last digits were compared with the word: while hunting at every
    /// digit, once as many came as the word has, else where a word is due.
    pub words: usize,
}

impl Receiver {
    /// A fresh receiver, which hunts.
    pub fn new(level: Level) -> Receiver {
        let (mut numbers, mut store) = ([0; 9], [0; STORE]);
        // Sound: the two arrays have the lengths that the library writes. It refuses only a wrong
        // level, which `level` is not.
        unsafe { raw::spritbobbin_receiver_fresh(level.number(), &mut numbers, &mut store) };
        Receiver { level, numbers, store }
    }

    /// A receiver that goes on from a state.
    ///
    /// # Errors
    ///
    /// [`Refusal::State`] if the state is not valid.
    ///
    /// ```
    /// use spritbobbin::{Level, Mode, Receiver, Refusal};
    ///
    /// # fn main() -> Result<(), Refusal> {
    /// let mut state = Receiver::new(Level::Three).state();
    /// assert_eq!(Receiver::resume(&state)?, Receiver::new(Level::Three));
    /// state.mode = Mode::Aligned { missed: 4 }; // four missed words are lost alignment
    /// assert_eq!(Receiver::resume(&state), Err(Refusal::State));
    /// # Ok(())
    /// # }
    /// ```
    pub fn resume(state: &State) -> Result<Receiver, Refusal> {
        let (level, store) = (state.level, state.frame);
        let mut receiver = Receiver { level, numbers: numbers(state), store };
        // A piece of no digits changes nothing, and the state is judged all the same.
        receiver.take(&[], 0, 0)?;
        Ok(receiver)
    }

    /// The level that it was made for.
    pub fn level(&self) -> Level {
        self.level
    }

    /// What it is doing.
    pub fn mode(&self) -> Mode {
        Mode::of_number(self.numbers[3])
    }

    /// Whether it has found where frames begin, so that it hands frames over.
    pub fn is_aligned(&self) -> bool {
        matches!(self.mode(), Mode::Aligned { .. })
    }

    /// Whether alarm indication stands: the far end has lost its own input and sends ones without
    /// frames. Two stretches in a row, each of as many digits as a frame has, had few zeros, and no
    /// two in a row have had more since. The mode says nothing of it.
    ///
    /// ```
    /// use spritbobbin::{Level, Receiver};
    ///
    /// let mut receiver = Receiver::new(Level::Two);
    /// assert_eq!(receiver.feed(&[0xFF; 2 * 106]).count(), 0);
    /// assert!(receiver.has_alarm());
    /// ```
    pub fn has_alarm(&self) -> bool {
        self.numbers[8] == 1
    }

    /// How many digits on it can first be seen to change: at the next word that it judges, while hunting at any digit, and at the end
    /// of the stretch that is being cut. Fed at most so many at a time ([`take`](Self::take)), it shows each finding and losing of
    /// alignment, and each begin and end of the alarm, by what it is before and after.
    ///
    /// ```
    /// use spritbobbin::{Level, Receiver};
    ///
    /// let mut receiver = Receiver::new(Level::Two);
    /// assert_eq!(receiver.until_change(), 848); // hunting: the end of the stretch
    /// receiver.take(&[0b1111_0100, 0b0000_0000], 0, 10)?;
    /// assert_eq!(receiver.until_change(), 838); // a word was found: the stretch ends before the next is due
    /// # Ok::<(), spritbobbin::Refusal>(())
    /// ```
    pub fn until_change(&self) -> usize {
        let [_, _, _, mode, place, stretch, ..] = self.numbers;
        let until = |done: u64| self.level.frame_digits().saturating_sub(count(done));
        if mode == 0 {
            return until(stretch);
        }
        until(stretch).min(until(place))
    }

    /// The digits since the end of the last word; 0 while hunting.
    pub fn place(&self) -> usize {
        count(self.numbers[4])
    }

    /// Its state.
    pub fn state(&self) -> State {
        State::of(self.level, &self.numbers, &self.store)
    }

    /// Takes the stream's next bytes and hands out the frames that they complete.
    ///
    /// Digits are taken as the iterator is walked. If it is dropped before its end the rest is
    /// taken too, and the frames in it are lost: the stream has no gap.
    pub fn feed<'a>(&'a mut self, bytes: &'a [u8]) -> Frames<'a> {
        Frames { receiver: self, pieces: bytes.chunks(MOST_BYTES), piece: &[], first: 0 }
    }

    /// Takes digits of a piece, `count` of them from digit `first` on, up to the one that completes
    /// a frame. For streams that are cut within a byte; others are easier to [`feed`](Self::feed).
    ///
    /// # Errors
    ///
    /// [`Refusal::Slice`], then [`Refusal::Digits`]. The receiver is then as it was.
    ///
    /// ```
    /// use spritbobbin::{Level, Mode, Receiver};
    ///
    /// # fn main() -> Result<(), spritbobbin::Refusal> {
    /// let mut receiver = Receiver::new(Level::Two);
    /// let piece = [0b0011_1101, 0b0000_1111]; // 00, the word, 1111
    /// let taken = receiver.take(&piece, 2, 10)?;
    /// assert_eq!((taken.digits, taken.words), (10, 1));
    /// assert_eq!(taken.frame, None);
    /// assert_eq!(receiver.mode(), Mode::OneFound);
    /// # Ok(())
    /// # }
    /// ```
    pub fn take(&mut self, piece: &[u8], first: usize, count: usize) -> Result<Taken, Refusal> {
        let mut answer = [0; 4];
        // Sound: the arrays have the lengths that the library reads and writes, the pointer comes
        // with its slice's length, and what may be written is borrowed exclusively.
        let number = unsafe {
            raw::spritbobbin_receiver_feed(
                &mut self.numbers,
                &mut self.store,
                piece.as_ptr(),
                piece.len(),
                first as u64,
                count as u64,
                &mut answer,
            )
        };
        match number {
            0 => Ok(self.taken(answer)),
            2 => Err(Refusal::Slice { bytes: piece.len() }),
            6 => Err(Refusal::State),
            7 => Err(Refusal::Digits { first, count, bytes: piece.len() }),
            _ => Err(Refusal::Unknown { number }),
        }
    }

    fn taken(&self, answer: [u64; 4]) -> Taken {
        Taken::of(answer, || Frame::of(self.level, &self.store))
    }

    /// The next frame that a piece completes from a digit on, which is moved past what was taken;
    /// or none, and then the piece is used up. A piece of at most 65,536 bytes is never refused:
    /// the state came from the library, and the digits are the piece's own.
    pub(crate) fn next_frame(&mut self, piece: &[u8], first: &mut usize) -> Option<Frame> {
        let left = (8 * piece.len()).saturating_sub(*first);
        let taken = self.take(piece, *first, left).ok()?;
        *first = first.saturating_add(taken.digits);
        taken.frame
    }
}

impl Mode {
    pub(crate) fn of_number(number: u64) -> Mode {
        match number {
            0 => Mode::Hunting,
            1 => Mode::OneFound,
            2 => Mode::TwoFound,
            aligned => Mode::Aligned { missed: (aligned - 3) as u8 },
        }
    }

    fn number(self) -> u64 {
        match self {
            Mode::Hunting => 0,
            Mode::OneFound => 1,
            Mode::TwoFound => 2,
            Mode::Aligned { missed } => 3 + u64::from(missed),
        }
    }
}

impl State {
    /// What the library's numbers say, of which the first is this level's.
    pub(crate) fn of(level: Level, numbers: &[u64; 9], frame: &[u8; STORE]) -> State {
        let [_, window, seen, mode, place, stretch_digits, stretch_zeros, few_before, alarm] =
            *numbers;
        State {
            level,
            window,
            seen,
            mode: Mode::of_number(mode),
            place,
            stretch_digits,
            stretch_zeros,
            few_before: few_before == 1,
            alarm: alarm == 1,
            frame: *frame,
        }
    }
}

impl Taken {
    /// What the library's answer says, with the frame in hand, which is copied only where it is complete.
    pub(crate) fn of(
        [digits, ready, alarm, words]: [u64; 4],
        in_hand: impl FnOnce() -> Frame,
    ) -> Taken {
        Taken {
            digits: count(digits),
            frame: (ready == 1).then(in_hand),
            alarm: alarm == 1,
            words: count(words),
        }
    }
}

impl Frame {
    pub(crate) fn of(level: Level, store: &[u8; STORE]) -> Frame {
        Frame { level, store: *store }
    }

    /// Its level.
    pub fn level(&self) -> Level {
        self.level
    }

    /// Its digits as received, from its word on. This is a line of one frame for
    /// [`read_notes`](crate::read_notes) and [`extract`](crate::extract).
    pub fn bytes(&self) -> &[u8] {
        &self.store[..self.level.frame_bytes()]
    }
}

/// The numbers of a state, in the library's order.
fn numbers(state: &State) -> [u64; 9] {
    [
        state.level.number(),
        state.window,
        state.seen,
        state.mode.number(),
        state.place,
        state.stretch_digits,
        state.stretch_zeros,
        u64::from(state.few_before),
        u64::from(state.alarm),
    ]
}

impl AsRef<[u8]> for Frame {
    fn as_ref(&self) -> &[u8] {
        self.bytes()
    }
}

/// The frames that the bytes of a stream complete: see [`Receiver::feed`].
#[derive(Debug)]
#[must_use = "frames are handed out as the iterator is walked, and lost if it is dropped"]
pub struct Frames<'a> {
    receiver: &'a mut Receiver,
    /// The pieces not yet begun.
    pieces: Chunks<'a, u8>,
    /// The piece in hand, and its first digit not yet taken.
    piece: &'a [u8],
    first: usize,
}

impl Iterator for Frames<'_> {
    type Item = Frame;

    fn next(&mut self) -> Option<Frame> {
        loop {
            let frame = self.receiver.next_frame(self.piece, &mut self.first);
            if frame.is_some() {
                return frame;
            }
            // At the end nothing is left in hand, so that a further step takes nothing again.
            (self.piece, self.first) = (&[], 0);
            self.piece = self.pieces.next()?;
        }
    }
}

impl FusedIterator for Frames<'_> {}

impl Drop for Frames<'_> {
    fn drop(&mut self) {
        self.for_each(drop);
    }
}

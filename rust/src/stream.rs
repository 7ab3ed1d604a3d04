//! Frames of a stream that is read from somewhere.

use std::io::{self, ErrorKind, Read};

use crate::{Frame, Level, Receiver};

/// The bytes asked of the source at a time. More would only make the first frame come later.
const CHUNK: usize = 8192;

/// Reads a stream and hands out its frames: a file, a socket, a slice, or whatever else is
/// [`Read`].
///
/// Ends where the source ends. An error of the source is handed out; a further step reads on.
///
/// ```
/// use spritbobbin::{FrameStream, Level};
///
/// # fn main() -> std::io::Result<()> {
/// let mut frame = [0; 366];
/// frame[..2].copy_from_slice(&[0xFA, 0x00]);
/// let stream = frame.repeat(10);
///
/// let mut frames = FrameStream::new(Level::Four, &stream[100..]); // from anywhere in a frame
/// for found in &mut frames {
///     assert_eq!(found?.bytes(), frame);
/// }
/// assert!(frames.receiver().is_aligned());
/// # Ok(())
/// # }
/// ```
#[derive(Debug)]
pub struct FrameStream<R> {
    receiver: Receiver,
    source: R,
    chunk: Vec<u8>,
    /// How many bytes of the chunk were read, and the first digit of them not yet taken.
    length: usize,
    first: usize,
}

impl<R: Read> FrameStream<R> {
    /// Reads from a source, with a fresh receiver.
    pub fn new(level: Level, source: R) -> FrameStream<R> {
        let receiver = Receiver::new(level);
        FrameStream { receiver, source, chunk: vec![0; CHUNK], length: 0, first: 0 }
    }

    /// The receiver, as it is after the last frame handed out.
    pub fn receiver(&self) -> &Receiver {
        &self.receiver
    }

    /// Reads the next chunk and says how long it is: 0 at the end of the source.
    fn read(&mut self) -> io::Result<usize> {
        (self.length, self.first) = (0, 0);
        loop {
            match self.source.read(&mut self.chunk) {
                Err(error) if error.kind() == ErrorKind::Interrupted => {}
                // A source that claims more than it was given room for is not believed.
                read => return read.map(|length| length.min(CHUNK)),
            }
        }
    }
}

impl<R: Read> Iterator for FrameStream<R> {
    type Item = io::Result<Frame>;

    fn next(&mut self) -> Option<io::Result<Frame>> {
        loop {
            let piece = &self.chunk[..self.length];
            if let Some(frame) = self.receiver.next_frame(piece, &mut self.first) {
                return Some(Ok(frame));
            }
            match self.read() {
                Ok(0) => return None,
                Ok(length) => self.length = length,
                Err(error) => return Some(Err(error)),
            }
        }
    }
}

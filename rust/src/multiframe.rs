//! The multiframe of 2048 kbit/s: sixteen frames of 32 bytes.

use crate::raw::{self, count};
use crate::Refusal;

/// The bytes of a multiframe.
pub const MULTIFRAME_BYTES: usize = 512;

/// What a multiframe carries.
#[derive(Clone, Copy, Debug, PartialEq, Eq, Hash)]
pub struct Multiframe {
    /// The sixteen bytes of each of channels 1 to 30, of frame 0 first.
    pub channels: [[u8; 16]; 30],
    /// Byte 16 of frames 1 to 15: channel k's four digits and then channel k + 15's.
    pub signalling: [u8; 15],
    /// The 68 spare digits in the order of their places, packed. The last four digits of the ninth
    /// byte are not looked at, and zero in what is taken apart.
    pub spare: [u8; 9],
}

impl Multiframe {
    /// Builds the multiframe.
    ///
    /// # Errors
    ///
    /// [`Refusal::Signalling`] if the signalling of one of channels 1 to 15 is 0000.
    ///
    /// # Examples
    ///
    /// ```
    /// use spritbobbin::{Multiframe, Refusal};
    ///
    /// # fn main() -> Result<(), spritbobbin::Refusal> {
    /// let mut carried = Multiframe { channels: [[0; 16]; 30], signalling: [0xD0; 15], spare: [0; 9] };
    /// carried.channels[15][1] = 0x55; // channel 16 in frame 1
    /// let bytes = carried.build()?;
    /// assert_eq!((bytes[0], bytes[32], bytes[32 + 17]), (0x1B, 0x40, 0x55));
    /// assert_eq!(Multiframe::apart(&bytes)?, carried);
    ///
    /// carried.signalling[2] = 0x0D;
    /// assert_eq!(carried.build(), Err(Refusal::Signalling { channel: 3 }));
    /// # Ok(())
    /// # }
    /// ```
    pub fn build(&self) -> Result<[u8; MULTIFRAME_BYTES], Refusal> {
        let (mut bytes, mut answer) = ([0; MULTIFRAME_BYTES], [0; 1]);
        let mut channels = [0; 480];
        for (bytes, channel) in channels.chunks_mut(16).zip(&self.channels) {
            bytes.copy_from_slice(channel);
        }
        // Sound: each pointer comes with the length of its own slice, and what may be written is
        // this function's own.
        let number = unsafe {
            raw::spritbobbin_multiframe_build(
                bytes.as_mut_ptr(),
                bytes.len(),
                channels.as_ptr(),
                channels.len(),
                self.signalling.as_ptr(),
                self.signalling.len(),
                self.spare.as_ptr(),
                self.spare.len(),
                &mut answer,
            )
        };
        match number {
            0 => Ok(bytes),
            11 => Err(Refusal::Signalling { channel: count(answer[0]) }),
            _ => Err(Refusal::Unknown { number }),
        }
    }

    /// Which of sixteen frames in a row begins the multiframe: the first whose byte 0 ends in the
    /// word 0011011 and whose byte 16 begins with 0000. Nothing where there is none.
    ///
    /// # Examples
    ///
    /// ```
    /// use spritbobbin::Multiframe;
    ///
    /// # fn main() -> Result<(), spritbobbin::Refusal> {
    /// let carried = Multiframe { channels: [[0; 16]; 30], signalling: [0xD0; 15], spare: [0; 9] };
    /// let mut frames = carried.build()?;
    /// assert_eq!(Multiframe::start(&frames), Some(0));
    /// frames.rotate_left(5 * 32); // begun with frame 5
    /// assert_eq!(Multiframe::start(&frames), Some(11));
    /// assert_eq!(Multiframe::start(&[0xFF; 512]), None);
    /// # Ok(())
    /// # }
    /// ```
    pub fn start(frames: &[u8; MULTIFRAME_BYTES]) -> Option<usize> {
        let mut answer = [0];
        // Sound: the pointer comes with its length, and nothing is written but the answer.
        let number = unsafe {
            raw::spritbobbin_multiframe_start(frames.as_ptr(), frames.len(), &mut answer)
        };
        Some(count(answer[0])).filter(|&frame| number == 0 && frame < 16)
    }

    /// Takes a multiframe apart, whatever its fixed digits are.
    ///
    /// # Errors
    ///
    /// None but [`Refusal::Unknown`], for a library of another version.
    pub fn apart(bytes: &[u8; MULTIFRAME_BYTES]) -> Result<Multiframe, Refusal> {
        let (mut channels, mut signalling, mut spare) = ([0; 480], [0; 15], [0; 9]);
        // Sound as above.
        let number = unsafe {
            raw::spritbobbin_multiframe_apart(
                bytes.as_ptr(),
                bytes.len(),
                channels.as_mut_ptr(),
                channels.len(),
                signalling.as_mut_ptr(),
                signalling.len(),
                spare.as_mut_ptr(),
                spare.len(),
            )
        };
        if number != 0 {
            return Err(Refusal::Unknown { number });
        }
        let mut all = [[0; 16]; 30];
        for (channel, bytes) in all.iter_mut().zip(channels.chunks(16)) {
            channel.copy_from_slice(bytes);
        }
        Ok(Multiframe { channels: all, signalling, spare })
    }
}

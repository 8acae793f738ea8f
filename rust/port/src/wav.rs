//! Takes as WAV files, in memory of their own; docs/LAYOUT.md has their bytes.
use crate::{WavReply, calls, number};

/// Bytes of a file's header.
pub const HEADER: usize = 44;
/// Bytes of frames that a file holds at most.
pub const MAX_FRAMES: usize = 4_294_967_256;

/// A take: frames of 16-bit stereo, and how many of them a second has.
#[derive(Clone, Debug, PartialEq, Eq)]
pub struct Take {
    pub rate: u32,
    pub frames: Vec<u8>,
}

/// The file of a take. Refused with [`number::WAV`] at a rate that the box does not have, and where `frames` is no multiple of 4 bytes or more than [`MAX_FRAMES`].
pub fn file(rate: u32, frames: &[u8]) -> Result<Vec<u8>, u8> {
    filled(HEADER + frames.len(), |into| calls::wav_write(rate, frames, into)).map(|(_, file)| file)
}

/// The take of a file. Refused with [`number::WAV`] where the bytes are not, to the last one, a file that [`file`] makes.
pub fn take(file: &[u8]) -> Result<Take, u8> {
    filled(file.len().saturating_sub(HEADER), |into| calls::wav_read(file, into)).map(|(rate, frames)| Take { rate, frames })
}

/// The rate and the bytes of a call that fills `space` bytes, or its number where it refuses.
fn filled(space: usize, call: impl FnOnce(&mut [u8]) -> WavReply) -> Result<(u32, Vec<u8>), u8> {
    let mut into = vec![0; space];
    let reply = call(&mut into);
    if reply.number() == number::DONE { Ok((reply.rate(), into)) } else { Err(reply.number()) }
}

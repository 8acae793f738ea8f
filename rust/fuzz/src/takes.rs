//! Takes as WAV files, for tests: what the two calls on them refuse, and what they leave, written from request T-02's text. No header is taken apart: bytes are a file if they
//! begin with the header that a write would lay before the rest of them.
use port::{WavReply, calls, number};

/// The rates of takes, in frames a second.
pub const RATES: [u32; 4] = [44_100, 48_000, 88_200, 96_000];
/// Bytes of a header.
pub const HEADER: usize = 44;

/// A call on a take.
#[derive(Clone, Copy, Debug, PartialEq, Eq)]
pub enum Call {
    /// Frames become a file, at this rate.
    Write(u32),
    /// A file becomes frames.
    Read,
}

/// What a call is lent: the frames or the file that it is given, and the space that it fills.
#[derive(Clone, Debug, PartialEq, Eq)]
pub struct Lent {
    pub given: Vec<u8>,
    pub into: Vec<u8>,
}

impl Call {
    pub fn make(self, lent: &mut Lent) -> WavReply {
        match self {
            Self::Write(rate) => calls::wav_write(rate, &lent.given, &mut lent.into),
            Self::Read => calls::wav_read(&lent.given, &mut lent.into),
        }
    }

    /// What the call returns, and the lent bytes as it leaves them.
    pub fn expected(self, lent: &Lent) -> (WavReply, Lent) {
        let result = match self {
            Self::Write(rate) => header(rate, lent.given.len()).map(|header| (rate, [&header, lent.given.as_slice()].concat())),
            Self::Read => take(&lent.given),
        };
        let mut after = lent.clone();
        let returned = match result {
            None => u64::from(number::WAV),
            Some((_, bytes)) if lent.into.len() < bytes.len() => u64::from(number::SHORT_SPACE),
            Some((rate, bytes)) => {
                after.into[..bytes.len()].copy_from_slice(&bytes);
                u64::from(rate) << 44 | (bytes.len() as u64) << 8
            }
        };
        (WavReply(returned), after)
    }
}

/// The header of a file with `length` bytes of frames at a rate, or none where there is no such file.
pub fn header(rate: u32, length: usize) -> Option<[u8; HEADER]> {
    let size = u32::try_from(length).ok()?;
    // A header's first size is 36 more and has 32 bits as well, so that 4,294,967,256 is the most.
    let fits = size.checked_add(36).is_some();
    (RATES.contains(&rate) && size.is_multiple_of(4) && fits).then(|| fields(rate, size))
}

/// A header's fields in their order, for any numbers; of what 32 bits do not hold the low ones.
pub fn fields(rate: u32, size: u32) -> [u8; HEADER] {
    let [all, format_size, byte_rate] = [size.wrapping_add(36), 16, rate.wrapping_mul(4)].map(u32::to_le_bytes);
    let [pcm, channels, block, bits] = [1_u16, 2, 4, 16].map(u16::to_le_bytes);
    let file: [&[u8]; 3] = [b"RIFF", &all, b"WAVE"];
    let format: [&[u8]; 8] = [b"fmt ", &format_size, &pcm, &channels, &rate.to_le_bytes(), &byte_rate, &block, &bits];
    let data: [&[u8]; 2] = [b"data", &size.to_le_bytes()];
    [file.concat(), format.concat(), data.concat()].concat().try_into().unwrap()
}

/// The rate and the frames of a file.
fn take(file: &[u8]) -> Option<(u32, Vec<u8>)> {
    let (head, frames) = file.split_at_checked(HEADER)?;
    let rate = RATES.into_iter().find(|rate| header(*rate, frames.len()).is_some_and(|header| header == head))?;
    Some((rate, frames.to_vec()))
}

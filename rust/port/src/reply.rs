//! What a call returns.
use crate::layout::{DEVICE, device, get};

/// Document 01's numbers, and those of landed requests. 2 to 8 and 20 are of restore alone.
pub mod number {
    pub const DONE: u8 = 0;
    /// An opening was refused in `advance` or restore.
    pub const HOST_CLOSED: u8 = 1;
    /// The state ends inside a field.
    pub const SHORT_STATE: u8 = 2;
    /// The state does not begin with `HDA1`.
    pub const WRONG_MARK: u8 = 3;
    /// The state is of a device with a microphone, and this one has none, or the other way round.
    pub const MICROPHONE: u8 = 4;
    /// A format word of the state is unsupported.
    pub const FORMAT: u8 = 5;
    /// More than 4,352 positions, or more than the state has bytes for.
    pub const LIST_LENGTH: u8 = 6;
    /// A position that is not above the one before, or above what was submitted.
    pub const LIST_ORDER: u8 = 7;
    /// A stream's descriptor, counts or time.
    pub const STREAM: u8 = 8;
    /// Restore: bytes left over, pause byte, clock, responses or identity. Every call: a record that breaks a condition, or bytes that are none.
    pub const STATE: u8 = 9;
    /// Too little space lent.
    pub const LENT_SPACE: u8 = 10;
    pub const ODD_FRAMES: u8 = 11;
    pub const LATENCY: u8 = 12;
    /// A rate or a length that no take has, or a file of another layout.
    pub const WAV: u8 = 13;
    /// Too little space for the result, or too little scratch.
    pub const SHORT_SPACE: u8 = 14;
    /// A crowded list: neighbours fewer than 4 bytes apart, or the last with the stream's descriptor offset above what was submitted.
    pub const CROWDED: u8 = 20;
    /// A shortest time above the longest.
    pub const REVERSED: u8 = 21;
}

/// The number that a C function returned. Bits 31..10 are always 0.
#[derive(Clone, Copy, Debug, PartialEq, Eq)]
pub struct Reply(pub u64);

impl Reply {
    /// Document 01's number.
    pub fn number(self) -> u8 {
        self.0 as u8
    }

    /// The INTx level that the call left; false where it was handed no device, or bytes that are none.
    pub fn level(self) -> bool {
        self.0 >> 8 & 1 != 0
    }

    /// Whether a message is to be sent: the one that [`Message::of`] finds in the device record.
    pub fn sends(self) -> bool {
        self.0 >> 9 & 1 != 0
    }

    /// Frames moved, bytes written, or the register read.
    pub fn value(self) -> u32 {
        (self.0 >> 32) as u32
    }

    /// The reply with its message, from the device record as the call left it.
    pub fn answer(self, record: &[u8; DEVICE]) -> Answer {
        let message = self.sends().then(|| Message::of(record));
        Answer { number: self.number(), level: self.level(), message, value: self.value() }
    }
}

/// The number that one of the two calls on takes returned.
#[derive(Clone, Copy, Debug, PartialEq, Eq)]
pub struct WavReply(pub u64);

impl WavReply {
    /// [`number::DONE`], [`number::WAV`] or [`number::SHORT_SPACE`].
    pub fn number(self) -> u8 {
        self.0 as u8
    }

    /// Bytes that the call wrote, more than 32 bits for the largest file; 0 where it refused.
    pub fn bytes(self) -> u64 {
        self.0 >> 8 & 0xf_ffff_ffff
    }

    /// The take's rate in frames a second; 0 where the call refused.
    pub fn rate(self) -> u32 {
        (self.0 >> 44) as u32
    }
}

/// One MSI message.
#[derive(Clone, Copy, Debug, PartialEq, Eq)]
pub struct Message {
    pub address: u64,
    pub data: u32,
}

impl Message {
    /// The message that the configuration of a device record says.
    pub fn of(record: &[u8; DEVICE]) -> Self {
        Self { address: get::<8>(record, device::CONFIG + 0x64), data: get::<2>(record, device::CONFIG + 0x6c) as u32 }
    }
}

/// All that a call tells.
#[derive(Clone, Copy, Debug, PartialEq, Eq)]
pub struct Answer {
    /// Document 01's number.
    pub number: u8,
    /// The INTx level that the call left; false from calls on the host end alone.
    pub level: bool,
    pub message: Option<Message>,
    /// Frames moved, bytes written, or the register read.
    pub value: u32,
}

#[cfg(test)]
mod tests {
    use super::*;
    use crate::layout::put;

    #[test]
    fn each_part_of_the_returned_number_is_read_alone() {
        let parts = |reply: Reply| (reply.number(), reply.level(), reply.sends(), reply.value());
        assert_eq!(parts(Reply(0)), (0, false, false, 0));
        assert_eq!(parts(Reply(12)), (12, false, false, 0));
        assert_eq!(parts(Reply(0x100)), (0, true, false, 0));
        assert_eq!(parts(Reply(0x201)), (1, false, true, 0));
        assert_eq!(parts(Reply(0x8086_293e_0000_010a)), (10, true, false, 0x8086_293e));
        assert_eq!(parts(Reply(u64::MAX)), (255, true, true, u32::MAX));
    }

    #[test]
    fn each_part_of_a_reply_on_takes_is_read_alone() {
        let parts = |reply: u64| (WavReply(reply).number(), WavReply(reply).bytes(), WavReply(reply).rate());
        assert_eq!(parts(0), (0, 0, 0));
        assert_eq!(parts(13), (13, 0, 0));
        assert_eq!(parts(0xff), (255, 0, 0));
        assert_eq!(parts(0x100), (0, 1, 0));
        assert_eq!(parts(0xfff_ffff_ff00), (0, 0xf_ffff_ffff, 0));
        assert_eq!(parts(0x1000_0000_0000), (0, 0, 1));
        assert_eq!(parts(0xffff_f000_0000_0000), (0, 0, 0xf_ffff));
        assert_eq!(parts(u64::MAX), (255, 0xf_ffff_ffff, 0xf_ffff));
        // The largest file at the highest rate, and the frames in it.
        assert_eq!(parts(0x1770_0100_0000_0400), (0, 4_294_967_300, 96_000));
        assert_eq!(parts(0x1770_00ff_ffff_d800), (0, 4_294_967_256, 96_000));
    }

    #[test]
    fn a_message_stands_in_the_record() {
        let mut record = [0; DEVICE];
        put::<8>(&mut record, 6 + 0x64, 0x0123_4567_89ab_cdef);
        put::<4>(&mut record, 6 + 0x6c, 0xffff_4041);
        assert_eq!(Reply(0x200).answer(&record).message, Some(Message { address: 0x0123_4567_89ab_cdef, data: 0x4041 }));
        assert_eq!(Reply(0x100).answer(&record).message, None);
    }
}

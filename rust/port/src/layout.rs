//! Where things stand in the records (docs/LAYOUT.md). Numbers are little-endian. Stream 0 captures, stream 1 plays.

pub const STREAMS: usize = 2;
/// Bytes of a device record.
pub const DEVICE: usize = 749;
/// Bytes of a host end record.
pub const HOST: usize = 16;
/// Positions that may be pending in a stream.
pub const POSITIONS: usize = 4352;
/// Bytes of a stream's part of the lists.
pub const LIST: usize = 8 * POSITIONS;
/// Bytes of a stream's part of the queues.
pub const QUEUE: usize = 2048;
/// Bytes that are lent at least for lists, and for queues.
pub const LISTS: usize = STREAMS * LIST;
pub const QUEUES: usize = STREAMS * QUEUE;
/// The most whole frames that a stream defers, and what a whole frame is in a stream's time.
pub const MAX_DEFERRED: usize = 8192;
pub const FRAME_TIME: u64 = 1_000_000_000;
/// The largest downstream count.
pub const MAX_DOWNSTREAM: u32 = 14_336;
/// Bytes of a saved state without pending positions, and most bytes of any.
pub const STATE: usize = 748;
pub const MAX_STATE: usize = STATE + LISTS;
/// Bytes of what `advance_bounds` gives of a stream, the lowest count and then the highest, and of all streams.
pub const BOUND: usize = 16;
pub const BOUNDS: usize = STREAMS * BOUND;

/// Places in a device record.
pub mod device {
    pub const MARK: usize = 0;
    pub const MICROPHONE: usize = 4;
    pub const PAUSED: usize = 5;
    pub const CONFIG: usize = 6;
    pub const REGISTERS: usize = 262;
    pub const CODEC: usize = 518;
    pub const TICKS: usize = 662;
    pub const REMAINDER: usize = 670;
    pub const RESPONSES: usize = 678;
    pub const ASSERTED: usize = 748;

    /// Where the format register of a stream stands.
    pub const fn format(index: usize) -> usize {
        REGISTERS + 0x92 + 0x20 * index
    }

    /// Where the numbers of a stream start, and how many bytes they are.
    pub const fn stream(index: usize) -> usize {
        680 + STREAM * index
    }
    pub const STREAM: usize = 34;
}

/// Places in the numbers of a stream.
pub mod stream {
    pub const DESCRIPTOR: usize = 0;
    pub const OFFSET: usize = 2;
    pub const SUBMITTED: usize = 6;
    pub const CONSUMED: usize = 14;
    /// Frames that are due and were not moved, in billionths.
    pub const TIME: usize = 22;
    pub const PENDING: usize = 30;
}

/// Places in a host end record.
pub mod host {
    pub const PLAYBACK_FAILS: usize = 0;
    pub const CAPTURE_FAILS: usize = 1;
    pub const DOWNSTREAM: usize = 2;

    /// Where a stream's queue says whether it is open, and its length.
    pub const fn open(index: usize) -> usize {
        6 + 5 * index
    }
    pub const fn length(index: usize) -> usize {
        open(index) + 1
    }
}

/// The number of N bytes at a place.
pub fn get<const N: usize>(bytes: &[u8], place: usize) -> u64 {
    let mut number = [0; 8];
    number[..N].copy_from_slice(&bytes[place..place + N]);
    u64::from_le_bytes(number)
}

/// Lays the low N bytes of a number at a place.
pub fn put<const N: usize>(bytes: &mut [u8], place: usize, number: u64) {
    bytes[place..place + N].copy_from_slice(&number.to_le_bytes()[..N]);
}

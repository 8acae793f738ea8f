//! Any call on any bytes, for tests of what calls refuse: records of any length and content, spaces of any length. Those on WAV files, which are handed none of
//! these, are in [`crate::takes`].
use crate::bounds::Space;
use crate::states::Crowded;
use port::layout::{DEVICE, HOST, LIST, LISTS, MAX_DOWNSTREAM, POSITIONS, QUEUE, QUEUES, STATE, STREAMS, device, get, host, stream};
use port::{Machine, Reply, calls, number};

/// All that calls can be lent. A call uses what it is handed; `buffer` is what it reads into, writes from, saves into, restores, feeds or pulls.
#[derive(Clone, PartialEq, Eq)]
pub struct Lent {
    pub device: Vec<u8>,
    pub host: Vec<u8>,
    pub lists: Vec<u8>,
    pub queues: Vec<u8>,
    pub memory: Vec<u8>,
    pub buffer: Vec<u8>,
}

impl Lent {
    /// A machine's bytes with `memory` bytes of guest memory and `buffer` bytes of buffer, all 0.
    pub fn of(machine: &Machine, memory: usize, buffer: usize) -> Self {
        let bytes = machine.bytes();
        Self {
            device: bytes.device.to_vec(),
            host: bytes.host.to_vec(),
            lists: bytes.lists.to_vec(),
            queues: bytes.queues.to_vec(),
            memory: vec![0; memory],
            buffer: vec![0; buffer],
        }
    }

    /// Document 01's 10 or 9 that a call gives before anything else, written from its text ("Numbers returned"); save's own 10 and restore's own 9 are another matter.
    /// That a list is crowded is none of its conditions: only a state is asked for that.
    pub fn refusal(&self, handed: Handed) -> Option<u8> {
        let short_queues = self.queues.len() < QUEUES;
        let short = short_queues || self.lists.len() < LISTS;
        let (short, valid) = match handed {
            Handed::NewDevice => (short, self.device.len() == DEVICE),
            Handed::NewHost => (short_queues, self.host.len() == HOST),
            Handed::Host => (short_queues, is_valid_host(&self.host)),
            Handed::Machine => (short, !short && is_valid_host(&self.host) && is_valid_device(&self.device, &self.lists)),
        };
        if short { Some(number::LENT_SPACE) } else { (!valid).then_some(number::STATE) }
    }

    /// Whether device and host end are records at all: then the device has an INTx level.
    pub fn are_records(&self) -> bool {
        is_device(&self.device) && is_host(&self.host)
    }

    /// A guest's write of a value's low bytes, which are then in the buffer.
    pub fn write(&mut self, offset: u64, width: usize, value: u64) -> Reply {
        self.buffer = value.to_le_bytes()[..width].to_vec();
        Call::Write(offset).make(self)
    }

    /// The bytes that a valid machine's state has.
    pub fn saved_bytes(&self) -> usize {
        STATE + (0..STREAMS).map(|index| 8 * get::<4>(&self.device, device::stream(index) + stream::PENDING) as usize).sum::<usize>()
    }

    /// A valid machine's state.
    pub fn saved(&self) -> Vec<u8> {
        let mut saved = Self { buffer: vec![0; self.saved_bytes()], ..self.clone() };
        Call::Save.make(&mut saved);
        saved.buffer
    }
}

fn is_device(record: &[u8]) -> bool {
    let flags = [device::MICROPHONE, device::PAUSED, device::ASSERTED];
    record.len() == DEVICE && record[..4] == *b"HDA1" && flags.iter().all(|place| record[*place] <= 1)
}

fn is_host(record: &[u8]) -> bool {
    let flags = [host::PLAYBACK_FAILS, host::CAPTURE_FAILS, host::open(0), host::open(1)];
    record.len() == HOST && flags.iter().all(|place| record[*place] <= 1)
}

/// A device record that breaks none of 6, 7, 8, nor of 9 on clock, responses and identity.
fn is_valid_device(record: &[u8], lists: &[u8]) -> bool {
    is_device(record)
        && get::<8>(record, device::REMAINDER) < 1_000_000_000
        && get::<2>(record, device::RESPONSES) <= 255
        && get::<4>(record, device::CONFIG) == 0x293e_8086
        && (0..STREAMS).all(|index| is_valid_stream(&record[device::stream(index)..], &lists[LIST * index..]))
}

fn is_valid_stream(numbers: &[u8], list: &[u8]) -> bool {
    let (consumed, submitted) = (get::<8>(numbers, stream::CONSUMED), get::<8>(numbers, stream::SUBMITTED));
    let pending = get::<4>(numbers, stream::PENDING) as usize;
    let mut last = consumed;
    pending <= POSITIONS
        && (0..pending).all(|place| {
            let before = std::mem::replace(&mut last, get::<8>(list, 8 * place));
            before < last && last <= submitted
        })
        && get::<2>(numbers, stream::DESCRIPTOR) <= 255
        && consumed <= submitted
        && get::<8>(numbers, stream::TIME) < 8193 * 1_000_000_000
}

/// A host end record that does not break 12, with queues of at most 2,048 bytes in whole frames, empty on a closed stream.
fn is_valid_host(record: &[u8]) -> bool {
    let is_valid_queue = |index| {
        let length = get::<4>(record, host::length(index));
        length <= QUEUE as u64 && length.is_multiple_of(4) && (length == 0 || record[host::open(index)] == 1)
    };
    is_host(record) && is_valid_downstream(get::<4>(record, host::DOWNSTREAM)) && (0..STREAMS).all(is_valid_queue)
}

/// Number 12's condition.
pub fn is_valid_downstream(bytes: u64) -> bool {
    bytes <= u64::from(MAX_DOWNSTREAM) && bytes.is_multiple_of(4)
}

/// A call with its numbers.
#[derive(Clone, Copy, Debug, PartialEq, Eq)]
pub enum Call {
    New(bool),
    HostNew,
    Advance(u64),
    /// Shortest and longest time. The scratch that it needs is made for it, and looked at; [`crate::bounds`] lends it any other.
    AdvanceBounds(u64, u64),
    Read(u64),
    Write(u64),
    BarRead(u32, u64),
    BarWrite(u32, u64),
    ConfigRead(u64),
    ConfigWrite(u64, u64),
    PinPresenceChanged(u32),
    SetPaused(bool),
    Save,
    Restore,
    RestoreEmptied,
    Feed,
    Pull,
    SetPlaybackFails(bool),
    SetCaptureFails(bool),
    SetDownstream(u32),
}

/// What a call is handed, which decides what it checks.
#[derive(Clone, Copy, Debug, PartialEq, Eq)]
pub enum Handed {
    /// Space for a new device record.
    NewDevice,
    /// Space for a new host end record.
    NewHost,
    /// Device and host end.
    Machine,
    /// The host end alone.
    Host,
}

/// What a call may change, of the buffer how many bytes from its start.
#[derive(Default)]
struct Changes {
    device: bool,
    host: bool,
    lists: bool,
    queues: bool,
    memory: bool,
    buffer: usize,
}

/// Whether two slices have one length, and the same bytes from a place on.
fn is_same_from(before: &[u8], after: &[u8], place: usize) -> bool {
    before.len() == after.len() && before.get(place..) == after.get(place..)
}

impl Call {
    /// Every call once.
    pub const EACH: [Self; 20] = [
        Self::New(true),
        Self::HostNew,
        Self::Advance(1_000_000),
        Self::AdvanceBounds(990_000, 1_010_000),
        Self::Read(0),
        Self::Write(8),
        Self::BarRead(0, 0),
        Self::BarWrite(0, 8),
        Self::ConfigRead(1),
        Self::ConfigWrite(1, 0),
        Self::PinPresenceChanged(3),
        Self::SetPaused(true),
        Self::Save,
        Self::Restore,
        Self::RestoreEmptied,
        Self::Feed,
        Self::Pull,
        Self::SetPlaybackFails(true),
        Self::SetCaptureFails(true),
        Self::SetDownstream(4),
    ];

    pub fn handed(self) -> Handed {
        match self {
            Self::New(_) => Handed::NewDevice,
            Self::HostNew => Handed::NewHost,
            Self::Feed | Self::Pull | Self::SetPlaybackFails(_) | Self::SetCaptureFails(_) | Self::SetDownstream(_) => Handed::Host,
            _ => Handed::Machine,
        }
    }

    /// What becomes of crowded lists, where the call takes a state; none of every other call.
    pub fn crowded(self) -> Option<Crowded> {
        match self {
            Self::Restore => Some(Crowded::Refused),
            Self::RestoreEmptied => Some(Crowded::Emptied),
            _ => None,
        }
    }

    /// Whether a call that gave `reply` has changed only what docs/LAYOUT.md says: the slices marked `*`, lists and queues no further than their least lengths, and of the
    /// buffer that a pull or a save writes no more than it counts.
    pub fn keeps_the_rest(self, reply: Reply, before: &Lent, after: &Lent) -> bool {
        let none = Changes::default();
        let changes = match self {
            Self::New(_) | Self::SetPaused(_) => Changes { device: true, ..none },
            Self::HostNew | Self::SetPlaybackFails(_) | Self::SetCaptureFails(_) | Self::SetDownstream(_) => Changes { host: true, ..none },
            Self::Advance(_) => Changes { device: true, host: true, lists: true, queues: true, memory: true, ..none },
            Self::Read(_) | Self::BarRead(..) => Changes { buffer: before.buffer.len(), ..none },
            Self::Write(_) | Self::BarWrite(..) => Changes { device: true, host: true, memory: true, ..none },
            Self::ConfigRead(_) => none,
            Self::ConfigWrite(..) | Self::PinPresenceChanged(_) => Changes { device: true, memory: true, ..none },
            Self::Save | Self::AdvanceBounds(..) => Changes { buffer: reply.value() as usize, ..none },
            Self::Restore | Self::RestoreEmptied => Changes { device: true, host: true, lists: true, ..none },
            Self::Feed => Changes { host: true, queues: true, ..none },
            Self::Pull => Changes { host: true, queues: true, buffer: 4 * reply.value() as usize, ..none },
        };
        let all = |changes: bool| if changes { usize::MAX } else { 0 };
        is_same_from(&before.device, &after.device, all(changes.device))
            && is_same_from(&before.host, &after.host, all(changes.host))
            && is_same_from(&before.lists, &after.lists, if changes.lists { LISTS } else { 0 })
            && is_same_from(&before.queues, &after.queues, if changes.queues { QUEUES } else { 0 })
            && is_same_from(&before.memory, &after.memory, all(changes.memory))
            && is_same_from(&before.buffer, &after.buffer, changes.buffer)
    }

    pub fn make(self, lent: &mut Lent) -> Reply {
        let Lent { device, host, lists, queues, memory, buffer } = lent;
        match self {
            Self::New(microphone) => calls::new(device, lists, queues, microphone),
            Self::HostNew => calls::host_new(host, queues),
            Self::Advance(nanos) => calls::advance(device, host, lists, queues, memory, nanos),
            Self::AdvanceBounds(shortest, longest) => ask_with_scratch(lent, shortest, longest),
            Self::Read(offset) => calls::read(device, host, lists, queues, offset, buffer),
            Self::Write(offset) => calls::write(device, host, lists, queues, memory, offset, buffer),
            Self::BarRead(bar, offset) => calls::bar_read(device, host, lists, queues, bar, offset, buffer),
            Self::BarWrite(bar, offset) => calls::bar_write(device, host, lists, queues, memory, bar, offset, buffer),
            Self::ConfigRead(register) => calls::config_read(device, host, lists, queues, register),
            Self::ConfigWrite(register, offset) => calls::config_write(device, host, lists, queues, memory, register, offset, buffer),
            Self::PinPresenceChanged(node) => calls::pin_presence_changed(device, host, lists, queues, memory, node),
            Self::SetPaused(paused) => calls::set_paused(device, host, lists, queues, paused),
            Self::Save => calls::save(device, host, lists, queues, buffer),
            Self::Restore => calls::restore(device, host, lists, queues, buffer),
            Self::RestoreEmptied => calls::restore_emptied(device, host, lists, queues, buffer),
            Self::Feed => calls::feed(host, queues, buffer),
            Self::Pull => calls::pull(host, queues, buffer),
            Self::SetPlaybackFails(fails) => calls::set_playback_fails(host, queues, fails),
            Self::SetCaptureFails(fails) => calls::set_capture_fails(host, queues, fails),
            Self::SetDownstream(bytes) => calls::set_downstream(host, queues, bytes),
        }
    }
}

/// The call on a timer with jitter, with just the scratch that it needs; what it leaves of that is looked at here.
fn ask_with_scratch(lent: &mut Lent, shortest: u64, longest: u64) -> Reply {
    let before = Space { into: std::mem::take(&mut lent.buffer), ..Space::enough(lent.memory.len()) };
    let mut space = before.clone();
    let reply = space.ask(lent, shortest, longest);
    assert!(space.has_scratch_of(&before, reply), "scratch after {}", reply.number());
    lent.buffer = space.into;
    reply
}

//! A device with its host end, and all that they are lent besides guest memory.
use crate::layout::{BOUND, BOUNDS, DEVICE, FRAME_TIME, HOST, LIST, LISTS, MAX_STATE, QUEUE, QUEUES, STREAMS, device, get, host, stream};
use crate::{Answer, Reply, calls, format, number};

/// The records and lent spaces as bytes (docs/LAYOUT.md).
#[derive(Clone, PartialEq, Eq)]
pub struct Bytes {
    pub device: [u8; DEVICE],
    pub host: [u8; HOST],
    pub lists: Box<[u8; LISTS]>,
    pub queues: Box<[u8; QUEUES]>,
}

/// A device, its host end, its lists and its queues. Guest memory is lent to each call that needs it. Made by [`Machine::new`], it is valid after every call.
#[derive(Clone, PartialEq, Eq)]
pub struct Machine {
    bytes: Bytes,
}

/// Space that [`Machine::advance_bounds`] works in: one for each thread that asks serves any number of machines, one after the other. A call that answers leaves all of it zero, so that nothing of one guest's memory is there
/// for the next.
#[derive(Clone, PartialEq, Eq)]
pub struct Scratch {
    pub lists: Box<[u8; LISTS]>,
    pub queues: Box<[u8; QUEUES]>,
    /// As long as the guest's, or longer.
    pub memory: Vec<u8>,
}

impl Scratch {
    /// Scratch for guests of up to `memory` bytes.
    pub fn new(memory: usize) -> Self {
        Self { lists: Box::new([0; LISTS]), queues: Box::new([0; QUEUES]), memory: vec![0; memory] }
    }
}

/// Between which counts the submitted bytes of a stream end. Both are reached.
#[derive(Clone, Copy, Debug, PartialEq, Eq)]
pub struct Bounds {
    pub lowest: u64,
    pub highest: u64,
}

impl Bounds {
    /// Those of each stream in what [`calls::advance_bounds`] has filled.
    pub fn each(filled: &[u8; BOUNDS]) -> [Self; STREAMS] {
        std::array::from_fn(|index| Self { lowest: get::<8>(filled, BOUND * index), highest: get::<8>(filled, BOUND * index + 8) })
    }
}

impl Machine {
    /// A new device and a new host end.
    pub fn new(microphone: bool) -> Self {
        let mut bytes = Bytes { device: [0; DEVICE], host: [0; HOST], lists: Box::new([0; LISTS]), queues: Box::new([0; QUEUES]) };
        let made = calls::new(&mut bytes.device, &*bytes.lists, &*bytes.queues, microphone);
        let made_host = calls::host_new(&mut bytes.host, &*bytes.queues);
        assert_eq!((made.number(), made_host.number()), (number::DONE, number::DONE), "records and spaces have their lengths");
        Self { bytes }
    }

    /// Any bytes, also such as no call leaves: calls on a machine that breaks a condition give 9 and change nothing.
    pub fn from_bytes(bytes: Bytes) -> Self {
        Self { bytes }
    }

    pub fn bytes(&self) -> &Bytes {
        &self.bytes
    }

    fn answer(&self, reply: Reply) -> Answer {
        reply.answer(&self.bytes.device)
    }

    /// `nanos` nanoseconds pass.
    pub fn advance(&mut self, memory: &mut [u8], nanos: u64) -> Answer {
        let Bytes { device, host, lists, queues } = &mut self.bytes;
        let reply = calls::advance(device, host, &mut **lists, &mut **queues, memory, nanos);
        self.answer(reply)
    }

    /// Between which counts each stream's submitted bytes end after an [`Machine::advance`] of `shortest` to `longest` nanoseconds, where every opening succeeds. Nothing changes but the scratch, which is 0 afterwards. Refused with
    /// [`number::REVERSED`] or, where the scratch has less memory than the guest, [`number::SHORT_SPACE`]; a refusal leaves the scratch as it was.
    pub fn advance_bounds(&self, memory: &[u8], shortest: u64, longest: u64, scratch: &mut Scratch) -> Result<[Bounds; STREAMS], u8> {
        let Bytes { device, host, lists, queues } = &self.bytes;
        let mut filled = [0; BOUNDS];
        let Scratch { lists: more_lists, queues: more_queues, memory: more_memory } = scratch;
        let reply = calls::advance_bounds(
            device,
            host,
            &**lists,
            &**queues,
            memory,
            shortest,
            longest,
            &mut **more_lists,
            &mut **more_queues,
            more_memory,
            &mut filled,
        );
        if reply.number() == number::DONE { Ok(Bounds::each(&filled)) } else { Err(reply.number()) }
    }

    /// Registers from `offset` on, into `into`.
    pub fn read(&self, offset: u64, into: &mut [u8]) -> Answer {
        let Bytes { device, host, lists, queues } = &self.bytes;
        self.answer(calls::read(device, host, &**lists, &**queues, offset, into))
    }

    /// A guest's write to the registers from `offset` on.
    pub fn write(&mut self, memory: &mut [u8], offset: u64, bytes: &[u8]) -> Answer {
        let Bytes { device, host, lists, queues } = &mut self.bytes;
        let reply = calls::write(device, host, &**lists, &**queues, memory, offset, bytes);
        self.answer(reply)
    }

    /// As [`Machine::read`] at base address 0; others read zeros.
    pub fn bar_read(&self, bar: u32, offset: u64, into: &mut [u8]) -> Answer {
        let Bytes { device, host, lists, queues } = &self.bytes;
        self.answer(calls::bar_read(device, host, &**lists, &**queues, bar, offset, into))
    }

    /// As [`Machine::write`] at base address 0; others drop the write.
    pub fn bar_write(&mut self, memory: &mut [u8], bar: u32, offset: u64, bytes: &[u8]) -> Answer {
        let Bytes { device, host, lists, queues } = &mut self.bytes;
        let reply = calls::bar_write(device, host, &**lists, &**queues, memory, bar, offset, bytes);
        self.answer(reply)
    }

    /// A configuration register, which is the answer's value.
    pub fn config_read(&self, register: u64) -> Answer {
        let Bytes { device, host, lists, queues } = &self.bytes;
        self.answer(calls::config_read(device, host, &**lists, &**queues, register))
    }

    /// A write to the configuration, from byte `offset` of a register on.
    pub fn config_write(&mut self, memory: &mut [u8], register: u64, offset: u64, bytes: &[u8]) -> Answer {
        let Bytes { device, host, lists, queues } = &mut self.bytes;
        let reply = calls::config_write(device, host, &**lists, &**queues, memory, register, offset, bytes);
        self.answer(reply)
    }

    /// Something was plugged in or out at a node.
    pub fn pin_presence_changed(&mut self, memory: &mut [u8], node: u32) -> Answer {
        let Bytes { device, host, lists, queues } = &mut self.bytes;
        let reply = calls::pin_presence_changed(device, host, &**lists, &**queues, memory, node);
        self.answer(reply)
    }

    /// Streams and clock stand still while paused.
    pub fn set_paused(&mut self, paused: bool) -> Answer {
        let Bytes { device, host, lists, queues } = &mut self.bytes;
        let reply = calls::set_paused(device, host, &**lists, &**queues, paused);
        self.answer(reply)
    }

    /// The saved state into the start of `into`; the answer's value is its length.
    pub fn save(&self, into: &mut [u8]) -> Answer {
        let Bytes { device, host, lists, queues } = &self.bytes;
        self.answer(calls::save(device, host, &**lists, &**queues, into))
    }

    /// The saved state alone, empty where it was refused.
    pub fn saved(&self) -> (Answer, Vec<u8>) {
        let mut state = vec![0; MAX_STATE];
        let answer = self.save(&mut state);
        state.truncate(answer.value as usize);
        (answer, state)
    }

    /// The device takes a saved state, or gives the number of what is wrong with it and stays as it was.
    pub fn restore(&mut self, state: &[u8]) -> Answer {
        let Bytes { device, host, lists, queues } = &mut self.bytes;
        let reply = calls::restore(device, host, &mut **lists, &**queues, state);
        self.answer(reply)
    }

    /// As [`Machine::restore`], but a state whose lists are crowded is taken, with those lists emptied. Their completions are lost: the guest gets no interrupt for them.
    pub fn restore_emptied(&mut self, state: &[u8]) -> Answer {
        let Bytes { device, host, lists, queues } = &mut self.bytes;
        let reply = calls::restore_emptied(device, host, &mut **lists, &**queues, state);
        self.answer(reply)
    }

    /// Frames for capture; the answer's value says how many were taken.
    pub fn feed(&mut self, frames: &[u8]) -> Answer {
        let reply = calls::feed(&mut self.bytes.host, &mut *self.bytes.queues, frames);
        self.answer(reply)
    }

    /// Frames of playback; the answer's value says how many were given. The rest of `into` stays.
    pub fn pull(&mut self, into: &mut [u8]) -> Answer {
        let reply = calls::pull(&mut self.bytes.host, &mut *self.bytes.queues, into);
        self.answer(reply)
    }

    /// Whether openings for playback fail.
    pub fn set_playback_fails(&mut self, fails: bool) -> Answer {
        let reply = calls::set_playback_fails(&mut self.bytes.host, &*self.bytes.queues, fails);
        self.answer(reply)
    }

    /// Whether openings for capture fail.
    pub fn set_capture_fails(&mut self, fails: bool) -> Answer {
        let reply = calls::set_capture_fails(&mut self.bytes.host, &*self.bytes.queues, fails);
        self.answer(reply)
    }

    /// How many bytes the host holds beyond the playback queue.
    pub fn set_downstream(&mut self, bytes: u32) -> Answer {
        let reply = calls::set_downstream(&mut self.bytes.host, &*self.bytes.queues, bytes);
        self.answer(reply)
    }
}

/// A device's stream.
#[derive(Clone, Copy, Debug, PartialEq, Eq)]
pub enum Stream {
    Capture,
    Playback,
}

impl Stream {
    pub const EACH: [Self; STREAMS] = [Self::Capture, Self::Playback];

    /// Its number in the records.
    pub fn index(self) -> usize {
        self as usize
    }
}

/// What the records hold.
impl Machine {
    pub fn microphone(&self) -> bool {
        self.bytes.device[device::MICROPHONE] != 0
    }

    /// Whether the message of the present interrupt has been sent.
    pub fn asserted(&self) -> bool {
        self.bytes.device[device::ASSERTED] != 0
    }

    /// Positions that wait for the host, as bytes.
    pub fn pending(&self, which: Stream) -> &[u8] {
        let index = which.index();
        let count = get::<4>(&self.bytes.device, device::stream(index) + stream::PENDING) as usize;
        let list = &self.bytes.lists[LIST * index..LIST * (index + 1)];
        &list[..(8 * count).min(LIST)]
    }

    pub fn open(&self, which: Stream) -> bool {
        self.bytes.host[host::open(which.index())] != 0
    }

    /// The rate at which a stream is open, in frames a second; none where it is closed. None too where the guest has just written a format that the device
    /// does not accept under a running stream: its next turn in [`Machine::advance`] stops it.
    pub fn rate(&self, which: Stream) -> Option<u32> {
        let word = get::<2>(&self.bytes.device, device::format(which.index())) as u16;
        if self.open(which) { format::rate(word) } else { None }
    }

    /// The bytes queued.
    pub fn queue(&self, which: Stream) -> &[u8] {
        let index = which.index();
        let length = get::<4>(&self.bytes.host, host::length(index)) as usize;
        let queue = &self.bytes.queues[QUEUE * index..QUEUE * (index + 1)];
        &queue[..length.min(QUEUE)]
    }

    /// The bytes that a stream has submitted since it was reset: taken for the guest by a capture, or put into the queue by a playback.
    pub fn submitted(&self, which: Stream) -> u64 {
        get::<8>(&self.bytes.device, device::stream(which.index()) + stream::SUBMITTED)
    }

    /// The whole frames that are due in a stream and were not moved: those of a playback whose queue is full wait for the host's pulls.
    pub fn deferred(&self, which: Stream) -> u64 {
        get::<8>(&self.bytes.device, device::stream(which.index()) + stream::TIME) / FRAME_TIME
    }

    pub fn playback_fails(&self) -> bool {
        self.bytes.host[host::PLAYBACK_FAILS] != 0
    }

    pub fn capture_fails(&self) -> bool {
        self.bytes.host[host::CAPTURE_FAILS] != 0
    }

    pub fn downstream(&self) -> u32 {
        get::<4>(&self.bytes.host, host::DOWNSTREAM) as u32
    }
}

#[cfg(test)]
mod tests {
    use super::*;
    use crate::layout::MAX_DEFERRED;

    #[test]
    fn a_new_machine_answers() {
        let machine = Machine::new(true);
        let answer = machine.config_read(0);
        assert_eq!((answer.number, answer.value, answer.level, answer.message), (number::DONE, 0x293e_8086, false, None));
        let (answer, state) = machine.saved();
        assert_eq!((answer.number, state.len(), &state[..5]), (number::DONE, 748, b"HDA1\x01".as_slice()));
        assert_eq!(state, machine.bytes().device[..748]);
        assert!(!Machine::new(false).microphone());
    }

    #[test]
    fn a_saved_state_comes_back() {
        let (mut machine, mut memory) = (Machine::new(true), [0; 4096]);
        let (_, fresh) = machine.saved();
        for (offset, bytes) in [(8, vec![1]), (0xb2, vec![0x11, 0]), (0xa0, vec![2])] {
            machine.write(&mut memory, offset, &bytes);
        }
        let (_, running) = machine.saved();
        assert_eq!(machine.restore(&fresh).number, number::DONE);
        assert!(machine.saved().1 == fresh && !machine.open(Stream::Playback));
        assert_eq!(machine.restore(&running).number, number::DONE);
        assert!(machine.saved().1 == running && machine.open(Stream::Playback) && !machine.open(Stream::Capture));
        assert_eq!(Machine::new(false).restore(&fresh).number, number::MICROPHONE);
        machine.set_playback_fails(true);
        assert_eq!((machine.restore(&running).number, machine.open(Stream::Playback)), (number::HOST_CLOSED, true));
    }

    #[test]
    fn a_stream_opens_with_the_words_that_have_a_rate() {
        let (mut machine, mut memory) = (Machine::new(true), [0; 4096]);
        machine.write(&mut memory, 8, &[1]);
        for which in Stream::EACH {
            let registers = 0x80 + 0x20 * which.index() as u64;
            for word in 0..=u16::MAX {
                machine.write(&mut memory, registers + 0x12, &word.to_le_bytes());
                assert_eq!(machine.rate(which), None, "closed");
                machine.write(&mut memory, registers, &[2]);
                assert_eq!((machine.rate(which), machine.open(which)), (format::rate(word), format::rate(word).is_some()), "{word:#06x}");
                machine.write(&mut memory, registers, &[0]);
            }
        }
    }

    #[test]
    fn the_rate_follows_the_format_of_a_running_stream() {
        let (mut machine, mut memory) = (Machine::new(false), [0; 4096]);
        machine.config_write(&mut memory, 1, 0, &[4]);
        machine.write(&mut memory, 8, &[1]);
        for (word, rate) in [(0x0011_u16, Some(48_000)), (0x4811, Some(88_200)), (0x5811, None)] {
            machine.write(&mut memory, 0xb2, &word.to_le_bytes());
            machine.write(&mut memory, 0xa0, &[2]);
            assert_eq!((machine.rate(Stream::Playback), machine.open(Stream::Playback)), (rate, true));
        }
        machine.advance(&mut memory, 0);
        assert_eq!((machine.rate(Stream::Playback), machine.open(Stream::Playback)), (None, false));
    }

    /// A device that plays a descriptor of a page at 48,000 frames a second.
    fn playing(memory: &mut [u8]) -> Machine {
        let mut machine = Machine::new(false);
        memory[8..12].copy_from_slice(&4096_u32.to_le_bytes());
        machine.config_write(memory, 1, 0, &[4]);
        for (offset, bytes) in [(8, vec![1]), (0xa8, vec![0, 0x10]), (0xb2, vec![0x11, 0]), (0xa0, vec![2])] {
            machine.write(memory, offset, &bytes);
        }
        machine
    }

    #[test]
    fn frames_for_which_the_queue_has_no_room_are_deferred() {
        let mut memory = [0; 4096];
        let mut machine = playing(&mut memory);
        // Not quite a frame, the rest of 512, not quite one more and the rest of it, 8,191 more, and a second beyond what can be deferred.
        for (nanos, queued, deferred) in
            [(20_833, 0, 0), (10_645_834, 512, 0), (20_832, 512, 0), (1, 512, 1), (170_645_834, 512, 8192), (1_000_000_000, 512, 8192)]
        {
            assert_eq!(machine.advance(&mut memory, nanos).number, number::DONE);
            assert_eq!((machine.queue(Stream::Playback).len() / 4, machine.deferred(Stream::Playback)), (queued, deferred), "{nanos} ns");
        }
        assert_eq!((machine.deferred(Stream::Playback), machine.deferred(Stream::Capture)), (MAX_DEFERRED as u64, 0));
        for left in [8192 - 256, 8192 - 512] {
            assert_eq!(machine.pull(&mut [0; 1024]).value, 256);
            machine.advance(&mut memory, 0);
            assert_eq!(machine.deferred(Stream::Playback), left);
        }
        machine.write(&mut memory, 0xa0, &[0]);
        assert_eq!(machine.deferred(Stream::Playback), 0, "stopped");
    }

    #[test]
    fn counts_end_between_those_of_the_shortest_and_the_longest_time() {
        let mut memory = [0; 4096];
        let machine = playing(&mut memory);
        let (before, mut scratch) = (machine.clone(), Scratch::new(memory.len() + 1));
        let still = Bounds { lowest: 0, highest: 0 };
        // A nanosecond before the first frame and at it; a millisecond and a half more or less; until the queue is full.
        for (shortest, longest, lowest, highest) in
            [(0, 20_833, 0, 0), (0, 20_834, 0, 4), (20_834, 20_834, 4, 4), (500_000, 1_500_000, 96, 288), (1_000_000, u64::MAX, 192, 2048)]
        {
            scratch.lists.fill(0xa5);
            scratch.queues.fill(0xa5);
            scratch.memory.fill(0xa5);
            let bounds = machine.advance_bounds(&memory, shortest, longest, &mut scratch);
            assert_eq!(bounds, Ok([still, Bounds { lowest, highest }]), "{shortest} to {longest} ns");
            assert!(scratch == Scratch::new(memory.len() + 1), "the scratch is zero, also beyond the guest's length");
        }
        assert!(machine == before);
    }

    #[test]
    fn a_long_time_can_end_below_a_shorter_one() {
        let mut memory = [0; 4096];
        let mut machine = playing(&mut memory);
        // Ten frames fit between the buffer's address and the end of memory. With the eleventh the transfer fails, and none of them counts.
        memory[..2].copy_from_slice(&4056_u16.to_le_bytes());
        let mut scratch = Scratch::new(memory.len());
        let mut highest =
            |shortest, longest| machine.advance_bounds(&memory, shortest, longest, &mut scratch).map(|bounds| bounds[1].highest);
        assert_eq!([highest(0, 0), highest(100_000, 100_000), highest(500_000, 500_000), highest(0, 500_000)], [0, 16, 0, 40].map(Ok));
        assert_eq!(machine.advance(&mut memory, 500_000).number, number::DONE);
        assert_eq!((machine.submitted(Stream::Playback), machine.open(Stream::Playback)), (0, false));
    }

    #[test]
    fn bounds_are_refused_by_number_and_leave_the_scratch() {
        let mut memory = [0; 4096];
        let machine = playing(&mut memory);
        let mut scratch = Scratch { memory: vec![0xa5; memory.len() - 1], ..Scratch::new(0) };
        let before = scratch.clone();
        assert_eq!(machine.advance_bounds(&memory, 2, 1, &mut scratch), Err(number::REVERSED));
        assert_eq!(machine.advance_bounds(&memory, 1, 2, &mut scratch), Err(number::SHORT_SPACE));
        let mut bytes = machine.bytes().clone();
        bytes.host[host::DOWNSTREAM] = 2;
        assert_eq!(Machine::from_bytes(bytes).advance_bounds(&memory, 2, 1, &mut scratch), Err(number::STATE));
        assert!(scratch == before);
        assert!(machine.advance_bounds(&memory[1..], 1, 2, &mut scratch).is_ok(), "a guest as long as the scratch");
    }

    #[test]
    fn openings_are_taken_as_ones_that_succeed() {
        let mut memory = [0; 4096];
        let mut machine = playing(&mut memory);
        let mut scratch = Scratch::new(memory.len());
        let open = machine.advance_bounds(&memory, 0, 1_000_000, &mut scratch);
        // The host end is made anew, so that the next turn opens the stream, and refuses to.
        let mut bytes = machine.bytes().clone();
        assert_eq!(calls::host_new(&mut bytes.host, &*bytes.queues).number(), number::DONE);
        machine = Machine::from_bytes(bytes);
        machine.set_playback_fails(true);
        assert_eq!(machine.advance_bounds(&memory, 0, 1_000_000, &mut scratch), open);
        assert_eq!((open.unwrap()[1].highest, machine.playback_fails()), (192, true));
        assert_eq!(machine.advance(&mut memory, 1_000_000).number, number::HOST_CLOSED);
        assert_eq!(machine.submitted(Stream::Playback), 0);
    }

    #[test]
    fn frames_fed_are_kept_until_the_device_takes_them() {
        let mut machine = Machine::new(true);
        let mut memory = [0; 4096];
        assert_eq!(machine.feed(&[1; 8]).value, 0);
        machine.write(&mut memory, 0x92, &[0x11, 0]);
        machine.write(&mut memory, 0x80, &[2]);
        assert!(machine.open(Stream::Capture) && !machine.open(Stream::Playback));
        assert_eq!(machine.feed(&[1; 8]).value, 2);
        assert_eq!(machine.queue(Stream::Capture), [1; 8]);
        assert_eq!(machine.feed(&[1; 3]).number, number::ODD_FRAMES);
        assert_eq!(machine.pull(&mut [0; 8]).value, 0);
        assert_eq!([14_336, 14_340].map(|bytes| machine.set_downstream(bytes).number), [number::DONE, number::LATENCY]);
    }
}

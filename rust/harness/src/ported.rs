//! The side over the port's C functions.
use crate::side::{Direction, Interrupts, Message, Side, View, number};
use crate::state;
use port::layout::{BOUNDS, LIST, device, host, put, stream};
use port::{Answer, Bounds, Bytes, Machine, Scratch, Stream, calls};

pub struct Port {
    machine: Machine,
    memory: Vec<u8>,
    interrupts: Interrupts,
    /// Whether the next register access goes by its base address: both forms are used, by turns.
    by_bar: bool,
}

impl Port {
    /// Takes the interrupt outcome of a call on the device; the number is given back.
    fn told(&mut self, answer: Answer) -> u32 {
        self.interrupts.level = answer.level;
        self.interrupts.messages.extend(answer.message.map(|message| Message { address: message.address, data: message.data }));
        u32::from(answer.number)
    }

    /// Changes the bytes of records and lent spaces.
    pub fn change(&mut self, change: impl FnOnce(&mut Bytes)) {
        let mut bytes = self.machine.bytes().clone();
        change(&mut bytes);
        self.machine = Machine::from_bytes(bytes);
    }

    fn swap_form(&mut self) -> bool {
        self.by_bar = !self.by_bar;
        self.by_bar
    }
}

impl Side for Port {
    const NAME: &'static str = "port";

    fn new(microphone: bool, memory: usize) -> Self {
        Self { machine: Machine::new(microphone), memory: vec![0; memory], interrupts: Interrupts::default(), by_bar: false }
    }

    fn advance(&mut self, nanoseconds: u64) -> u32 {
        let answer = self.machine.advance(&mut self.memory, nanoseconds);
        self.told(answer)
    }
    fn read(&mut self, offset: u64, data: &mut [u8]) -> u32 {
        let by_bar = self.swap_form();
        let answer = if by_bar { self.machine.bar_read(0, offset, data) } else { self.machine.read(offset, data) };
        self.told(answer)
    }
    fn write(&mut self, offset: u64, data: &[u8]) -> u32 {
        let by_bar = self.swap_form();
        let (machine, memory) = (&mut self.machine, &mut self.memory);
        let answer = if by_bar { machine.bar_write(memory, 0, offset, data) } else { machine.write(memory, offset, data) };
        self.told(answer)
    }
    fn config_read(&mut self, register: u64) -> (u32, u32) {
        let answer = self.machine.config_read(register);
        (self.told(answer), answer.value)
    }
    fn config_write(&mut self, register: u64, offset: u64, data: &[u8]) -> u32 {
        let answer = self.machine.config_write(&mut self.memory, register, offset, data);
        self.told(answer)
    }
    fn change_pin(&mut self, node: u8) -> u32 {
        let answer = self.machine.pin_presence_changed(&mut self.memory, u32::from(node));
        self.told(answer)
    }
    fn set_paused(&mut self, paused: bool) -> u32 {
        let answer = self.machine.set_paused(paused);
        self.told(answer)
    }
    fn feed(&mut self, frames: &[u8]) -> (u32, u32) {
        let answer = self.machine.feed(frames);
        (u32::from(answer.number), answer.value)
    }
    fn pull(&mut self, frames: &mut [u8]) -> (u32, u32) {
        let answer = self.machine.pull(frames);
        (u32::from(answer.number), answer.value)
    }
    fn set_opening_fails(&mut self, direction: Direction, fails: bool) -> u32 {
        let answer = match direction {
            Direction::Capture => self.machine.set_capture_fails(fails),
            Direction::Playback => self.machine.set_playback_fails(fails),
        };
        u32::from(answer.number)
    }
    fn set_downstream(&mut self, bytes: u32) -> u32 {
        u32::from(self.machine.set_downstream(bytes).number)
    }
    fn save(&mut self) -> (u32, Vec<u8>) {
        let (answer, state) = self.machine.saved();
        (self.told(answer), state)
    }
    fn restore(&mut self, state: &[u8]) -> u32 {
        let answer = self.machine.restore(state);
        self.told(answer)
    }
    fn restore_emptied(&mut self, state: &[u8]) -> u32 {
        let answer = self.machine.restore_emptied(state);
        self.told(answer)
    }
    fn advance_bounds(&mut self, shortest: u64, longest: u64) -> Result<[Bounds; 2], u32> {
        let Bytes { device, host, lists, queues } = self.machine.bytes();
        // Longer than guest memory, whose end decides what fails.
        let length = self.memory.len() + 64;
        let mut scratch = Scratch::new(length);
        let Scratch { lists: more_lists, queues: more_queues, memory: more_memory } = &mut scratch;
        // What the scratch holds is no matter: bytes that would lead a stream astray.
        more_lists.fill(0xa5);
        more_queues.fill(0x5a);
        more_memory.fill(0x04);
        let mut into = [0; BOUNDS];
        let reply = calls::advance_bounds(
            device,
            host,
            &**lists,
            &**queues,
            &self.memory,
            shortest,
            longest,
            &mut **more_lists,
            &mut **more_queues,
            more_memory,
            &mut into,
        );
        let answer = reply.answer(device);
        match self.told(answer) {
            number::DONE => {
                assert!(scratch == Scratch::new(length), "an accepted call leaves scratch behind");
                assert_eq!(answer.value as usize, BOUNDS, "the length of the result");
                Ok(Bounds::each(&into))
            }
            refused => Err(refused),
        }
    }

    fn copied(&self) -> Self {
        let mut copy = Self::new(true, self.memory.len());
        copy.copy_from(self);
        copy
    }
    fn copy_from(&mut self, other: &Self) {
        self.machine.clone_from(&other.machine);
        self.memory.copy_from_slice(&other.memory);
        self.interrupts = Interrupts { level: other.interrupts.level, messages: Vec::new() };
        self.by_bar = other.by_bar;
    }
    fn close(&mut self, direction: Direction) {
        self.change(|bytes| {
            bytes.host[host::open(direction.index())] = 0;
            put::<4>(&mut bytes.host, host::length(direction.index()), 0);
        });
    }
    fn set_list(&mut self, direction: Direction, with: &state::Stream) {
        let (index, numbers) = (direction.index(), device::stream(direction.index()));
        self.change(|bytes| {
            put::<8>(&mut bytes.device, numbers + stream::SUBMITTED, with.submitted);
            put::<8>(&mut bytes.device, numbers + stream::CONSUMED, with.consumed);
            put::<4>(&mut bytes.device, numbers + stream::PENDING, with.pending.len() as u64);
            for (place, position) in with.pending.iter().enumerate() {
                put::<8>(&mut *bytes.lists, LIST * index + 8 * place, *position);
            }
        });
    }
    fn memory(&self) -> &[u8] {
        &self.memory
    }
    fn memory_mut(&mut self) -> &mut [u8] {
        &mut self.memory
    }
    fn take_interrupts(&mut self) -> Interrupts {
        let level = self.interrupts.level;
        std::mem::replace(&mut self.interrupts, Interrupts { level, messages: Vec::new() })
    }
    fn view(&self) -> View {
        let machine = &self.machine;
        let (answer, state) = machine.saved();
        assert_eq!(u32::from(answer.number), number::DONE, "a machine that only calls have changed can be saved");
        View {
            state,
            asserted: machine.asserted(),
            open: Stream::EACH.map(|stream| machine.open(stream)),
            queues: Stream::EACH.map(|stream| machine.queue(stream).to_vec()),
            opening_fails: [machine.capture_fails(), machine.playback_fails()],
            downstream: machine.downstream(),
        }
    }
}

//! What stands between guest, device and host: the machine, guest memory, and messages on their way to the guest.
use port::{Answer, Machine, Message, Stream, number};

/// What went wrong, in words.
pub type Outcome<T> = Result<T, String>;

pub struct Bus {
    machine: Machine,
    pub memory: Vec<u8>,
    /// The message that the guest asked for, once it did.
    expected: Option<Message>,
    arrived: u32,
}

impl Bus {
    pub fn new(memory: usize) -> Self {
        Self { machine: Machine::new(false), memory: vec![0; memory], expected: None, arrived: 0 }
    }

    /// From now on interrupts are this message, and nothing else.
    pub fn expect(&mut self, message: Message) {
        self.expected = Some(message);
    }

    /// Messages that the guest has not seen yet.
    pub fn take_messages(&mut self) -> u32 {
        std::mem::take(&mut self.arrived)
    }

    fn heard(&mut self, answer: Answer) -> Outcome<u32> {
        if answer.number != number::DONE {
            return Err(format!("a call was refused with number {}", answer.number));
        }
        if answer.level {
            return Err("the interrupt line is high, though the guest uses messages".into());
        }
        if let Some(message) = answer.message {
            if Some(message) != self.expected {
                return Err(format!("message {message:x?} is not the guest's {:x?}", self.expected));
            }
            self.arrived += 1;
        }
        Ok(answer.value)
    }

    pub fn advance(&mut self, nanos: u64) -> Outcome<()> {
        let answer = self.machine.advance(&mut self.memory, nanos);
        self.heard(answer).map(drop)
    }

    /// A register of 1, 2 or 4 bytes.
    pub fn read(&mut self, offset: u64, width: usize) -> Outcome<u32> {
        let mut bytes = [0; 4];
        let answer = self.machine.bar_read(0, offset, &mut bytes[..width]);
        self.heard(answer)?;
        Ok(u32::from_le_bytes(bytes))
    }

    pub fn write(&mut self, offset: u64, width: usize, value: u32) -> Outcome<()> {
        let answer = self.machine.bar_write(&mut self.memory, 0, offset, &value.to_le_bytes()[..width]);
        self.heard(answer).map(drop)
    }

    /// The bytes of configuration from `offset` on to the end of their register.
    pub fn config_read(&mut self, offset: u64) -> Outcome<u32> {
        let answer = self.machine.config_read(offset / 4);
        Ok(self.heard(answer)? >> (8 * (offset % 4)))
    }

    pub fn config_write(&mut self, offset: u64, width: usize, value: u32) -> Outcome<()> {
        let answer = self.machine.config_write(&mut self.memory, offset / 4, offset % 4, &value.to_le_bytes()[..width]);
        self.heard(answer).map(drop)
    }

    pub fn set_downstream(&mut self, bytes: u32) -> Outcome<()> {
        let answer = self.machine.set_downstream(bytes);
        self.heard(answer).map(drop)
    }

    /// The bytes that the host got, at most `length`.
    pub fn pull(&mut self, length: usize) -> Outcome<Vec<u8>> {
        let mut bytes = vec![0; length];
        let answer = self.machine.pull(&mut bytes);
        let frames = self.heard(answer)?;
        bytes.truncate(4 * frames as usize);
        Ok(bytes)
    }

    /// The rate at which the host is to play what it pulls; none while the guest plays nothing.
    pub fn rate(&self) -> Option<u32> {
        self.machine.rate(Stream::Playback)
    }

    /// The bytes that the device has read and the host has not pulled.
    pub fn queued(&self) -> &[u8] {
        self.machine.queue(Stream::Playback)
    }

    /// The whole frames that are due and that the device has not read, since the queue is full.
    pub fn deferred(&self) -> usize {
        self.machine.deferred(Stream::Playback) as usize
    }

    pub fn store(&mut self, address: usize, bytes: &[u8]) {
        self.memory[address..address + bytes.len()].copy_from_slice(bytes);
    }

    pub fn load(&self, address: usize) -> u32 {
        u32::from_le_bytes(self.memory[address..address + 4].try_into().expect("four bytes"))
    }
}

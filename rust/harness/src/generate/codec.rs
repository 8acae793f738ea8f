//! Scenes that send commands to the codec.
use super::{ADDED_FORMATS, FORMATS, Generator, REFUSED_FORMATS};
use crate::ops::Op;
use crate::side::Direction;

/// Verbs that read one byte of a node's record, or a fixed answer.
const GETS: [u32; 12] = [0xf01, 0xf02, 0xf03, 0xf05, 0xf06, 0xf07, 0xf08, 0xf09, 0xf0c, 0xf0d, 0xf1c, 0xf20];
/// Verbs that set one byte of a node's record, or nothing.
const SETS: [u32; 18] =
    [0x701, 0x703, 0x705, 0x706, 0x707, 0x708, 0x709, 0x70c, 0x70c, 0x70d, 0x71c, 0x71d, 0x71e, 0x71f, 0x720, 0x721, 0x722, 0x723];

/// The parameter that declares rates, which request T-01 changes, and another that the same nodes have.
const RATES: u32 = 0xa;
const STREAM_FORMATS: u32 = 0xb;

/// The converter and the pin of a direction.
fn nodes(direction: Direction) -> (u32, u32) {
    match direction {
        Direction::Capture => (4, 5),
        Direction::Playback => (2, 3),
    }
}

impl Generator {
    pub(super) fn random_commands(&mut self) {
        let count = if self.random.percent(5) { 40 } else { self.random.between(1, 5) };
        let commands = (0..count).map(|_| self.command()).collect();
        self.send_commands(commands);
    }

    /// Sends commands through the ring in memory, or one by one through the immediate registers.
    pub(super) fn send_commands(&mut self, commands: Vec<u32>) {
        if self.random.flag() {
            self.send_by_ring(&commands);
        } else {
            for command in commands {
                self.send_immediately(command);
            }
        }
    }

    pub(super) fn send_by_ring(&mut self, commands: &[u32]) {
        // A ring that is full looks empty: the pointer is moved before it comes round.
        let room = (self.commands.entries - 1) as usize;
        for chunk in commands.chunks(room) {
            for command in chunk {
                self.commands.pointer = (self.commands.pointer + 1) % self.commands.entries;
                let address = self.commands.base.wrapping_add(4 * self.commands.pointer);
                self.plan(Op::Poke { address, data: command.to_le_bytes().to_vec() });
            }
            let pointer = self.commands.pointer;
            self.write(0x48, 2, pointer);
        }
    }

    pub(super) fn send_immediately(&mut self, command: u32) {
        let start = self.random.pick(&[1, 3, 3]);
        if self.random.percent(75) {
            // One write: the command's bytes act before the byte that starts it.
            let mut data = command.to_le_bytes().to_vec();
            data.extend([0, 0, 0, 0, start]);
            self.plan(Op::Write { offset: 0x60, data });
        } else {
            self.write(0x60, 4, u64::from(command));
            self.write(0x68, 2, u64::from(start));
            self.plan(Op::Read { offset: 0x60, length: 12 });
        }
    }

    /// Any command, most of them sensible.
    pub(super) fn command(&mut self) -> u32 {
        let node = self.random.weighted(&[(1, 0), (3, 1), (6, 2), (4, 3), (6, 4), (4, 5), (1, 6), (1, 0x7f)]);
        let payload = u32::from(self.random.byte());
        let body = match self.random.below(12) {
            0..=2 => 0x3 << 16 | self.amplifier_payload(),
            3 => 0xb << 16 | self.amplifier_payload(),
            4 => 0x2 << 16 | u32::from(self.format()),
            5 => 0xa << 16 | payload,
            6 => 0xf00 << 8 | self.parameter(),
            7..=8 => self.random.pick(&GETS) << 8 | self.random.pick(&[0, 0, payload]),
            9 => self.random.pick(&SETS) << 8 | payload,
            // On node 1 this resets the codec.
            10 if self.random.flag() => return 1 << 20 | 0x7ff << 8 | payload,
            10 => self.random.pick(&[0x7ff << 8, 0x705 << 8, 0x706 << 8 | 0x10, 0x707 << 8 | 0xff]) | payload & 3,
            _ => self.random.next_u64() as u32 & 0xf_ffff,
        };
        let address = if self.random.percent(4) { self.random.below(32) as u32 } else { 0 };
        address << 27 | node << 20 | body
    }

    fn parameter(&mut self) -> u32 {
        let any = self.random.below(0x14) as u32;
        match any {
            _ if self.asks_more && self.random.percent(30) => RATES,
            RATES if !self.asks_more => STREAM_FORMATS,
            _ => any,
        }
    }

    fn amplifier_payload(&mut self) -> u32 {
        let index = self.random.pick(&[0, 0, 0, 5]) << 8;
        (self.random.below(16) as u32) << 12 | index | u32::from(self.gain())
    }

    /// An amplifier byte: unity, gains with exact halves, extremes, silence.
    pub(super) fn gain(&mut self) -> u8 {
        let any = self.random.byte();
        self.random.weighted(&[(3, 0x4a), (3, 0x36), (2, 0x5e), (1, 0x44), (1, 0x00), (1, 0x7f), (1, 0xca), (4, any & 0x7f), (1, any)])
    }

    /// A format word that is accepted.
    pub(super) fn accepted_format(&mut self) -> u16 {
        if self.asks_more && self.random.percent(60) { self.random.pick(&ADDED_FORMATS) } else { self.random.pick(&FORMATS) }
    }

    /// A format word, usually accepted.
    pub(super) fn format(&mut self) -> u16 {
        let any = self.random.next_u64() as u16;
        let accepted = self.accepted_format();
        let refused = self.random.pick(&REFUSED_FORMATS);
        let near = accepted ^ 1 << self.random.below(16);
        self.random.weighted(&[(24, accepted), (16, 0x0011), (2, refused), (1, near), (1, any)])
    }

    /// The commands that connect a stream to its converter, pin and amplifier.
    pub(super) fn connect(&mut self, direction: Direction, gain: Option<[u8; 2]>) {
        let (converter, pin) = nodes(direction);
        let stream = &self.streams[direction.index()];
        let (tag, format) = (u32::from(stream.tag), u32::from(stream.format));
        let [left, right] = gain.unwrap_or_else(|| [self.gain(), self.gain()]);
        let amplifier = if direction == Direction::Capture { 0x4000 } else { 0x8000 };
        let enable = if direction == Direction::Capture { 0x20 } else { 0x40 };
        let mut commands = vec![
            converter << 20 | 0x2 << 16 | format,
            converter << 20 | 0x706 << 8 | tag << 4,
            converter << 20 | 0x3 << 16 | amplifier | 0x2000 | u32::from(left),
            converter << 20 | 0x3 << 16 | amplifier | 0x1000 | u32::from(right),
        ];
        if self.random.percent(60) {
            commands.extend([1, converter, pin].map(|node| node << 20 | 0x705 << 8));
            commands.push(pin << 20 | 0x707 << 8 | enable);
        }
        if self.random.percent(15) {
            commands.push(self.spoiler(converter, pin, tag));
        }
        for command in commands {
            self.send_immediately(command);
        }
    }

    /// A command that undoes one of the conditions under which a stream is connected.
    fn spoiler(&mut self, converter: u32, pin: u32, tag: u32) -> u32 {
        let node = self.random.pick(&[1, converter, pin]);
        let (channel, other) = (self.random.between(1, 15) as u32, self.random.below(16) as u32);
        let format = u32::from(self.accepted_format());
        self.random.pick(&[
            converter << 20 | 0x706 << 8 | tag << 4 | channel,
            converter << 20 | 0x706 << 8 | other << 4,
            converter << 20 | 0x2 << 16 | format,
            node << 20 | 0x705 << 8 | channel & 3,
            pin << 20 | 0x707 << 8 | other,
        ])
    }
}

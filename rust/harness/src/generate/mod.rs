//! Random sequences of calls that reach deep states: a seed gives one sequence, for ever.
//!
//! Single random calls would hardly ever start a stream. So calls come in scenes, a few calls that do one thing a driver or a host does, well or
//! badly; a light picture of what earlier scenes set up lets later ones build on it. The device is never asked: what it answered is told by
//! [`Generator::observe`], and only saved states are kept of it.
mod codec;
mod restores;
mod streams;

use crate::ops::Op;
use crate::random::Random;
use crate::side::{Answer, Direction};
use crate::state::{State, Stream};
use std::collections::VecDeque;
use streams::StreamPicture;

/// The format words that the Rust accepts too, and those that request T-01 adds.
const FORMATS: [u16; 10] = [0x0011, 0x0811, 0x0911, 0x1211, 0x1911, 0x1b11, 0x4011, 0x4911, 0x5211, 0x5b11];
const ADDED_FORMATS: [u16; 2] = [0x4811, 0x5911];
/// Format words that are refused, each by another rule or nearly accepted.
const REFUSED_FORMATS: [u16; 12] = [0x0000, 0x2411, 0x6411, 0x2011, 0x5811, 0x0111, 0x0091, 0x8011, 0x0010, 0x0012, 0x0021, 0x3f11];
/// Register bytes that hold addresses.
const ADDRESS_REGISTERS: [std::ops::Range<u64>; 5] = [0x40..0x48, 0x50..0x58, 0x70..0x78, 0x98..0xa0, 0xb8..0xc0];
/// Saved states that are kept to be restored later.
const KEPT_STATES: usize = 4;

/// Where guest memory holds a command ring, how many commands it has room for, and where its last command stands.
struct Ring {
    base: u64,
    entries: u64,
    pointer: u64,
}

pub struct Generator {
    random: Random,
    /// Keeps all addresses inside memory, counts far from 2^64 and lists within their limit. A descriptor that the device itself overwrites may
    /// still lead outside.
    tame: bool,
    /// Whether the sequence often meets what requests ask otherwise than the Rust. There the unchanged Rust soon leaves, so that half of the sequences
    /// do without.
    asks_more: bool,
    planned: VecDeque<Op>,
    saved: Vec<Vec<u8>>,
    /// Whether the next state that a save gives is to be restored, changed.
    restores_next: bool,
    memory: u64,
    commands: Ring,
    streams: [StreamPicture; 2],
}

#[derive(Clone, Copy)]
enum Scene {
    Boot,
    Rings,
    Pointers,
    Commands,
    Stream,
    StartStop,
    Overlay,
    Edge,
    Time,
    Interrupts,
    Messages,
    Configuration,
    Acknowledge,
    PositionBuffer,
    PinChange,
    StreamReset,
    ControllerReset,
    Switches,
    RefusedAdvance,
    Downstream,
    Pause,
    Synchronize,
    Save,
    Restore,
    Crowded,
    FullList,
    Look,
    Garbage,
    Recover,
}

/// How often each scene is taken.
const SCENES: [(u64, Scene); 29] = [
    (2, Scene::Boot),
    (4, Scene::Rings),
    (2, Scene::Pointers),
    (12, Scene::Commands),
    (9, Scene::Stream),
    (6, Scene::StartStop),
    (2, Scene::Overlay),
    (1, Scene::Edge),
    (38, Scene::Time),
    (4, Scene::Interrupts),
    (4, Scene::Messages),
    (1, Scene::Configuration),
    (10, Scene::Acknowledge),
    (3, Scene::PositionBuffer),
    (3, Scene::PinChange),
    (2, Scene::StreamReset),
    (1, Scene::ControllerReset),
    (2, Scene::Switches),
    (1, Scene::RefusedAdvance),
    (3, Scene::Downstream),
    (1, Scene::Pause),
    (1, Scene::Synchronize),
    (3, Scene::Save),
    (4, Scene::Restore),
    (4, Scene::Crowded),
    (1, Scene::FullList),
    (4, Scene::Look),
    (6, Scene::Garbage),
    (4, Scene::Recover),
];

impl Generator {
    pub fn new(seed: u64, tame: bool) -> Self {
        let mut generator = Self {
            random: Random::new(seed),
            tame,
            asks_more: false,
            planned: VecDeque::new(),
            saved: Vec::new(),
            restores_next: false,
            memory: 0,
            commands: Ring { base: 0, entries: 256, pointer: 0 },
            streams: Default::default(),
        };
        generator.begin();
        generator
    }

    /// The next call of the sequence.
    pub fn next_op(&mut self) -> Op {
        loop {
            if let Some(op) = self.planned.pop_front() {
                return op;
            }
            let scene = self.random.weighted(&SCENES);
            self.play(scene);
        }
    }

    /// Tells what the device answered to the last call.
    pub fn observe(&mut self, op: &Op, answer: &Answer) {
        if *op != Op::Save || !self.keeps(&answer.bytes) {
            return;
        }
        if self.saved.len() == KEPT_STATES {
            let place = self.random.below(KEPT_STATES as u64) as usize;
            self.saved.remove(place);
        }
        self.saved.push(answer.bytes.clone());
        if std::mem::take(&mut self.restores_next) {
            self.restore_changed(&answer.bytes);
        }
    }

    /// Whether a saved state is kept. One with a crowded list, which the device was handed, would make the unchanged Rust leave when it is restored.
    fn keeps(&self, saved: &[u8]) -> bool {
        self.asks_more || !State::parse(saved).is_some_and(|state| state.streams.iter().any(Stream::is_crowded))
    }

    /// Calls of a device that nobody drives.
    pub fn take_ops(mut self, length: usize) -> Vec<Op> {
        (0..length).map(|_| self.next_op()).collect()
    }

    fn plan(&mut self, op: Op) {
        self.planned.push_back(op);
    }

    /// A new device in a memory of noise, usually brought up.
    fn begin(&mut self) {
        self.asks_more = self.random.flag();
        let sizes: &[u64] = if self.tame { &[16_384, 20_100, 65_536] } else { &[4096, 4100, 5000, 16_396, 20_100, 65_536] };
        self.memory = self.random.pick(sizes);
        let microphone = self.random.percent(90);
        self.plan(Op::New { microphone, memory: self.memory as usize });
        let seed = self.random.next_u64();
        self.plan(Op::Noise(seed));
        self.plan(Op::Save);
        for (chance, scene) in [
            (95, Scene::Boot),
            (80, Scene::Rings),
            (70, Scene::Interrupts),
            (40, Scene::Messages),
            (30, Scene::PositionBuffer),
            (80, Scene::Stream),
            (80, Scene::Stream),
        ] {
            if self.random.percent(chance) {
                self.play(scene);
            }
        }
    }

    fn play(&mut self, scene: Scene) {
        match scene {
            Scene::Boot => self.boot(),
            Scene::Rings => self.rings(),
            Scene::Pointers => self.pointers(),
            Scene::Commands => self.random_commands(),
            Scene::Stream => self.stream(),
            Scene::StartStop => self.start_or_stop(),
            Scene::Overlay => self.overlay(),
            Scene::Edge => self.edge(),
            Scene::Time => self.time(),
            Scene::Interrupts => self.interrupts(),
            Scene::Messages => self.messages(),
            Scene::Configuration => self.configuration(),
            Scene::Acknowledge => self.acknowledge(),
            Scene::PositionBuffer => self.position_buffer(),
            Scene::PinChange => self.pin_change(),
            Scene::StreamReset => self.stream_reset(),
            Scene::ControllerReset => self.controller_reset(),
            Scene::Switches => self.switches(),
            Scene::RefusedAdvance => self.refused_advance(),
            Scene::Downstream => self.downstream(),
            Scene::Pause => self.pause(),
            Scene::Synchronize => self.synchronize(),
            Scene::Save => self.save_and_restore(),
            Scene::Restore => self.restore_kept(),
            Scene::Crowded => self.restore_crowded(),
            Scene::FullList => self.full_list(),
            Scene::Look => self.look(),
            Scene::Garbage => self.garbage(),
            Scene::Recover => self.recover(),
        }
    }

    fn direction(&mut self) -> Direction {
        self.random.pick(&Direction::BOTH)
    }

    /// An address at which `size` bytes lie inside memory; in wild sequences now and then one at which they do not.
    fn address(&mut self, alignment: u64, size: u64) -> u64 {
        if !self.tame && self.random.percent(8) {
            return self.bad_address(size) / alignment * alignment;
        }
        let places = self.memory.saturating_sub(size) / alignment + 1;
        self.random.below(places) * alignment
    }

    fn bad_address(&mut self, size: u64) -> u64 {
        match self.random.below(5) {
            0 => u64::MAX - self.random.below(1 + 2 * size),
            1 => self.random.next_u64(),
            2 => self.memory + self.random.below(1 + size),
            _ => self.memory - self.random.below(size.min(self.memory)),
        }
    }

    /// A register write of the value's low bytes, sometimes byte by byte.
    fn write(&mut self, offset: u64, width: usize, value: u64) {
        let data = value.to_le_bytes()[..width].to_vec();
        if width > 1 && self.random.percent(12) {
            for (place, byte) in data.into_iter().enumerate() {
                self.plan(Op::Write { offset: offset + place as u64, data: vec![byte] });
            }
        } else {
            self.plan(Op::Write { offset, data });
        }
    }

    fn write_config(&mut self, address: u64, data: Vec<u8>) {
        // A register number with an offset beyond its four bytes names the same place.
        let register = if self.random.percent(90) { address / 4 } else { self.random.below(address / 4 + 1) };
        self.plan(Op::ConfigWrite { register, offset: address - 4 * register, data });
    }

    /// Bus mastering on and the controller out of reset; unsolicited responses usually on.
    fn boot(&mut self) {
        let command = self.random.pick(&[6, 4, 7]);
        self.write_config(4, vec![command]);
        let control = self.random.pick(&[0x101, 0x101, 0x101, 0x001, 0x103]);
        self.write(8, 4, control);
    }

    /// Undoes what keeps the device still.
    fn recover(&mut self) {
        self.plan(Op::Pause(false));
        for direction in Direction::BOTH {
            self.plan(Op::Fail { direction, fails: false });
        }
        self.write(0x38, 4, 0);
        self.boot();
    }

    /// Both rings with sizes, addresses, pointers and threshold, usually running.
    fn rings(&mut self) {
        let code = self.random.below(4);
        // Code 3 is refused and leaves the size as it was.
        self.commands.entries = [2, 16, 256, self.commands.entries][code as usize];
        self.commands.base = self.address(128, 1024);
        self.commands.pointer = 0;
        let (base, responses) = (self.commands.base, self.address(128, 2048));
        self.write(0x4c, 1, 0);
        self.write(0x40, 8, base);
        self.write(0x4e, 1, code);
        self.write(0x48, 2, 0);
        self.write(0x4a, 2, 0x8000);
        self.write(0x4a, 2, 0);
        self.write(0x50, 8, responses);
        let (size, threshold) = (self.random.below(4), self.random.pick(&[0, 1, 1, 2, 3, 4, 255]));
        self.write(0x5e, 1, size);
        self.write(0x58, 2, 0x8000);
        self.write(0x5a, 2, threshold);
        let (control, run) = (self.random.pick(&[3, 7, 2, 6, 1]), self.random.pick(&[2, 3, 3, 0]));
        self.write(0x5c, 1, control);
        self.write(0x4c, 1, run);
    }

    /// Ring pointers moved under running rings, and a command beside them.
    fn pointers(&mut self) {
        let any = self.random.next_u64() & 0xffff;
        let (offset, width, value) = self.random.pick(&[
            (0x4a, 2, 0),
            (0x4a, 2, 0x8000),
            (0x4b, 1, 0),
            (0x58, 2, 0x8000),
            (0x58, 2, 0),
            (0x48, 2, any),
            (0x48, 1, any & 3),
        ]);
        self.write(offset, width, value);
        let command = self.command();
        self.send_immediately(command);
        if self.random.percent(70) {
            self.write(0x4a, 2, 0);
        }
    }

    /// Rings and position buffer laid so that an entry crosses the end of memory, if its size allows; enough commands to come there.
    fn edge(&mut self) {
        if self.tame {
            return;
        }
        let last = (self.memory - 1) / 128 * 128;
        let back = 128 * self.random.below(3);
        if self.random.flag() {
            self.write(0x70, 8, last.saturating_sub(back) | 1);
            return self.time();
        }
        self.rings();
        self.write(0x50, 8, last.saturating_sub(back));
        self.write(0x5e, 1, 2);
        self.write(0x5c, 1, 3);
        self.write(0x4c, 1, 3);
        let commands: Vec<u32> = (0..self.random.between(10, 40)).map(|_| 0x000f_0000).collect();
        self.send_by_ring(&commands);
    }

    fn interrupts(&mut self) {
        let any = self.random.next_u64() & 0xffff_ffff;
        let enable = self.random.pick(&[0xc000_0003, 0xc000_0003, 0xc000_0000, 0x8000_0003, 0x8000_0001, 0x4000_0003, 0, any]);
        self.write(0x20, 4, enable);
        if self.random.percent(40) {
            let wake = self.random.pick(&[0, 1, 0xffff]);
            self.write(0x0c, 2, wake);
        }
        if self.random.percent(30) {
            let disable = self.random.pick(&[0, 4]);
            self.write_config(5, vec![disable]);
        }
    }

    /// MSI on or off, sometimes with address and data.
    fn messages(&mut self) {
        if self.random.flag() {
            let message = self.random.bytes(10);
            self.write_config(0x64, message);
        }
        let enable = self.random.pick(&[1, 1, 0]);
        self.write_config(0x62, vec![enable]);
    }

    /// The rest of configuration, and a look at it.
    fn configuration(&mut self) {
        let address = self.random.pick(&[0x10, 0x3c, 0x04, 0x0c]);
        let data = self.random.bytes(4);
        self.write_config(address, data);
        self.plan(Op::ConfigRead(address / 4));
        // It may have turned bus mastering off.
        self.random_commands();
        self.time();
        self.boot();
    }

    /// Clears status bits as an interrupt handler does.
    fn acknowledge(&mut self) {
        for (chance, offset, values) in [
            (60, 0x83, [0x1c, 0x04, 0x10]),
            (60, 0xa3, [0x1c, 0x04, 0x10]),
            (40, 0x5d, [5, 1, 4]),
            (20, 0x4d, [1, 1, 0xff]),
            (20, 0x0e, [1, 0xff, 0]),
        ] {
            if self.random.percent(chance) {
                let value = self.random.pick(&values);
                self.write(offset, 1, value);
            }
        }
        if self.random.percent(30) {
            self.plan(Op::Read { offset: 0x24, length: 4 });
        }
    }

    fn position_buffer(&mut self) {
        let mut base = self.address(128, 16);
        if self.random.percent(25) {
            // Over a descriptor list: the position becomes part of a descriptor.
            base = self.streams[self.random.below(2) as usize].list;
        }
        let enable = u64::from(self.random.percent(80));
        self.write(0x70, 8, base | enable);
    }

    fn pin_change(&mut self) {
        let node = self.random.pick(&[3, 5, 3, 5, 3, 5, 0, 4, 255]);
        if self.random.flag() {
            let tag = u32::from(self.random.byte() | 0x80);
            self.send_commands(vec![u32::from(node & 7) << 20 | 0x708 << 8 | tag]);
        }
        if self.random.percent(30) {
            let accept = self.random.below(4);
            self.write(9, 1, accept);
        }
        for _ in 0..self.random.between(1, 3) {
            self.plan(Op::Pin(node));
        }
    }

    fn controller_reset(&mut self) {
        let control = self.random.pick(&[0, 0, 2, 0x100]);
        self.write(8, 4, control);
        for stream in &mut self.streams {
            stream.running = false;
        }
        if self.random.percent(90) {
            self.boot();
            self.rings();
        }
    }

    fn switches(&mut self) {
        let (direction, fails) = (self.direction(), self.random.percent(40));
        self.plan(Op::Fail { direction, fails });
    }

    /// A running stream without its host stream: opening is tried again, and may fail.
    fn refused_advance(&mut self) {
        let direction = self.direction();
        let fails = self.random.percent(75);
        self.plan(Op::Fail { direction, fails });
        self.plan(Op::Close(direction));
        self.advance();
        self.plan(Op::Fail { direction, fails: false });
    }

    fn downstream(&mut self) {
        let frames = self.random.below(3585) as u32;
        let odd = self.random.next_u64() as u32;
        let bytes = self.random.weighted(&[(4, 4 * frames), (2, 0), (2, 14_336), (1, frames), (1, 14_340), (1, odd)]);
        self.plan(Op::Downstream(bytes));
    }

    fn pause(&mut self) {
        self.plan(Op::Pause(true));
        self.time();
        if self.random.percent(90) {
            self.plan(Op::Pause(false));
        }
    }

    fn synchronize(&mut self) {
        let streams = self.random.below(4);
        self.write(0x38, 4, streams);
        self.time();
        if self.random.percent(90) {
            self.write(0x38, 4, 0);
        }
    }

    /// Time passes, frames come and go.
    fn time(&mut self) {
        for _ in 0..self.random.between(1, 5) {
            if self.random.percent(40) {
                self.feed();
            }
            self.advance();
            if self.random.percent(60) {
                self.pull();
            }
        }
    }

    fn advance(&mut self) {
        let (short, long) = (self.random.below(1000), self.random.below(60_000_000));
        let (seconds, any) = (self.random.below(100) * 1_000_000_000, self.random.next_u64());
        let time = self.random.weighted(&[
            (4, 0),
            (4, short),
            (10, long / 50),
            (30, long / 5),
            (12, long),
            // One period of 256 frames at each rate, and one nanosecond less.
            (10, 5_333_334),
            (4, 5_333_333),
            (4, 5_804_989),
            (4, 2_902_495),
            (4, 2_666_667),
            (2, 1_000_000_000),
            (1, seconds),
            (1, u64::MAX),
            (1, any),
        ]);
        self.plan(Op::Advance(time));
    }

    fn feed(&mut self) {
        let length = self.random.weighted(&[(8, 1024), (4, 2048), (4, 400), (2, 2100), (1, 8), (1, 0)]);
        let length = if self.random.percent(4) { length + 1 } else { length };
        let frames = self.random.bytes(length);
        self.plan(Op::Feed(frames));
    }

    fn pull(&mut self) {
        let any = self.random.below(2200) as usize;
        let length = self.random.weighted(&[(8, 2048), (4, 1024), (4, any / 4 * 4), (1, any), (1, 0), (1, 4)]);
        self.plan(Op::Pull(length));
    }

    /// Reads what a driver reads.
    fn look(&mut self) {
        let offset =
            self.random.pick(&[0x00, 0x08, 0x0e, 0x10, 0x24, 0x30, 0x48, 0x58, 0x5d, 0x64, 0x68, 0x80, 0xa0, 0x2030, 0x2084, 0x20a4]);
        let (skew, length) = (self.random.pick(&[0, 0, 0, 1, 3]), self.random.pick(&[1, 2, 4, 4, 8, 32]));
        self.plan(Op::Read { offset: offset + skew, length });
        if self.random.percent(20) {
            let register = self.random.pick(&[0, 1, 2, 4, 11, 13, 15, 24, 25, 26, 27, 63, 64, u64::MAX]);
            self.plan(Op::ConfigRead(register));
        }
    }

    /// Accesses that no driver makes.
    fn garbage(&mut self) {
        let offset = self.garbage_offset();
        let length = self.random.pick(&[0, 1, 1, 1, 2, 2, 4, 4, 4, 8, 17, 64]);
        let data = self.random.bytes(length);
        match self.random.below(8) {
            0 => self.plan(Op::Read { offset, length }),
            1 => {
                let register = self.random.pick(&[1, 4, 15, 24, 25, 63, 64, 100, u64::MAX / 4, u64::MAX]);
                let offset = self.random.pick(&[0, 1, 2, 3, 4, 5, 200, u64::MAX]);
                self.plan(Op::ConfigWrite { register, offset, data });
            }
            2 => {
                let address = self.address(1, 64);
                self.plan(Op::Poke { address, data });
            }
            _ if self.tame && touches_addresses(offset, length as u64) => {}
            _ => self.plan(Op::Write { offset, data }),
        }
    }

    fn garbage_offset(&mut self) -> u64 {
        let (register, any) = (self.random.below(0x100), self.random.next_u64());
        let near_end = u64::MAX - self.random.below(10);
        self.random.weighted(&[(20, register), (1, 0x5000), (1, near_end), (1, 0x2030), (1, 0xff), (1, any)])
    }
}

fn touches_addresses(offset: u64, length: u64) -> bool {
    let end = offset.saturating_add(length);
    ADDRESS_REGISTERS.iter().any(|registers| offset < registers.end && registers.start < end)
}

#[cfg(test)]
mod tests {
    use super::*;

    #[test]
    fn a_seed_always_gives_the_same_calls() {
        let ops = |seed| Generator::new(seed, false).take_ops(200);
        assert_eq!(ops(5), ops(5));
        assert_ne!(ops(5), ops(6));
    }
}

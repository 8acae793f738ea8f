//! Scenes that set up, start, stop and reset streams.
use super::Generator;
use crate::ops::Op;
use crate::side::Direction;

/// What was set up for a stream.
#[derive(Clone, Default)]
pub(super) struct StreamPicture {
    pub tag: u8,
    pub format: u16,
    /// Address of the descriptor list.
    pub list: u64,
    pub running: bool,
}

/// A buffer descriptor.
#[derive(Clone, Copy)]
struct Descriptor {
    address: u64,
    length: u32,
    flags: u32,
}

impl Descriptor {
    fn bytes(self) -> [u8; 16] {
        let mut bytes = [0; 16];
        bytes[..8].copy_from_slice(&self.address.to_le_bytes());
        bytes[8..12].copy_from_slice(&self.length.to_le_bytes());
        bytes[12..].copy_from_slice(&self.flags.to_le_bytes());
        bytes
    }
}

/// Where a stream's registers start.
fn registers(direction: Direction) -> u64 {
    0x80 + 32 * direction.index() as u64
}

impl Generator {
    /// A stream with list, format, tag and codec, usually started.
    pub(super) fn stream(&mut self) {
        let direction = self.direction();
        let descriptors = self.descriptors();
        let list = self.list_address(descriptors.len());
        self.poke_list(list, &descriptors);
        let total: u64 = descriptors.iter().map(|descriptor| u64::from(descriptor.length)).sum();
        let cyclic_length = self.cyclic_length(total);
        let last = self.last_index(descriptors.len());
        self.set_up(direction, list, cyclic_length, last);
        if self.random.percent(85) {
            self.connect(direction, None);
        }
        if self.random.percent(85) {
            self.start(direction);
        }
    }

    /// Descriptors of one list: few and long, many and short, rarely damaged.
    fn descriptors(&mut self) -> Vec<Descriptor> {
        let many = self.random.between(1, 256);
        let count = self.random.weighted(&[(4, 1), (6, 2), (6, 3), (4, 5), (2, 16), (2, many), (1, 256)]);
        let flagged = self.random.pick(&[0, 50, 100]);
        let shortest = self.random.percent(15);
        let one_length = self.random.percent(15).then(|| self.length());
        (0..count).map(|_| self.descriptor(flagged, if shortest { Some(4) } else { one_length })).collect()
    }

    fn descriptor(&mut self, flagged: u64, length: Option<u32>) -> Descriptor {
        let mut length = length.unwrap_or_else(|| self.length());
        let alignment = self.random.pick(&[128, 4, 4, 1]);
        let address = self.address(alignment, u64::from(length));
        if self.random.percent(2) {
            length = self.random.pick(&[0, 1, 2, length + 1, length ^ 2]);
        }
        let flags = u32::from(self.random.percent(flagged)) | self.random.next_u64() as u32 & 0xffff_fffe;
        Descriptor { address, length, flags }
    }

    /// A length, a multiple of 4 that fits memory.
    fn length(&mut self) -> u32 {
        let any = 4 * self.random.between(1, 1024) as u32;
        self.random.weighted(&[(2, 4), (2, 8), (2, 12), (3, 64), (3, 256), (4, 1024), (3, 2048), (2, 4096), (6, any)])
    }

    /// The list's total, or a length that divides it elsewhere, or one that is refused.
    fn cyclic_length(&mut self, total: u64) -> u64 {
        let any = 4 * self.random.between(1, 2048);
        let huge = self.random.next_u64() & 0xffff_fffc;
        self.random.weighted(&[(16, total), (6, any), (2, huge), (1, 4), (1, total + 2), (1, 0)])
    }

    fn last_index(&mut self, count: usize) -> u64 {
        let last = count as u64 - 1;
        let lower = self.random.below(count as u64);
        self.random.weighted(&[(20, last), (2, lower), (1, last + 1), (1, 255)]).min(255)
    }

    /// An address for a list. In tame sequences there is room for 256 descriptors, whatever the last index becomes.
    fn list_address(&mut self, count: usize) -> u64 {
        self.address(128, if self.tame { 16 * 256 } else { 16 * count as u64 })
    }

    fn poke_list(&mut self, list: u64, descriptors: &[Descriptor]) {
        let data: Vec<u8> = descriptors.iter().flat_map(|descriptor| descriptor.bytes()).collect();
        self.plan(Op::Poke { address: list, data });
    }

    /// Writes a stream's registers, one by one or all in one write.
    fn set_up(&mut self, direction: Direction, list: u64, cyclic_length: u64, last: u64) {
        let base = registers(direction);
        let format = self.format();
        let stream = &mut self.streams[direction.index()];
        (stream.list, stream.format, stream.running) = (list, format, false);
        stream.tag = self.random.below(16) as u8;
        let tag = stream.tag << 4;
        if self.random.percent(80) {
            self.write(base, 1, 1);
            self.write(base, 1, 0);
        } else if self.random.flag() {
            self.write(base, 1, 0);
        }
        if self.random.percent(40) {
            let mut data = self.random.bytes(32);
            (data[0], data[2]) = (0, tag);
            data[8..12].copy_from_slice(&cyclic_length.to_le_bytes()[..4]);
            data[12..14].copy_from_slice(&last.to_le_bytes()[..2]);
            data[0x12..0x14].copy_from_slice(&format.to_le_bytes());
            data[0x18..].copy_from_slice(&list.to_le_bytes());
            self.plan(Op::Write { offset: base, data });
        } else {
            self.write(base + 2, 1, u64::from(tag));
            self.write(base + 8, 4, cyclic_length);
            self.write(base + 0xc, 2, last);
            self.write(base + 0x12, 2, u64::from(format));
            self.write(base + 0x18, 8, list);
        }
    }

    fn start(&mut self, direction: Direction) {
        let control = self.random.pick(&[0x02, 0x06, 0x1e, 0x1e, 0x16]);
        self.write(registers(direction), 1, control);
        self.streams[direction.index()].running = true;
    }

    pub(super) fn start_or_stop(&mut self) {
        let direction = self.direction();
        if self.random.percent(10) {
            // The list becomes shorter, maybe below the descriptor in use.
            let last = self.random.below(3);
            self.write(registers(direction) + 0xc, 1, last);
        }
        if self.streams[direction.index()].running && self.random.percent(40) {
            let control = self.random.pick(&[0, 0x1c]);
            self.write(registers(direction), 1, control);
            self.streams[direction.index()].running = false;
        } else {
            self.start(direction);
        }
    }

    /// Reset and run bits in every mix.
    pub(super) fn stream_reset(&mut self) {
        let direction = self.direction();
        let base = registers(direction);
        let control = self.random.pick(&[1, 1, 3, 0x1f]);
        self.write(base, 1, control);
        if self.random.percent(30) {
            self.write(base + 8, 4, 64);
        }
        if self.random.percent(90) {
            let control = self.random.pick(&[0, 0, 2]);
            self.write(base, 1, control);
        }
        self.streams[direction.index()].running = false;
    }

    /// A stream whose buffers lie over its own descriptor list. What capture writes there is again a list, so that the transfer goes on by it:
    /// only here does it matter that each piece reads its descriptor anew, and where a piece ends.
    pub(super) fn overlay(&mut self) {
        let direction = if self.random.percent(80) { Direction::Capture } else { Direction::Playback };
        let count = self.random.between(1, 6) as usize;
        let list = self.list_address(count);
        let mut descriptors = self.valid_descriptors(count);
        let (over, skew) = (self.random.below(count as u64) as usize, self.random.pick(&[0, 0, 16, 32, 4]));
        descriptors[over].address = list.wrapping_add(skew);
        self.poke_list(list, &descriptors);
        let cyclic_length = self.random.pick(&[16, 32, 48, 64, 80, 256, 20]);
        self.set_up(direction, list, cyclic_length, count as u64 - 1);
        let gain = if self.random.percent(85) { 0x4a } else { self.gain() };
        self.connect(direction, Some([gain; 2]));
        self.start(direction);
        for _ in 0..self.random.between(1, 3) {
            let replacement = self.valid_descriptors(16);
            self.plan(Op::Feed(replacement.iter().flat_map(|descriptor| descriptor.bytes()).collect()));
            let time = self.random.pick(&[1_000_000, 2_000_000, 5_333_334, 11_000_000]);
            self.plan(Op::Advance(time));
        }
        self.pull();
    }

    fn valid_descriptors(&mut self, count: usize) -> Vec<Descriptor> {
        let descriptor = |generator: &mut Self| {
            let length = generator.random.pick(&[16, 32, 48, 64, 96, 128, 256]);
            Descriptor { address: generator.address(4, u64::from(length)), length, flags: generator.random.below(2) as u32 }
        };
        (0..count).map(|_| descriptor(self)).collect()
    }
}

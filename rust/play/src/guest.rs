//! The guest's driver: what an operating system does to find the device, set it up, and keep a playing ring filled.
//! Register names are HDA 1.0a's.
use crate::bus::{Bus, Outcome};
use crate::format::Format;
use port::Message;

const GCAP: u64 = 0x00;
const GCTL: u64 = 0x08;
const STATESTS: u64 = 0x0e;
const INTCTL: u64 = 0x20;
const INTSTS: u64 = 0x24;
const CORBLBASE: u64 = 0x40;
const CORBUBASE: u64 = 0x44;
const CORBWP: u64 = 0x48;
const CORBRP: u64 = 0x4a;
const CORBCTL: u64 = 0x4c;
const CORBSIZE: u64 = 0x4e;
const RIRBLBASE: u64 = 0x50;
const RIRBUBASE: u64 = 0x54;
const RIRBWP: u64 = 0x58;
const RINTCNT: u64 = 0x5a;
const RIRBCTL: u64 = 0x5c;
const RIRBSTS: u64 = 0x5d;
const RIRBSIZE: u64 = 0x5e;

/// Places in a stream's registers.
const CTL: u64 = 0x00;
const TAG: u64 = 0x02;
const STS: u64 = 0x03;
const LPIB: u64 = 0x04;
const CBL: u64 = 0x08;
const LVI: u64 = 0x0c;
const FMT: u64 = 0x12;
const BDPL: u64 = 0x18;
const BDPU: u64 = 0x1c;

const CONTROLLER_INTERRUPT: u32 = 1 << 30;
const GLOBAL_INTERRUPT: u32 = 1 << 31;

/// Where things stand in guest memory.
const CORB: usize = 0x1000;
const RIRB: usize = 0x1800;
const DESCRIPTORS: usize = 0x3000;
pub const RING: usize = 0x4000;

pub const FRAME: usize = 4;
const STREAM_TAG: u32 = 1;
/// 0 dB: samples pass unchanged.
const UNITY: u32 = 0x4a;

/// Where interrupts are to arrive, as an operating system hands it out.
const MESSAGE: Message = Message { address: 0xfee0_1004, data: 0x26 };

/// A cyclic buffer of periods, each a descriptor that interrupts at its end.
#[derive(Clone, Copy)]
pub struct Ring {
    pub period: usize,
    pub periods: usize,
}

impl Ring {
    pub fn bytes(self) -> usize {
        self.period * self.periods
    }
}

/// The driver with all that it knows.
pub struct Guest {
    format: Format,
    ring: Ring,
    /// What is to be heard; silence follows it.
    sound: Vec<u8>,
    /// Every byte that was laid into the ring, in order.
    pub put: Vec<u8>,
    /// The first register of the stream that plays, and its number.
    stream: u64,
    number: u32,
    /// Commands sent, and responses taken out of their ring.
    pub commands: usize,
    pub responses: Vec<u32>,
    /// The position, unwrapped.
    pub position: usize,
    /// The position seen by the handler at each completion interrupt.
    pub completions: Vec<usize>,
    /// Messages that arrived.
    pub messages: usize,
}

fn expect(what: &str, is: u32, should: u32) -> Outcome<()> {
    if is == should { Ok(()) } else { Err(format!("{what} is {is:#x}, not {should:#x}")) }
}

/// Sets up everything until the stream is ready to run.
pub fn start(bus: &mut Bus, format: Format, ring: Ring, sound: &[u8]) -> Outcome<Guest> {
    let mut guest = Guest {
        format,
        ring,
        sound: sound.to_vec(),
        put: Vec::new(),
        stream: 0,
        number: 0,
        commands: 0,
        responses: Vec::new(),
        position: 0,
        completions: Vec::new(),
        messages: 0,
    };
    find(bus)?;
    reset(bus)?;
    rings(bus)?;
    guest.codec(bus)?;
    guest.ready(bus)?;
    Ok(guest)
}

/// Configuration space: identity, base address, messages, bus master.
fn find(bus: &mut Bus) -> Outcome<()> {
    expect("the identity", bus.config_read(0x00)?, 0x293e_8086)?;
    expect("the class", bus.config_read(0x09)?, 0x04_0300)?;
    bus.config_write(0x10, 4, u32::MAX)?;
    expect("the size of the registers", bus.config_read(0x10)?.wrapping_neg(), 0x4000)?;
    bus.config_write(0x10, 4, 0xfebf_0000)?;
    let capability = u64::from(bus.config_read(0x34)? & 0xff);
    expect("the capability for messages", bus.config_read(capability)? & 0xff, 5)?;
    bus.config_write(capability + 4, 4, MESSAGE.address as u32)?;
    bus.config_write(capability + 8, 4, (MESSAGE.address >> 32) as u32)?;
    bus.config_write(capability + 12, 2, MESSAGE.data)?;
    bus.config_write(capability + 2, 2, 1)?;
    bus.expect(MESSAGE);
    // Registers answer, the device may read and write memory, and its line stays low.
    bus.config_write(0x04, 2, 0x0406)
}

/// Controller reset: held until it reads back, then released.
fn reset(bus: &mut Bus) -> Outcome<()> {
    for bit in [0, 1] {
        bus.write(GCTL, 4, bit)?;
        expect("the reset bit", bus.read(GCTL, 4)? & 1, bit)?;
    }
    expect("the codecs found", bus.read(STATESTS, 2)?, 1)?;
    bus.write(STATESTS, 2, 1)
}

/// Command and response rings of 256 entries; every response interrupts.
fn rings(bus: &mut Bus) -> Outcome<()> {
    bus.write(CORBLBASE, 4, CORB as u32)?;
    bus.write(CORBUBASE, 4, 0)?;
    bus.write(CORBSIZE, 1, 2)?;
    bus.write(CORBWP, 2, 0)?;
    for pointer in [0x8000, 0] {
        bus.write(CORBRP, 2, pointer)?;
        expect("the command read pointer", bus.read(CORBRP, 2)?, pointer)?;
    }
    bus.write(RIRBLBASE, 4, RIRB as u32)?;
    bus.write(RIRBUBASE, 4, 0)?;
    bus.write(RIRBSIZE, 1, 2)?;
    bus.write(RIRBWP, 2, 0x8000)?;
    bus.write(RINTCNT, 2, 1)?;
    bus.write(CORBCTL, 1, 2)?;
    bus.write(RIRBCTL, 1, 3)?;
    bus.write(INTCTL, 4, GLOBAL_INTERRUPT | CONTROLLER_INTERRUPT)
}

impl Guest {
    /// One command through the rings, and its response.
    fn command(&mut self, bus: &mut Bus, node: u32, verb: u32) -> Outcome<u32> {
        let next = (bus.read(CORBWP, 2)? + 1) % 256;
        bus.store(CORB + 4 * next as usize, &(node << 20 | verb).to_le_bytes());
        bus.write(CORBWP, 2, next)?;
        self.commands += 1;
        self.serve(bus)?;
        let response = self.responses.get(self.commands - 1);
        response.copied().ok_or_else(|| format!("no response to command {verb:#x} of node {node}"))
    }

    fn parameter(&mut self, bus: &mut Bus, node: u32, parameter: u32) -> Outcome<u32> {
        self.command(bus, node, 0xf_0000 | parameter)
    }

    /// A setting, read back.
    fn set(&mut self, bus: &mut Bus, node: u32, set: u32, get: u32, value: u32) -> Outcome<()> {
        self.command(bus, node, set)?;
        expect(&format!("setting {set:#x} of node {node}"), self.command(bus, node, get)?, value)
    }

    /// Finds the codec's output converter and its pin, and connects them to the stream's tag, at a rate that the converter declares.
    fn codec(&mut self, bus: &mut Bus) -> Outcome<()> {
        expect("the codec", self.parameter(bus, 0, 0)?, 0x1af4_0022)?;
        let group = self.parameter(bus, 0, 4)? >> 16 & 0xff;
        let nodes = self.parameter(bus, group, 4)?;
        let (mut converter, mut pin) = (None, None);
        for node in (nodes >> 16 & 0xff)..(nodes >> 16 & 0xff) + (nodes & 0xff) {
            match self.parameter(bus, node, 0x09)? >> 20 & 0xf {
                0 => converter = Some(node),
                4 if self.parameter(bus, node, 0x0c)? & 0x10 != 0 => pin = Some(node),
                _ => {}
            }
        }
        let converter = converter.ok_or("the codec has no output converter")?;
        let pin = pin.ok_or("the codec has no output pin")?;
        let declared = self.parameter(bus, converter, 0x0a)?;
        if !self.format.is_declared(declared) {
            let rate = self.format.rate;
            return Err(format!(
                "the codec does not declare 16 bits at {rate} frames a second: parameter 0x0a of node {converter} is {declared:#x}"
            ));
        }
        for node in [group, converter, pin] {
            self.set(bus, node, 0x7_0500, 0xf_0500, 0)?;
        }
        let word = u32::from(self.format.word);
        self.set(bus, converter, 0x2_0000 | word, 0xa_0000, word)?;
        self.set(bus, converter, 0x7_0600 | STREAM_TAG << 4, 0xf_0600, STREAM_TAG << 4)?;
        // The output amplifier, left and right.
        self.set(bus, converter, 0x3_b000 | UNITY, 0xb_a000, UNITY)?;
        expect("the right gain", self.command(bus, converter, 0xb_8000)?, UNITY)?;
        self.set(bus, pin, 0x7_0740, 0xf_0700, 0x40)
    }

    /// The stream: reset, ring full, descriptors, format and tag.
    fn ready(&mut self, bus: &mut Bus) -> Outcome<()> {
        // Output streams stand behind the input streams.
        self.number = bus.read(GCAP, 2)? >> 8 & 0xf;
        self.stream = 0x80 + 0x20 * u64::from(self.number);
        for bit in [1, 0] {
            bus.write(self.stream + CTL, 1, bit)?;
            expect("the stream's reset bit", bus.read(self.stream + CTL, 1)? & 1, bit)?;
        }
        for index in 0..self.ring.periods {
            let mut descriptor = [0; 16];
            descriptor[..8].copy_from_slice(&((RING + self.ring.period * index) as u64).to_le_bytes());
            descriptor[8..12].copy_from_slice(&(self.ring.period as u32).to_le_bytes());
            // Interrupt on completion.
            descriptor[12] = 1;
            bus.store(DESCRIPTORS + 16 * index, &descriptor);
        }
        self.refill(bus);
        bus.write(self.stream + TAG, 1, STREAM_TAG << 4)?;
        bus.write(self.stream + CBL, 4, self.ring.bytes() as u32)?;
        bus.write(self.stream + LVI, 2, self.ring.periods as u32 - 1)?;
        bus.write(self.stream + FMT, 2, u32::from(self.format.word))?;
        bus.write(self.stream + BDPL, 4, DESCRIPTORS as u32)?;
        bus.write(self.stream + BDPU, 4, 0)?;
        let enabled = bus.read(INTCTL, 4)?;
        bus.write(INTCTL, 4, enabled | 1 << self.number)
    }

    /// Runs the stream, with interrupts on completion and on both errors. A format that the device does not accept is an error at once.
    pub fn run(&mut self, bus: &mut Bus) -> Outcome<()> {
        bus.write(self.stream + CTL, 1, 0x1e)?;
        self.serve(bus)
    }

    pub fn stop(&mut self, bus: &mut Bus) -> Outcome<()> {
        bus.write(self.stream + CTL, 1, 0)
    }

    /// Fills every period of the ring that the position has left.
    fn refill(&mut self, bus: &mut Bus) {
        let Ring { period, periods } = self.ring;
        while self.put.len() < self.position / period * period + self.ring.bytes() {
            let start = self.put.len();
            let mut bytes: Vec<u8> = self.sound.iter().skip(start).take(period).copied().collect();
            bytes.resize(period, 0);
            bus.store(RING + period * (start / period % periods), &bytes);
            self.put.extend(bytes);
        }
    }

    /// Reads the position and unwraps it.
    pub fn look(&mut self, bus: &mut Bus) -> Outcome<usize> {
        let ring = self.ring.bytes();
        let position = bus.read(self.stream + LPIB, 4)? as usize;
        if position >= ring {
            return Err(format!("the position {position} is outside a ring of {ring} bytes"));
        }
        let step = (position + ring - self.position % ring) % ring;
        // A position that falls is more than half a ring ahead of itself.
        if step > ring / 2 {
            return Err(format!("the position fell by {} bytes at byte {}", ring - step, self.position));
        }
        self.position += step;
        Ok(self.position)
    }

    /// The interrupt handler, run once for each message.
    pub fn serve(&mut self, bus: &mut Bus) -> Outcome<()> {
        for _ in 0..bus.take_messages() {
            self.messages += 1;
            let status = bus.read(INTSTS, 4)?;
            if status & CONTROLLER_INTERRUPT != 0 {
                self.take_responses(bus)?;
            }
            if status & 1 << self.number != 0 && self.stream != 0 {
                let what = bus.read(self.stream + STS, 1)?;
                bus.write(self.stream + STS, 1, what & 0x1c)?;
                if what & 0x18 != 0 {
                    return Err(format!("the stream reports error {what:#x}"));
                }
                let position = self.look(bus)?;
                self.completions.push(position);
                self.refill(bus);
            }
            expect("the interrupt status after the handler", bus.read(INTSTS, 4)?, 0)?;
        }
        Ok(())
    }

    fn take_responses(&mut self, bus: &mut Bus) -> Outcome<()> {
        let status = bus.read(RIRBSTS, 1)?;
        expect("the response status", status, 1)?;
        bus.write(RIRBSTS, 1, status)?;
        let last = bus.read(RIRBWP, 2)? as usize;
        while self.responses.len() % 256 != last {
            let entry = RIRB + 8 * ((self.responses.len() + 1) % 256);
            expect("the response's codec", bus.load(entry + 4), 0)?;
            self.responses.push(bus.load(entry));
        }
        Ok(())
    }
}

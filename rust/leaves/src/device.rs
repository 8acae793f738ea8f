//! The Rust of the crate that the module above calls `oracle`: two kinds of device whose state is set before each question and read after it.
//! Both oracles are driven by this one text, so that they are asked the same.
use super::oracle::audio::{AudioFormat, CaptureSource, HostAudio, PlaybackSink};
use super::oracle::hda::Hda;
use super::oracle::{BusDevice, DeviceError, GuestMemory, MsiMessage, MsiSink, PciDevice};
use crate::draw::RATES;
use crate::question::{Answer, CodecBytes, Question, Side};
use std::sync::Arc;
use std::time::Duration;
use vm_memory::GuestAddress;

/// The output's number among the streams, and its registers.
const OUTPUT: usize = 1;
const OUTPUT_CONTROL: u64 = 0xa0;
const OUTPUT_FORMAT: u64 = 0xb2;
const RUN: u8 = 2;

pub struct Rust {
    /// Out of reset, with no stream running: `advance` moves its wall clock and nothing else. Its codec serves the other questions.
    idle: Hda,
    /// For each of RATES that the device takes, one whose output runs into a host queue that stays full: `advance` adds to its frame time and
    /// moves nothing.
    running: Vec<(u32, Hda)>,
}

impl Rust {
    pub fn new() -> Self {
        let taken = RATES.into_iter().filter(|(_, word)| takes(*word));
        Self { idle: device(), running: taken.map(|(rate, word)| (rate, running(word))).collect() }
    }

    /// The rates at which a device runs, so that `advance` itself answers.
    #[cfg(test)]
    pub fn rates(&self) -> Vec<u32> {
        self.running.iter().map(|(rate, _)| *rate).collect()
    }

    fn amplify(&mut self, input: bool, left: u8, right: u8, pcm: &[u8]) -> Vec<u8> {
        let amplifier = if input { 4 * 24 } else { 2 * 24 + 2 };
        self.idle.probe_codec()[amplifier..][..2].copy_from_slice(&[left, right]);
        let mut pcm = pcm.to_vec();
        self.idle.probe_amplify(input, &mut pcm);
        pcm
    }

    /// A command's reply, and the codec after it.
    pub fn verb(&mut self, codec: &CodecBytes, command: u32) -> (Option<u32>, CodecBytes) {
        *self.idle.probe_codec() = *codec;
        (self.idle.probe_verb(command), *self.idle.probe_codec())
    }

    fn clock(&mut self, ticks: u64, fraction: u64, nanos: u64) -> (u64, u64) {
        let clock = self.idle.probe_clock();
        (*clock.0, *clock.1) = (ticks, fraction);
        advance(&mut self.idle, nanos);
        let clock = self.idle.probe_clock();
        (*clock.0, *clock.1)
    }

    /// The frame time by the expressions that `advance` has, and where a device can run at the rate, also by `advance` itself.
    fn time(&mut self, fraction: u64, nanos: u64, rate: u32) -> u64 {
        let time = Hda::probe_accrue(fraction, nanos, rate);
        if let Some((_, device)) = self.running.iter_mut().find(|(known, _)| *known == rate) {
            *device.probe_time(OUTPUT) = fraction;
            advance(device, nanos);
            assert_eq!(*device.probe_time(OUTPUT), time, "probe_accrue({fraction}, {nanos}, {rate}) is not what `advance` does");
        }
        time
    }

    fn connected(&mut self, codec: &CodecBytes, input: bool, tag: u8, format: u16) -> bool {
        *self.idle.probe_codec() = *codec;
        self.idle.probe_connected(input, tag, format)
    }
}

impl Default for Rust {
    fn default() -> Self {
        Self::new()
    }
}

impl Side for Rust {
    fn answer(&mut self, question: &Question) -> Answer {
        match question {
            Question::Format { word } => Answer::Rate(Hda::probe_format(*word).unwrap_or(0)),
            Question::Amplify { input, left, right, pcm } => Answer::Pcm(self.amplify(*input, *left, *right, pcm)),
            Question::Verb { codec, command } => {
                let (value, codec) = self.verb(codec, *command);
                Answer::Reply { value, codec }
            }
            Question::Clock { ticks, fraction, nanos } => {
                let (ticks, fraction) = self.clock(*ticks, *fraction, *nanos);
                Answer::Clock { ticks, fraction }
            }
            Question::Time { fraction, nanos, rate } => Answer::Time(self.time(*fraction, *nanos, *rate)),
            Question::Connected { codec, input, tag, format } => Answer::Connected(self.connected(codec, *input, *tag, *format)),
        }
    }
}

/// Whether the device takes a format word.
pub fn takes(word: u16) -> bool {
    Hda::probe_format(word).is_some()
}

/// The codec as a new device has it.
pub fn fresh_codec() -> CodecBytes {
    *device().probe_codec()
}

/// A device out of reset.
fn device() -> Hda {
    let memory = GuestMemory::from_ranges(&[(GuestAddress(0), 4096)]).unwrap();
    let mut device = Hda::new("hda", memory, Arc::new(FullHost), Arc::new(NoMsi), None, false);
    device.write(8, &[1]);
    device
}

/// A device whose output runs at the rate of a format word.
fn running(word: u16) -> Hda {
    let mut device = device();
    let bus_master = 4;
    device.config_write(1, 0, &[bus_master]);
    device.write(OUTPUT_FORMAT, &word.to_le_bytes());
    device.write(OUTPUT_CONTROL, &[RUN]);
    assert!(runs(&mut device), "format word {word:#06x}: the output does not run");
    device
}

fn runs(device: &mut Hda) -> bool {
    let mut control = [0];
    device.read(OUTPUT_CONTROL, &mut control);
    control[0] & RUN != 0
}

fn advance(device: &mut Hda, nanos: u64) {
    device.advance(Duration::from_nanos(nanos)).expect("nothing is opened here");
}

/// A host whose playback queue is always full.
struct FullHost;

struct FullQueue;

impl HostAudio for FullHost {
    fn name(&self) -> &'static str {
        "full"
    }
    fn open_playback(&self, _: AudioFormat) -> Result<Box<dyn PlaybackSink>, DeviceError> {
        Ok(Box::new(FullQueue))
    }
    fn open_capture(&self, _: AudioFormat) -> Result<Box<dyn CaptureSource>, DeviceError> {
        Err(DeviceError::Other("full".into()))
    }
}

impl PlaybackSink for FullQueue {
    fn write_period(&mut self, _: &[u8]) {
        unreachable!("a full queue is handed no period");
    }
    fn latency_bytes(&self) -> usize {
        2048
    }
}

struct NoMsi;

impl MsiSink for NoMsi {
    fn signal(&self, _: MsiMessage) {}
}

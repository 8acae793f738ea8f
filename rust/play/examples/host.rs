//! How a hypervisor keeps the device: one owner, a timer, the guest's accesses, the host's sound callback.
use port::{Answer, Machine, Stream, number};
use std::time::{Duration, Instant};

/// Everything that belongs to one device; behind one lock where several threads use it.
struct Sound {
    machine: Machine,
    /// Guest memory from address 0 on.
    memory: Vec<u8>,
    /// The last timer tick; none while the guest is stopped.
    ticked: Option<Instant>,
    /// The rate at which the host's sound card plays, in frames a second; none while it is closed.
    card: Option<u32>,
    line: bool,
}

impl Sound {
    fn new(memory: usize, downstream: u32) -> Self {
        let mut machine = Machine::new(true);
        assert_eq!(machine.set_downstream(downstream).number, number::DONE);
        Self { machine, memory: vec![0; memory], ticked: None, card: None, line: false }
    }

    /// Every millisecond: the time since the last tick, to the nanosecond.
    fn timer(&mut self, now: Instant) {
        let elapsed = self.ticked.replace(now).map_or(Duration::ZERO, |last| now - last);
        let answer = self.machine.advance(&mut self.memory, elapsed.as_nanos() as u64);
        self.interrupts(answer);
        self.follow();
    }

    /// The guest chooses the rate, and the host's sound card is opened at it.
    fn follow(&mut self) {
        let rate = self.machine.rate(Stream::Playback);
        if rate != self.card {
            self.card = rate;
            println!("playback {}", rate.map_or("closed".into(), |rate| format!("at {rate} frames a second")));
        }
    }

    /// The guest stops, or goes on: what passes in between is no time of the device.
    fn set_stopped(&mut self, stopped: bool) {
        self.ticked = None;
        let answer = self.machine.set_paused(stopped);
        self.interrupts(answer);
    }

    fn guest_reads(&mut self, offset: u64, into: &mut [u8]) {
        let answer = self.machine.bar_read(0, offset, into);
        self.interrupts(answer);
    }

    fn guest_writes(&mut self, offset: u64, bytes: &[u8]) {
        let answer = self.machine.bar_write(&mut self.memory, 0, offset, bytes);
        self.interrupts(answer);
    }

    /// The host's sound card wants frames. What the device does not have is silence.
    fn playback(&mut self, out: &mut [u8]) {
        let given = 4 * self.machine.pull(out).value as usize;
        out[given..].fill(0);
    }

    /// The host's sound card brings frames. What does not fit is lost.
    fn capture(&mut self, frames: &[u8]) {
        self.machine.feed(frames);
    }

    /// After every call on the device, but not after pull, feed and the host's settings.
    fn interrupts(&mut self, answer: Answer) {
        match answer.number {
            number::DONE => {}
            number::HOST_CLOSED => eprintln!("the host did not open a stream; the guest sees a stream error"),
            other => panic!("refused with {other}: the records were overwritten"),
        }
        self.line = answer.level;
        if let Some(message) = answer.message {
            println!("message {:#x} to {:#x}", message.data, message.address);
        }
    }
}

fn main() {
    let mut sound = Sound::new(1 << 20, 3840);
    let start = Instant::now();
    sound.guest_writes(0x08, &[1, 0, 0, 0]);
    for millisecond in 0..=10 {
        sound.timer(start + Duration::from_millis(millisecond));
        sound.capture(&[0; 192]);
        sound.playback(&mut [0; 192]);
    }
    sound.set_stopped(true);
    sound.set_stopped(false);
    sound.timer(start + Duration::from_secs(60));
    let mut clock = [0; 4];
    sound.guest_reads(0x30, &mut clock);
    println!("10 ms are {} ticks of 24 MHz; line {}", u32::from_le_bytes(clock), sound.line);
}

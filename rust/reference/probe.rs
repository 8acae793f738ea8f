//! Taken in by the line `#[cfg(test)] mod tests;` of hda/mod.rs: a child module sees the device's private state. It changes no behaviour.
use super::*;

impl Hda {
    /// The rate of a format word that the device takes.
    pub fn probe_format(word: u16) -> Option<u32> {
        Self::format(word).ok().map(|format| format.rate)
    }

    pub fn probe_amplify(&self, input: bool, pcm: &mut [u8]) {
        self.codec.amplify(input, pcm, 2)
    }

    pub fn probe_codec(&mut self) -> &mut [u8; 144] {
        &mut self.codec.bytes
    }

    pub fn probe_verb(&mut self, command: u32) -> Option<u32> {
        self.codec.verb(command)
    }

    pub fn probe_connected(&self, input: bool, tag: u8, format: u16) -> bool {
        self.codec.connected(input, tag, format)
    }

    /// The wall clock's ticks and billionths of the next tick.
    pub fn probe_clock(&mut self) -> (&mut u64, &mut u64) {
        (&mut self.wall_ticks, &mut self.wall_fraction)
    }

    /// The frame time of stream 0, the input, or 1, the output.
    pub fn probe_time(&mut self, index: usize) -> &mut u64 {
        &mut self.streams[index].fraction
    }

    /// The two expressions by which `advance` adds to a stream's frame time, for the rates that no format word has.
    pub fn probe_accrue(fraction: u64, nanos: u64, rate: u32) -> u64 {
        let elapsed = Duration::from_nanos(nanos);
        let frames = elapsed.as_nanos() * u128::from(rate) + u128::from(fraction);
        frames.min(u128::from(MAX_PENDING_FRAMES) * 1_000_000_000 + frames % 1_000_000_000) as u64
    }

    pub fn probe_asserted(&self) -> bool {
        self.interrupt_asserted
    }

    /// Whether the host streams are open, capture first.
    pub fn probe_open(&self) -> [bool; 2] {
        [self.capture.is_some(), self.playback.is_some()]
    }

    /// Drops the host stream and keeps RUN: a state that a handed-in device may be in, and that no call leaves.
    pub fn probe_close(&mut self, stream: usize) {
        if stream == 0 {
            self.capture = None;
        } else {
            self.playback = None;
        }
    }

    /// Sets a stream's counts and its list, as one who hands in a device may: restore takes no crowded list.
    pub fn probe_set_list(&mut self, stream: usize, submitted: u64, consumed: u64, positions: &[u64]) {
        let stream = &mut self.streams[stream];
        (stream.submitted, stream.consumed) = (submitted, consumed);
        stream.completions = positions.iter().copied().collect();
    }

    /// Gives another device all that this one holds. Guest memory and what the other is wired to stay its own: host streams that are open here are opened there, anew.
    pub fn probe_copy_to(&self, other: &mut Self) {
        (other.microphone, other.paused, other.interrupt_asserted) = (self.microphone, self.paused, self.interrupt_asserted);
        (other.config, other.regs, other.responses) = (self.config, self.regs, self.responses);
        (other.codec, other.streams) = (self.codec.clone(), self.streams.clone());
        (other.wall_ticks, other.wall_fraction) = (self.wall_ticks, self.wall_fraction);
        // The harness's host opens a stream of any format alike.
        let format = Self::format(0x0011).expect("48,000 frames a second");
        other.capture = self.capture.as_ref().map(|_| other.host.open_capture(format).expect("the other host opens"));
        other.playback = self.playback.as_ref().map(|_| other.host.open_playback(format).expect("the other host opens"));
    }
}

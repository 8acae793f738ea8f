//! Scenes that save, and restore states that are good, old or damaged.
use super::{ADDRESS_REGISTERS, Generator, REFUSED_FORMATS};
use crate::ops::Op;
use crate::side::Direction;
use crate::state::{BOUNDARIES, REGISTERS, SPACING, State, Stream};

/// Completions that may be pending at once.
const LIST_LIMIT: u64 = 4352;
/// A stream's time must stay below this.
const TIME_LIMIT: u64 = 8193 * 1_000_000_000;

impl Generator {
    /// A save; sometimes what it gave comes back changed.
    pub(super) fn save_and_restore(&mut self) {
        self.restores_next = self.random.percent(60);
        self.plan(Op::Save);
    }

    /// A kept state, as it was or changed.
    pub(super) fn restore_kept(&mut self) {
        let Some(bytes) = self.kept() else {
            return self.plan(Op::Save);
        };
        if self.random.percent(30) {
            self.restore(bytes);
        } else {
            self.restore_changed(&bytes);
        }
    }

    fn kept(&mut self) -> Option<Vec<u8>> {
        let last = self.saved.len().checked_sub(1)?;
        Some(self.saved[self.random.between(0, last as u64) as usize].clone())
    }

    /// One of the calls that restore. Where no list is crowded both are the unchanged Rust's restore.
    fn restore(&mut self, bytes: Vec<u8>) {
        let emptied = self.random.percent(25);
        self.plan(if emptied { Op::RestoreEmptied(bytes) } else { Op::Restore(bytes) });
    }

    /// A kept state with lists that are crowded, or only just not, and at times damaged too; by one call or by both.
    pub(super) fn restore_crowded(&mut self) {
        if !self.asks_more {
            return;
        }
        let Some(mut state) = self.kept().and_then(|bytes| State::parse(&bytes)) else {
            return self.plan(Op::Save);
        };
        for index in self.random.pick(&[&[0][..], &[1], &[0, 1]]) {
            self.crowd(&mut state.streams[*index]);
        }
        if self.random.percent(30) {
            self.damage(&mut state);
        }
        let bytes = state.bytes();
        let (plain, separate) = (Op::Restore(bytes.clone()), Op::RestoreEmptied(bytes));
        match self.random.below(4) {
            0 => self.plan(plain),
            1 => self.plan(separate),
            2 => self.planned.extend([plain, separate]),
            _ => self.planned.extend([separate, plain]),
        }
        self.go_on();
    }

    /// A list at the edge of what restore takes: two neighbours from 1 to 4 apart, or the last, with the offset, from just below submitted to above it. The first may
    /// stand anywhere behind consumed, and an empty list is never crowded, whatever the offset.
    fn crowd(&mut self, stream: &mut Stream) {
        let (count, spacing) = (self.random.between(1, 6), self.random.between(SPACING, 9));
        stream.offset = self.random.pick(&[stream.offset, 0, 0, 1, 4, 60]);
        if !self.tame && self.random.percent(30) {
            stream.submitted = u64::MAX - self.random.below(3);
        }
        stream.fill(count, spacing);
        stream.consumed += self.random.below(spacing);
        match self.random.below(8) {
            0..=3 => {
                let (place, gap) = (self.random.between(1, count) as usize, self.random.between(1, SPACING));
                stream.pending[place..].iter_mut().for_each(|position| *position -= spacing - gap);
            }
            4..=6 => stream.offset = stream.offset.saturating_add_signed(self.random.pick(&[-1, 0, 1, 1, 7, i32::MAX])),
            _ => {
                stream.pending.clear();
                stream.offset = self.random.pick(&[1, 4, 60, u32::MAX]);
            }
        }
    }

    pub(super) fn restore_changed(&mut self, bytes: &[u8]) {
        let Some(mut state) = State::parse(bytes) else { return };
        for _ in 0..self.random.between(1, 3) {
            if self.random.percent(70) { self.change(&mut state) } else { self.damage(&mut state) }
        }
        if !self.asks_more {
            state.streams.iter_mut().for_each(thin);
        }
        let mut bytes = state.bytes();
        if self.random.percent(12) {
            self.damage_bytes(&mut bytes);
        }
        self.restore(bytes);
        self.go_on();
    }

    /// What a restored device is put through.
    fn go_on(&mut self) {
        // Time first: any write would already act on restored reset bits.
        if self.random.percent(60) {
            self.time();
        }
        if self.random.percent(20) {
            self.boot();
        }
        if self.random.percent(30) {
            self.random_commands();
            self.time();
        }
        if self.random.percent(40) {
            // Positions of restored streams reach where no sequence would come by playing.
            self.plan(Op::Read { offset: 0x2084, length: 4 });
            self.plan(Op::Read { offset: 0x20a4, length: 4 });
        }
    }

    /// Playback with a list near its limit. One that restore takes retires in the next turn, down to what latency can hold back. One that is handed to the
    /// device, and is crowded, does not, since that much latency is downstream.
    pub(super) fn full_list(&mut self) {
        let (direction, count) = (Direction::Playback, self.random.between(LIST_LIMIT - 3, LIST_LIMIT) as usize);
        let downstream = self.random.pick(&[4356, 8192, 14_336]);
        self.plan(Op::Downstream(downstream));
        if self.random.percent(25) {
            let over = if self.tame { 0 } else { self.random.below(2) as usize };
            self.plan(Op::RestoreList { direction, count: count + over });
        } else {
            self.plan(Op::List { direction, count });
        }
        self.time();
        self.plan(Op::Downstream(0));
    }

    /// A change after which restore usually accepts the state.
    fn change(&mut self, state: &mut State) {
        let index = self.random.below(2) as usize;
        let base = 0x80 + 32 * index;
        let (descriptor, odd) = (self.random.below(256) as u16, self.random.below(40) as u32);
        match self.random.below(19) {
            0 => state.paused = self.random.below(2) as u8,
            1 => state.ticks = self.random.pick(&[0, 1 << 32, u64::MAX, u64::MAX - 24_000]),
            2 => state.remainder = self.random.pick(&[0, 999_999_999, 500_000_000]),
            3 => state.responses = self.random.pick(&[0, 1, 2, 254, 255]),
            4 => state.streams[index].descriptor = self.random.pick(&[0, 1, 255, descriptor]),
            5 => state.streams[index].offset = self.random.pick(&[0, 4, odd, 4 * odd]),
            6 => self.change_counts(state, index),
            7 => self.change_list(state, index),
            8 => state.streams[index].time = self.random.pick(&[0, 999_999_999, 300 * 1_000_000_000, TIME_LIMIT - 1]),
            9 => state.registers[base] = self.random.pick(&[0, 2, 0x1e, 1, 3, 0x1f]),
            10 => {
                let format = self.accepted_format();
                state.registers[base + 0x12..base + 0x14].copy_from_slice(&format.to_le_bytes());
            }
            11 => {
                let place = self.random.pick(&[0x48, 0x4a, 0x58]);
                let pointer = self.random.pick(&[0xffff_u16, 0x8000, 255, 256, 17, 0]);
                state.registers[place..place + 2].copy_from_slice(&pointer.to_le_bytes());
            }
            12 => {
                // Size code 3, which no write can set, means 256.
                state.registers[0x4e] |= self.random.pick(&[0, 3]);
                state.registers[0x5e] |= self.random.pick(&[0, 3]);
                self.commands.entries = 256;
            }
            13 => state.registers[8] = self.random.below(4) as u8,
            14 => self.change_byte(state),
            15 => {
                // In reset with wake status set: leaving reset overwrites it.
                state.registers[8] = 0;
                state.registers[0xe..0x10].copy_from_slice(&self.random.bytes(2));
            }
            16 => self.change_position(state, index),
            17 => {
                let (node, format) = (self.random.pick(&[2, 4]), self.accepted_format());
                state.codec[24 * node + 10..24 * node + 12].copy_from_slice(&format.to_le_bytes());
            }
            _ => {
                let place = 24 * self.random.below(6) as usize + self.random.pick(&[4, 5, 6, 7, 8, 9, 12, 16, 23]);
                state.codec[place] = self.random.byte();
            }
        }
    }

    /// Counts that need not be multiples of four; in wild sequences also near 2^64.
    fn change_counts(&mut self, state: &mut State, index: usize) {
        let (small, large) = (self.random.below(100_000), self.random.next_u64() >> 16);
        let near_end = u64::MAX - self.random.below(3000);
        let stream = &mut state.streams[index];
        stream.submitted = self.random.weighted(&[(6, small), (3, large), (if self.tame { 0 } else { 20 }, near_end)]);
        stream.consumed = stream.submitted - self.random.below(stream.submitted.min(3000) + 1);
        stream.pending.retain(|position| *position > stream.consumed && *position <= stream.submitted);
    }

    /// A position that fills its four bytes: only a restored stream has one.
    fn change_position(&mut self, state: &mut State, index: usize) {
        let base = 0x80 + 32 * index;
        let (position, cyclic_length) = (self.random.next_u64() as u32, 4 * self.random.between(1, 0x3fff_ffff) as u32);
        state.registers[base + 4..base + 8].copy_from_slice(&position.to_le_bytes());
        state.registers[base + 8..base + 12].copy_from_slice(&cyclic_length.to_le_bytes());
        self.change_counts(state, index);
    }

    /// A list that restore accepts, unless it is longer than the limit; in sequences that ask more it may be crowded.
    fn change_list(&mut self, state: &mut State, index: usize) {
        let over = if self.tame { LIST_LIMIT } else { LIST_LIMIT + self.random.pick(&[1, 2, 600]) };
        let count = self.random.weighted(&[(4, 1), (4, 3), (4, 40), (1, LIST_LIMIT - 1), (1, LIST_LIMIT), (1, over)]);
        let spacing = self.random.between(if self.asks_more { 1 } else { SPACING }, 9);
        let stream = &mut state.streams[index];
        stream.fill(count, spacing);
        stream.submitted = stream.submitted.saturating_add(self.random.below(20));
    }

    /// Any byte of configuration or registers; in tame sequences none that holds an address.
    fn change_byte(&mut self, state: &mut State) {
        let place = self.random.below(256);
        if self.random.percent(30) {
            state.config[4 + place as usize % 252] = self.random.byte();
        } else if !(self.tame && ADDRESS_REGISTERS.iter().any(|registers| registers.contains(&place))) {
            state.registers[place as usize] = self.random.byte();
        }
    }

    /// A change that restore refuses, each field in turn.
    fn damage(&mut self, state: &mut State) {
        let index = self.random.below(2) as usize;
        let base = 0x80 + 32 * index;
        let word = self.random.pick(&REFUSED_FORMATS);
        match self.random.below(13) {
            0 => state.mark[self.random.below(4) as usize] ^= 1 << self.random.below(8),
            1 => state.microphone = self.random.pick(&[1 - state.microphone, 2]),
            2 => state.paused = self.random.pick(&[2, 255]),
            3 => {
                let node = self.random.pick(&[2, 4]);
                state.codec[24 * node + 10..24 * node + 12].copy_from_slice(&word.to_le_bytes());
            }
            4 => {
                // Word 0 is refused only while the stream runs.
                state.registers[base + 0x12..base + 0x14].copy_from_slice(&word.to_le_bytes());
                state.registers[base] |= self.random.pick(&[0, 2]);
            }
            5 => state.remainder = self.random.pick(&[1_000_000_000, u64::MAX]),
            6 => state.responses = self.random.pick(&[256, 65_535]),
            7 => state.config[self.random.below(4) as usize] ^= 1 << self.random.below(8),
            8 => state.streams[index].descriptor = self.random.pick(&[256, 65_535]),
            9 => {
                state.streams[index].pending.clear();
                state.streams[index].consumed = state.streams[index].submitted.saturating_add(1);
            }
            10 => state.streams[index].time = self.random.pick(&[TIME_LIMIT, u64::MAX]),
            11 => {
                let stream = &mut state.streams[index];
                stream.pending.truncate(LIST_LIMIT as usize - 1);
                stream.pending.push(stream.consumed);
            }
            _ => {
                let stream = &mut state.streams[index];
                stream.pending = vec![stream.submitted.saturating_add(1)];
            }
        }
    }

    /// Bytes cut, added, or a list's count that does not fit its bytes.
    fn damage_bytes(&mut self, bytes: &mut Vec<u8>) {
        let length = bytes.len() as u64;
        match self.random.below(5) {
            0 => bytes.truncate(self.random.below(length + 1) as usize),
            1 => bytes.truncate(self.random.pick(&BOUNDARIES).saturating_sub(self.random.below(2) as usize)),
            2 => {
                let extra = self.random.between(1, 9) as usize;
                bytes.extend(self.random.bytes(extra));
            }
            3 => {
                // The count of the first list; in tame sequences never one that the limit alone refuses.
                let count = self.random.pick(&[1_u32, 4, 5, 100, 4353, 1_048_577, u32::MAX]);
                if bytes.len() >= 714 && !(self.tame && bytes.len() > 714 + 8 * 4353) {
                    bytes[710..714].copy_from_slice(&count.to_le_bytes());
                }
            }
            _ => {
                let place = self.random.below(REGISTERS as u64).min(length.saturating_sub(1)) as usize;
                if let Some(byte) = bytes.get_mut(place) {
                    *byte ^= 1 << self.random.below(8);
                }
            }
        }
    }
}

/// Takes out of a list what makes it crowded. One that does not rise is refused before that is asked, and stays as it is.
fn thin(stream: &mut Stream) {
    if stream.rises() {
        stream.pending.dedup_by(|next, one| *next - *one < SPACING);
        stream.pending.retain(|position| stream.submitted - position >= u64::from(stream.offset));
    }
}

#[cfg(test)]
mod tests {
    use super::*;
    use crate::device::{Amended, Reference};
    use crate::lockstep::{InStep, Lockstep};
    use crate::side::Side;

    /// The streams of all states that sequences restore, with the call's word.
    fn restored(asks_more: bool) -> Vec<(&'static str, Stream)> {
        let mut found = Vec::new();
        for seed in 0..200 {
            let mut generator = Generator::new(seed, true);
            generator.asks_more = asks_more;
            generator.saved.push(Reference::new(true, 4096).save().1);
            for op in generator.take_ops(300) {
                let (Op::Restore(state) | Op::RestoreEmptied(state)) = &op else { continue };
                found.extend(State::parse(state).into_iter().flat_map(|state| state.streams).map(|stream| (op.kind(), stream)));
            }
        }
        found
    }

    #[test]
    fn lists_are_crowded_in_sequences_that_ask_more_and_never_in_others() {
        let crowded =
            |asks_more| restored(asks_more).into_iter().filter(|(_, stream)| stream.rises() && stream.is_crowded()).collect::<Vec<_>>();
        assert!(crowded(false).is_empty());
        let crowded = crowded(true);
        for kind in ["restore", "restore-emptied"] {
            assert!(crowded.iter().filter(|(word, _)| *word == kind).count() >= 50, "{kind}");
        }
    }

    #[test]
    fn the_unchanged_rust_judges_all_lists_of_sequences_that_do_not_ask_more() {
        for seed in 0..200 {
            let (mut generator, mut sides) = (Generator::new(seed, true), Lockstep::<Reference, Amended>::new());
            generator.asks_more = false;
            for _ in 0..300 {
                let op = generator.next_op();
                let Ok(answer) = sides.step(&op) else { break };
                generator.observe(&op, &answer);
            }
            assert!(!sides.coverage().to_string().contains("restore-crowded"), "seed {seed}");
        }
    }

    #[test]
    fn every_edge_of_a_crowded_list_is_met() {
        let streams: Vec<Stream> = restored(true).into_iter().map(|(_, stream)| stream).filter(Stream::rises).collect();
        let nearest = |stream: &Stream| stream.pending.windows(2).map(|pair| pair[1] - pair[0]).min();
        for gap in 1..=4 {
            assert!(streams.iter().any(|stream| nearest(stream) == Some(gap)), "{gap} apart");
        }
        let above = |stream: &Stream| Some(i128::from(*stream.pending.last()?) + i128::from(stream.offset) - i128::from(stream.submitted));
        for distance in -1..=1 {
            assert!(streams.iter().any(|stream| nearest(stream) >= Some(4) && above(stream) == Some(distance)), "{distance} above");
        }
        assert!(streams.iter().any(|stream| stream.pending.is_empty() && u64::from(stream.offset) > stream.submitted));
    }
}

//! Machines in a stall, made at random, as one who lends the bytes may hand them in: any queues, open and closed, lists, offsets and counts, any of the streams running, most of them late
//! and behind a full queue. Then their hosts come back, while guest memory and the host's settings change as they like, and guests go on running.
use crate::any::{Call, Lent};
use crate::catchup::{self, FRAME, LEAST_PULL, Outcome, PLAYBACK, Tally, Watch};
use crate::states::FORMATS;
use port::Machine;
use port::layout::{LIST, MAX_DOWNSTREAM, POSITIONS, QUEUE, STREAMS, device, get, host, put, stream};
use random::Random;

/// Guest memory: a list of 256 descriptors for each stream, then the position buffer, the rings, and what descriptors lead to.
const DESCRIPTORS: u64 = 256;
const DESCRIPTOR: usize = 16;
const POSITION_BUFFER: u64 = DESCRIPTORS * (DESCRIPTOR * STREAMS) as u64;
const COMMANDS: u64 = POSITION_BUFFER + 128;
const RESPONSES: u64 = COMMANDS + 1024;
const BUFFERS: u64 = RESPONSES + 2048;
/// A position buffer here has memory for the first stream, and for half of the next one's bytes.
const CUT_POSITION_BUFFER: u64 = BUFFERS + 4096;
const MEMORY: u64 = CUT_POSITION_BUFFER + 12;
/// From here on a stream's time is refused.
const TIME_LIMIT: u64 = 8193 * FRAME;

/// A machine, and up to so many callbacks of its host; where its stalls are over, only a few more. All that request T-10 says is judged.
pub fn play(random: &mut Random, most_callbacks: u64, tally: &mut Tally) -> Result<(), String> {
    let mut lent = start(random);
    let mut watches = Watch::each(&lent.device);
    let habits = Habits { breaks: random.percent(15), asks_for_more: random.percent(40) };
    let mut callbacks = 0;
    while callbacks < most_callbacks && (is_any_late(&watches) || random.percent(70)) {
        change(random, &mut lent);
        if !habits.breaks && random.percent(30) {
            go_on(random, &mut lent);
        }
        let bytes = if habits.breaks && random.percent(10) { break_condition(random, &mut lent) } else { habits.asked(random) };
        catchup::call_back(&mut lent, bytes, &mut watches)?;
        callbacks += 1;
    }
    tally.count(&watches, callbacks);
    Ok(())
}

fn is_any_late(watches: &[Watch]) -> bool {
    watches.iter().any(|watch| watch.outcome() == Outcome::Late)
}

/// What a host does through all of its callbacks.
struct Habits {
    /// At times a condition of the request is broken.
    breaks: bool,
    /// Pulls are of any length from 256 frames on, and else of just these.
    asks_for_more: bool,
}

impl Habits {
    /// Bytes that a pull asks for.
    fn asked(&self, random: &mut Random) -> usize {
        let most = if self.asks_for_more { 1100 } else { LEAST_PULL };
        4 * random.between(LEAST_PULL, most) as usize
    }
}

/// A machine before its host comes back.
pub(crate) fn start(random: &mut Random) -> Lent {
    let mut lent = Lent::of(&Machine::new(random.percent(60)), MEMORY as usize, 0);
    random.fill(&mut lent.memory);
    random.fill(&mut lent.queues);
    lay_controller(random, &mut lent.device);
    lay_rings(random, &mut lent.device);
    lay_settings(random, &mut lent.host);
    for index in 0..STREAMS {
        let is_dense = random.percent(30);
        for place in 0..DESCRIPTORS {
            lay_descriptor(random, &mut lent.memory, DESCRIPTORS * index as u64 + place, is_dense);
        }
        lay_registers(random, &mut lent.device, index);
        lay_place(random, &mut lent, index);
        lay_counts(random, &mut lent.device[device::stream(index)..]);
        lay_list(random, &mut lent, index);
        lay_queue(random, &mut lent.host, index);
    }
    lent
}

pub(crate) fn put_register<const N: usize>(record: &mut [u8], offset: u64, value: u64) {
    put::<N>(record, device::REGISTERS + offset as usize, value);
}

/// Mostly as the request asks: not paused, DMA on, out of reset, no sync bit of a stream set.
fn lay_controller(random: &mut Random, record: &mut [u8]) {
    let any = random.next_u64();
    record[device::PAUSED] = u8::from(random.percent(1));
    record[device::CONFIG + 4] = random.weighted(&[(60, 6), (38, 4), (1, 2)]);
    record[device::CONFIG + 0x62] |= any as u8 & 1;
    put_register::<1>(record, 8, random.weighted(&[(98, 1), (1, 0)]));
    put_register::<4>(record, 0x20, any);
    put_register::<4>(record, 0x38, random.weighted(&[(90, 0), (7, any << STREAMS), (2, any)]));
    let position_buffer = random.weighted(&[(46, POSITION_BUFFER), (2, CUT_POSITION_BUFFER), (1, any)]);
    put_register::<8>(record, 0x70, if random.flag() { position_buffer | 1 } else { 0 });
}

/// Sometimes commands wait in the ring: what they are is noise, and what they change of the codec moves no frame.
fn lay_rings(random: &mut Random, record: &mut [u8]) {
    if random.percent(20) {
        put_register::<8>(record, 0x40, COMMANDS);
        put_register::<2>(record, 0x48, random.below(256));
        put_register::<1>(record, 0x4c, 3);
        put_register::<8>(record, 0x50, RESPONSES);
        put_register::<1>(record, 0x5c, random.below(8));
    }
}

/// The host's switches and its downstream count.
fn lay_settings(random: &mut Random, record: &mut [u8]) {
    record[host::PLAYBACK_FAILS] = u8::from(random.percent(8));
    record[host::CAPTURE_FAILS] = u8::from(random.percent(8));
    put::<4>(record, host::DOWNSTREAM, 4 * random.below(u64::from(MAX_DOWNSTREAM) / 4 + 1));
}

/// A descriptor of one frame, flagged, in a dense list; elsewhere of up to 1,024 frames, flagged or not.
fn lay_descriptor(random: &mut Random, memory: &mut [u8], place: u64, is_dense: bool) {
    let descriptor = &mut memory[DESCRIPTOR * place as usize..][..DESCRIPTOR];
    let frames = random.weighted(&[(3, 64), (1, 1024)]);
    let length = 4 * random.between(1, frames);
    let (buffer, anywhere) = (random.between(BUFFERS, MEMORY - length), random.below(MEMORY - length));
    // What is captured may then overwrite descriptors.
    put::<8>(descriptor, 0, random.weighted(&[(255, buffer), (1, anywhere)]));
    put::<4>(descriptor, 8, if is_dense { 4 } else { length });
    put::<4>(descriptor, 12, u64::from(is_dense || random.flag()));
}

/// Spoils a descriptor: a length of 0 or of no whole frames, or an address from which on memory has too little.
fn spoil_descriptor(random: &mut Random, memory: &mut [u8], place: u64) {
    let descriptor = &mut memory[DESCRIPTOR * place as usize..][..DESCRIPTOR];
    let (field, value) = random.pick(&[(8, 0), (8, 6), (0, MEMORY - 2), (0, u64::MAX)]);
    if field == 0 {
        put::<8>(descriptor, field, value);
    } else {
        put::<4>(descriptor, field, value);
    }
}

/// Mostly such as transfers take. A stream that plays runs nearly always.
fn lay_registers(random: &mut Random, record: &mut [u8], index: usize) {
    let (base, any) = (0x80 + 32 * index as u64, random.next_u64());
    let runs = random.percent(if PLAYBACK.contains(&index) { 97 } else { 40 });
    let is_in_reset = random.percent(1);
    let (cyclic, format) = (4 * random.between(1, 4096), random.pick(&FORMATS));
    put_register::<1>(record, base, u64::from(runs) << 1 | u64::from(is_in_reset) | any & 0x1c);
    put_register::<1>(record, base + 2, any >> 8 & 0xf0);
    put_register::<1>(record, base + 3, any >> 16 & 0x3c);
    put_register::<4>(record, base + 8, random.weighted(&[(97, cyclic), (1, 0), (1, 6), (1, any & !3)]));
    put_register::<2>(record, base + 0xc, random.weighted(&[(98, any >> 24 & 255), (1, 256)]));
    put_register::<2>(record, base + 0x12, random.weighted(&[(97, format), (1, 0), (1, 0x2011)]));
    put_register::<8>(record, base + 0x18, DESCRIPTORS * (DESCRIPTOR * index) as u64);
}

/// Where a stream stands in its list, mostly inside of a descriptor's length, not always at a whole frame.
fn lay_place(random: &mut Random, lent: &mut Lent, index: usize) {
    let last = get::<2>(&lent.device, device::REGISTERS + 0x80 + 32 * index + 0xc).min(DESCRIPTORS - 1);
    let descriptor = random.below(last + 1);
    let length = get::<4>(&lent.memory, DESCRIPTOR * (DESCRIPTORS * index as u64 + descriptor) as usize + 8);
    let inside = random.below(length);
    let numbers = &mut lent.device[device::stream(index)..][..device::STREAM];
    put::<2>(numbers, stream::DESCRIPTOR, random.weighted(&[(98, descriptor), (1, DESCRIPTORS - 1)]));
    put::<4>(numbers, stream::OFFSET, random.weighted(&[(60, 0), (20, inside & !3), (18, inside), (1, length)]));
}

/// Counts up to the largest, and the time, mostly with as many whole frames as can be deferred.
fn lay_counts(random: &mut Random, numbers: &mut [u8]) {
    let (small, large) = (random.below(100_000), random.below(1 << 40));
    let submitted = random.weighted(&[(2, 0), (3, small), (3, large), (1, u64::MAX - small)]);
    let (ahead, any) = (random.below(2 * QUEUE as u64), random.below(submitted.max(1)));
    let (rest, any_time) = (random.below(FRAME), random.below(TIME_LIMIT));
    put::<8>(numbers, stream::SUBMITTED, submitted);
    put::<8>(numbers, stream::CONSUMED, random.pick(&[submitted, submitted.saturating_sub(ahead), any]));
    put::<8>(numbers, stream::TIME, random.weighted(&[(3, TIME_LIMIT - FRAME), (3, TIME_LIMIT - FRAME + rest), (3, any_time), (1, rest)]));
}

/// Pending positions, between what was consumed and what was submitted; now and then as many as a list has place for, or crowded.
fn lay_list(random: &mut Random, lent: &mut Lent, index: usize) {
    let numbers = &mut lent.device[device::stream(index)..][..device::STREAM];
    let (consumed, submitted) = (get::<8>(numbers, stream::CONSUMED), get::<8>(numbers, stream::SUBMITTED));
    let (few, gap) = (random.below(64), random.between(1, 8));
    let count = random.weighted(&[(10, 0), (8, few), (1, POSITIONS as u64)]).min((submitted - consumed) / gap);
    put::<4>(numbers, stream::PENDING, count);
    for place in 0..count {
        put::<8>(&mut lent.lists, LIST * index + 8 * place as usize, consumed + gap * (place + 1));
    }
}

/// A queue that is full, empty or between, or a closed one.
fn lay_queue(random: &mut Random, record: &mut [u8], index: usize) {
    let frames = random.below(QUEUE as u64 / 4 + 1);
    let is_open = random.percent(80);
    record[host::open(index)] = u8::from(is_open);
    let queued = random.weighted(&[(5, QUEUE as u64), (1, 0), (3, 4 * frames)]);
    put::<4>(record, host::length(index), if is_open { queued } else { 0 });
}

/// What may change between two callbacks while all that the request asks holds: the host's settings and guest memory.
fn change(random: &mut Random, lent: &mut Lent) {
    if random.percent(40) {
        lay_settings(random, &mut lent.host);
    }
    if random.percent(20) {
        let (place, is_dense) = (random.below(DESCRIPTORS * STREAMS as u64), random.flag());
        lay_descriptor(random, &mut lent.memory, place, is_dense);
        if random.percent(10) {
            spoil_descriptor(random, &mut lent.memory, place);
        }
    }
    if random.percent(5) {
        random.fill(&mut lent.memory[BUFFERS as usize..]);
    }
}

/// What a guest that goes on running and its host call beside, mostly such as an interrupt's handler does. None of it adds to the deferred frames; a write anywhere may stop a stream, or the
/// controller, and what the request asks then no longer holds.
fn go_on(random: &mut Random, lent: &mut Lent) {
    let (status, anywhere) = (0x83 + 32 * random.below(STREAMS as u64), random.below(0x100));
    let offset = random.weighted(&[(16, status), (16, 0x24), (16, 0x5d), (1, anywhere)]);
    lent.buffer = vec![random.byte()];
    random
        .pick(&[Call::Read(offset), Call::Write(offset), Call::BarWrite(0, offset), Call::ConfigRead(1), Call::PinPresenceChanged(3)])
        .make(lent);
    lent.buffer = random.bytes(4 * LEAST_PULL as usize);
    Call::Feed.make(lent);
}

/// What may not: the controller, a stream's registers, a downstream count that calls refuse, or the length of the pull. Gives the bytes that the pull then asks for.
fn break_condition(random: &mut Random, lent: &mut Lent) -> usize {
    let index = random.below(STREAMS as u64) as usize;
    match random.below(4) {
        0 => lay_controller(random, &mut lent.device),
        1 => lay_registers(random, &mut lent.device, index),
        2 => put::<4>(&mut lent.host, host::DOWNSTREAM, random.pick(&[2, u64::from(MAX_DOWNSTREAM) + 4])),
        _ => return random.below(4 * LEAST_PULL) as usize,
    }
    4 * LEAST_PULL as usize
}

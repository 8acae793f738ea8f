//! Machines under a timer with jitter, made at random: their descriptor lists, buffers, rings and position buffer lie over one another, so that a capture or a position changes what another stream finds, and a longer time
//! can end lower than a shorter one. And what the call is lent: mostly enough, now and then a byte too little somewhere.
use crate::any::{Handed, Lent};
use crate::bounds::{Space, Tally};
use crate::stalled::{self, put_register};
use port::Reply;
use port::layout::{BOUNDS, LISTS, QUEUE, QUEUES, STREAMS, device, get, host, put, stream};
use random::Random;

/// What lies over one another begins at multiples of this.
const STEP: u64 = 128;
const DESCRIPTOR: usize = 16;
/// The codec's nodes that capture and play.
const CONVERTERS: [usize; STREAMS] = [4, 2];
const FRAME: u64 = 1_000_000_000;

/// A machine, and one question to it; all that the request says of the call is judged.
pub fn play(random: &mut Random, tally: &mut Tally) -> Result<Reply, String> {
    let lent = start(random);
    let longest = random.pick(&[30_000, 300_000, 2_000_000]);
    ask(random, &lent, longest, tally)
}

/// One question to any machine, of a range that is mostly not longer than `most`.
pub fn ask(random: &mut Random, lent: &Lent, most: u64, tally: &mut Tally) -> Result<Reply, String> {
    let (shortest, longest) = range(random, most);
    let (reply, exhausted) = space(random, lent).judge(lent, shortest, longest)?;
    if let Some(exhausted) = exhausted {
        tally.count(&exhausted);
    }
    Ok(reply)
}

/// Shortest and longest time, now and then the wrong way round, or as far apart as can be.
fn range(random: &mut Random, most: u64) -> (u64, u64) {
    let shortest = random.below(3) * random.below(2_000_000);
    let longest = shortest + random.below(most);
    match random.below(2000) {
        0 => (shortest, u64::MAX),
        1..40 => (u64::MAX - longest, u64::MAX),
        40..80 => (longest, longest),
        80..120 => (shortest + 1, shortest),
        120..140 => (u64::MAX, shortest),
        _ => (shortest, longest),
    }
}

/// Scratch with anything in it, and the space for the result.
fn space(random: &mut Random, lent: &Lent) -> Space {
    let guest = lent.memory.len();
    let mut length = |least: usize| random.weighted(&[(60, least), (2, least + 1), (2, least + 9), (1, least.saturating_sub(1)), (1, 0)]);
    let [lists, queues, memory, into] = [LISTS, QUEUES, guest, BOUNDS].map(&mut length);
    let mut space = Space {
        lists: vec![random.byte(); lists],
        queues: vec![random.byte(); queues],
        memory: random.bytes(memory),
        into: random.bytes(into),
    };
    if random.flag() {
        // What an earlier question has left.
        space.memory.fill(0);
    }
    space
}

/// A machine of which a stream mostly runs.
pub fn start(random: &mut Random) -> Lent {
    let mut lent = stalled::start(random);
    let (size, over) = (random.pick(&[1024, 2048, 4096]), 4 * random.below(3) as usize);
    lent.memory = random.bytes(size + over);
    // From the start of memory on, or with room for a ring before them.
    let start = STEP * random.pick(&[0, 3]);
    let lists: [u64; STREAMS] = std::array::from_fn(|_| start + STEP * random.below(5));
    for index in 0..STREAMS {
        lay_stream(random, &mut lent, index, &lists);
    }
    let (position_buffer, commands, responses) = (STEP * random.below(6), STEP * random.below(8), STEP * random.below(8));
    if random.flag() {
        put_register::<8>(&mut lent.device, 0x70, position_buffer | 1);
    }
    put_register::<8>(&mut lent.device, 0x40, commands);
    put_register::<8>(&mut lent.device, 0x50, responses);
    lay_queues(random, &mut lent.queues, &lists);
    assert_eq!(lent.refusal(Handed::Machine), None, "a machine that calls take");
    lent
}

/// A list of a few descriptors, the place in it, the time and the queue.
fn lay_stream(random: &mut Random, lent: &mut Lent, index: usize, lists: &[u64]) {
    let (base, last) = (0x80 + 32 * index as u64, random.below(5));
    let place = random.below(last + 1);
    if random.percent(85) {
        put_register::<1>(&mut lent.device, base, 2);
    }
    if random.percent(80) {
        connect(random, &mut lent.device, index);
    }
    put_register::<8>(&mut lent.device, base + 0x18, lists[index]);
    put_register::<2>(&mut lent.device, base + 0xc, last);
    let mut inside = 0;
    for descriptor in 0..=last {
        let length = lay_descriptor(random, &mut lent.memory, lists, lists[index] as usize + DESCRIPTOR * descriptor as usize);
        if descriptor == place {
            inside = random.below(length);
        }
    }
    let numbers = &mut lent.device[device::stream(index)..][..device::STREAM];
    put::<2>(numbers, stream::DESCRIPTOR, place);
    put::<4>(numbers, stream::OFFSET, random.weighted(&[(6, 0), (3, inside & !3), (1, inside)]));
    let (rest, few) = (random.below(FRAME), random.below(40 * FRAME));
    put::<8>(numbers, stream::TIME, random.weighted(&[(6, rest), (3, few), (1, 8192 * FRAME)]));
    if lent.host[host::open(index)] == 1 {
        let queued = 4 * random.below(QUEUE as u64 / 4 + 1);
        put::<4>(&mut lent.host, host::length(index), random.weighted(&[(3, 0), (6, queued), (1, QUEUE as u64)]));
    }
}

/// The codec's converter takes the stream's frames, mostly at unity: what is captured is then what stands in the queue, and no silence.
fn connect(random: &mut Random, record: &mut [u8], index: usize) {
    let (format, gain) = (get::<2>(record, device::format(index)), random.weighted(&[(6, 0x4a), (1, 0x44)]));
    put_register::<1>(record, 0x82 + 32 * index as u64, 0x10);
    let node = &mut record[device::CODEC + 24 * CONVERTERS[index]..][..24];
    node[..4].fill(gain);
    node[6] = 0x10;
    put::<2>(node, 10, format);
}

/// A descriptor, whose buffer mostly lies over a list. Gives its length.
fn lay_descriptor(random: &mut Random, memory: &mut [u8], lists: &[u64], at: usize) -> u64 {
    let step = random.pick(&[4, DESCRIPTOR as u64]);
    let (anywhere, near) = (4 * random.below(memory.len() as u64 / 4), random.pick(lists) + step * random.below(128 / step));
    let frames = random.pick(&[12, 300]);
    let length = 4 * random.between(1, frames);
    let descriptor = &mut memory[at..][..DESCRIPTOR];
    put::<8>(descriptor, 0, random.weighted(&[(1, anywhere), (2, near)]));
    put::<4>(descriptor, 8, length);
    put::<4>(descriptor, 12, random.below(2));
    length
}

/// What a capture writes over a list: descriptors, or numbers that are addresses, lengths and flags, and some that lead outside.
fn lay_queues(random: &mut Random, queues: &mut [u8], lists: &[u64]) {
    let are_descriptors = random.flag();
    for group in queues.chunks_exact_mut(DESCRIPTOR) {
        if are_descriptors {
            lay_descriptor(random, group, lists, 0);
            put::<4>(group, 4, random.weighted(&[(12, 0), (1, 1)]));
        } else {
            group.chunks_exact_mut(4).for_each(|frame| lay_frame(random, frame));
        }
    }
}

fn lay_frame(random: &mut Random, frame: &mut [u8]) {
    let (small, any) = (4 * random.below(300), random.next_u64());
    put::<4>(frame, 0, random.pick(&[0, 4, 64, 256, 0x400, 1 << 20, small, any]));
}

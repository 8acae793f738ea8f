//! Machines whose streams run over descriptors of a few bytes, most of them flagged, so that completions stand as close as a guest can bring them. Only calls write the device and
//! its lists; guest memory and the host's settings change as they like.
use crate::stored;
use fuzz::any::{Call, Lent};
use port::Machine;
use port::layout::put;
use random::Random;

/// Descriptors of each stream, from address 0 on. What they lead to comes behind them.
const DESCRIPTORS: u64 = 32;
const BUFFERS: u64 = 2 * 16 * DESCRIPTORS;
const MEMORY: u64 = 4096;

/// A new device with both streams started.
pub fn start(random: &mut Random) -> Lent {
    let mut lent = Lent::of(&Machine::new(random.percent(80)), MEMORY as usize, 0);
    random.fill(&mut lent.memory);
    for place in 0..2 * DESCRIPTORS {
        let length = random.weighted(&[(6, 4), (3, 8), (2, 12), (1, 256)]);
        lay_descriptor(random, &mut lent, place, length);
    }
    lent.buffer = vec![6];
    Call::ConfigWrite(1, 0).make(&mut lent);
    lent.write(8, 4, 1);
    Call::SetDownstream(random.pick(&[0, 400, 14_336])).make(&mut lent);
    for index in 0..2 {
        run(random, &mut lent, index);
    }
    lent
}

fn lay_descriptor(random: &mut Random, lent: &mut Lent, place: u64, length: u64) {
    let descriptor = &mut lent.memory[16 * place as usize..][..16];
    put::<8>(descriptor, 0, random.between(BUFFERS, MEMORY - 256));
    put::<4>(descriptor, 8, length);
    put::<4>(descriptor, 12, u64::from(random.percent(80)));
}

/// The guest resets a stream and starts it.
fn run(random: &mut Random, lent: &mut Lent, index: u64) {
    let (last, list) = (random.below(DESCRIPTORS), 16 * DESCRIPTORS * index);
    for (offset, width, value) in [(0, 1, 1), (0, 1, 0), (8, 4, 1024), (0xc, 2, last), (0x12, 2, 0x0011), (0x18, 8, list), (0, 1, 6)] {
        lent.write(0x80 + 32 * index + offset, width, value);
    }
}

/// The next call, with its buffer; before it the guest may change a descriptor under a running stream, or start a stream anew.
pub fn next(random: &mut Random, lent: &mut Lent) -> Call {
    if random.percent(30) {
        let (place, length) = (random.below(2 * DESCRIPTORS), random.pick(&[4, 4, 4, 8, 8, 16, 1024, 6, 0]));
        lay_descriptor(random, lent, place, length);
    }
    if random.percent(10) {
        let index = random.below(2);
        run(random, lent, index);
    }
    let (call, length) = any_call(random);
    lent.buffer = if call.crowded().is_some() { stored::relisted(random, lent) } else { random.bytes(length) };
    call
}

/// A call and the bytes of its buffer.
fn any_call(random: &mut Random) -> (Call, usize) {
    let nanos = random.pick(&[0, 20_834, 41_667, 200_000, 1_000_000, 5_333_334, 1_000_000_000]);
    let (frames, downstream) = (random.between(1, 512), random.pick(&[0, 400, 2048, 14_336]));
    // Control, last descriptor or cyclic length of a stream.
    let (register, width) = random.pick(&[(0, 1), (0, 1), (0xc, 1), (8, 2)]);
    let offset = 0x80 + 32 * random.below(2) + register;
    random.weighted(&[
        (40, (Call::Advance(nanos), 0)),
        (30, (Call::Pull, 4 * frames as usize)),
        (4, (Call::Feed, 4 * frames as usize)),
        (4, (Call::Write(offset), width)),
        (4, (Call::SetDownstream(downstream), 0)),
        (2, (Call::HostNew, 0)),
        (1, (Call::SetPlaybackFails(frames % 2 == 0), 0)),
        (1, (Call::New(frames % 2 == 0), 0)),
        (4, (Call::Restore, 0)),
        (6, (Call::RestoreEmptied, 0)),
    ])
}

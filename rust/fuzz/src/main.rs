//! fuzz SEED ROUNDS: calls of any kind in any order on bytes of any length and content, most of them near a valid machine's.
//!
//! After each call: the number is one that document 01 gives here, 9 and 10 exactly where its conditions say so; a refusal has changed no byte, and any call only what
//! docs/LAYOUT.md says; a machine that a call accepted is still valid; a restored machine is the one that document 01 says, or T-09 for crowded lists. After a new device and
//! after an accepted state no list gets crowded, whatever is called, and what is then saved is not refused as such. A stall is over as soon as T-10 says, and no frame of it
//! is lost. A timer with jitter ends between just the counts that T-13 says. A call on a take returns and leaves exactly what T-02 says. Round R of a seed is round 0 of seed + R. That a call returns is seen by the run's end.
mod files;
mod running;
mod stored;

use fuzz::any::{Call, Handed, Lent, is_valid_downstream};
use fuzz::catchup::Tally;
use fuzz::{bounds, jittery, stalled, states, takes};
use port::layout::{BOUNDS, DEVICE, HOST, LIST, LISTS, MAX_STATE, POSITIONS, QUEUES, STATE, STREAMS, device, get, host, put, stream};
use port::{Machine, Reply, number};
use random::Random;
use std::collections::BTreeMap;
use std::process::ExitCode;

/// Calls of a round on a machine, on one that runs, and on takes; its machines in a stall, and the most callbacks of the host of each; changes or calls before a machine is asked about a timer with jitter at most,
/// and mostly the longest range of which it is asked.
const CALLS: usize = 40;
const RUNNING: usize = 20;
const TAKES: usize = 20;
const STALLED: usize = 2;
const CALLBACKS: u64 = 40;
const JITTERY: u64 = 4;
const JITTER: u64 = 200_000;

fn main() -> ExitCode {
    let words: Vec<Option<u64>> = std::env::args().skip(1).map(|word| word.parse().ok()).collect();
    let [Some(seed), Some(rounds)] = words[..] else {
        eprintln!("fuzz SEED ROUNDS");
        return ExitCode::from(2);
    };
    let mut seen = Seen::default();
    for round in 0..rounds {
        let seed = seed.wrapping_add(round);
        for play in [play, play_running, play_stalled, play_jittery, play_takes] {
            if let Err(error) = play(seed, &mut seen) {
                println!("fuzz {seed} 1: {error}");
                return ExitCode::FAILURE;
            }
        }
    }
    for (name, count) in &seen.calls {
        println!("{count:>9}  {name}");
    }
    println!("{:>9}  positions put into lists that were not crowded, and are not", seen.added);
    for (count, name) in seen.stalls.lines() {
        println!("{count:>9}  {name}");
    }
    for (count, name) in seen.bounds.lines() {
        println!("{count:>9}  {name}");
    }
    println!("{rounds} rounds, {} calls", seen.calls.values().sum::<u64>() + seen.stalls.calls());
    ExitCode::SUCCESS
}

/// What a run met.
#[derive(Default)]
struct Seen {
    /// Calls by kind and number.
    calls: BTreeMap<String, u64>,
    /// Positions that calls put into lists that were not crowded.
    added: u64,
    stalls: Tally,
    bounds: bounds::Tally,
}

impl Seen {
    fn count(&mut self, name: String) {
        *self.calls.entry(name).or_default() += 1;
    }
}

/// One round: a machine, and calls on it, with bytes changed between them.
fn play(seed: u64, seen: &mut Seen) -> Result<(), String> {
    let mut random = Random::new(seed);
    let mut lent = start(&mut random);
    for _ in 0..CALLS {
        if random.percent(15) {
            disturb(&mut random, &mut lent);
        }
        let call = call(&mut random);
        refill(&mut random, &mut lent, call);
        make(call, &mut lent, seen)?;
    }
    Ok(())
}

/// A round on a machine that runs, of which no record is damaged. As with takes, its random numbers are others.
fn play_running(seed: u64, seen: &mut Seen) -> Result<(), String> {
    let mut random = Random::new(seed.rotate_left(32));
    let mut lent = running::start(&mut random);
    for _ in 0..RUNNING {
        let call = running::next(&mut random, &mut lent);
        if states::has_crowded_list(&lent) {
            return Err(format!("a list is crowded before {call:?}"));
        }
        make(call, &mut lent, seen)?;
    }
    Ok(())
}

/// A round's machines in a stall. As with takes, their random numbers are others.
fn play_stalled(seed: u64, seen: &mut Seen) -> Result<(), String> {
    let mut random = Random::new(seed.swap_bytes());
    for _ in 0..STALLED {
        let most_callbacks = random.between(1, CALLBACKS);
        stalled::play(&mut random, most_callbacks, &mut seen.stalls)?;
    }
    Ok(())
}

/// A round's questions about a timer with jitter: to any bytes, to a machine that runs, and to one whose parts lie over one another. As with takes, their random numbers are others.
fn play_jittery(seed: u64, seen: &mut Seen) -> Result<(), String> {
    let mut random = Random::new(seed.rotate_left(16));
    let mut any = start(&mut random);
    for _ in 0..random.below(JITTERY) {
        disturb(&mut random, &mut any);
    }
    let mut runs = running::start(&mut random);
    for _ in 0..random.below(JITTERY) {
        running::next(&mut random, &mut runs).make(&mut runs);
    }
    let mut replies = Vec::new();
    for lent in [any, runs] {
        replies.push(jittery::ask(&mut random, &exact(&lent), JITTER, &mut seen.bounds)?);
    }
    replies.push(jittery::play(&mut random, &mut seen.bounds)?);
    for reply in replies {
        seen.count(format!("AdvanceBounds gave {}", reply.number()));
    }
    Ok(())
}

/// Makes a call and checks all that it gave and left.
fn make(call: Call, lent: &mut Lent, seen: &mut Seen) -> Result<(), String> {
    let copy = exact(lent);
    let before = std::mem::replace(lent, copy);
    let reply = call.make(lent);
    check(call, reply, &before, lent)
        .and_then(|()| check_apart(call, reply, &before, lent, seen))
        .map_err(|error| format!("{call:?} returned {:#x}: {error}", reply.0))?;
    seen.count(name(call, reply, &before, lent));
    Ok(())
}

/// How a call is counted: by what it is handed; one that takes a state by itself, with the lists that it emptied.
fn name(call: Call, reply: Reply, before: &Lent, after: &Lent) -> String {
    let number = reply.number();
    match call {
        Call::RestoreEmptied if number == number::DONE => {
            format!("{call:?} gave {number}, lists emptied: {}", emptied_lists(before, after))
        }
        Call::Restore | Call::RestoreEmptied => format!("{call:?} gave {number}"),
        _ => format!("{:?} gave {number}", call.handed()),
    }
}

/// Lists of an accepted state that the machine has in another length: they were emptied.
fn emptied_lists(before: &Lent, after: &Lent) -> usize {
    let mut numbers = device::stream(0);
    let is_emptied = |index: &usize| {
        let stored = get::<4>(&before.buffer, numbers + stream::PENDING);
        numbers += device::STREAM + 8 * stored as usize;
        stored != get::<4>(&after.device, device::stream(*index) + stream::PENDING)
    };
    (0..STREAMS).filter(is_emptied).count()
}

/// A round's calls on takes. Their random numbers are others, so that a seed's calls on a machine are what they were without these.
fn play_takes(seed: u64, seen: &mut Seen) -> Result<(), String> {
    let mut random = Random::new(!seed);
    for _ in 0..TAKES {
        let (call, before) = files::call(&mut random);
        let mut lent = before.clone();
        assert_exact([&lent.given, &lent.into]);
        let reply = call.make(&mut lent);
        let kind = if call == takes::Call::Read { "read" } else { "write" };
        seen.count(format!("Wav {kind} gave {}", reply.number()));
        let (expected, after) = call.expected(&before);
        if (reply, &lent) != (expected, &after) {
            let what = if reply == expected { "other bytes than T-02 says".into() } else { format!("not {:#x}", expected.0) };
            return Err(format!("{call:?} of {} bytes into {} returned {:#x}: {what}", before.given.len(), before.into.len(), reply.0));
        }
    }
    Ok(())
}

/// A copy, each part an allocation of its own.
fn exact(lent: &Lent) -> Lent {
    let copy = lent.clone();
    assert_exact([&copy.device, &copy.host, &copy.lists, &copy.queues, &copy.memory, &copy.buffer]);
    copy
}

/// Allocations end where the bytes end: a memory checker then sees an access beyond (rust/fuzz-checked).
fn assert_exact<const N: usize>(parts: [&Vec<u8>; N]) {
    assert!(parts.iter().all(|part| part.capacity() == part.len()), "an allocation is longer than its bytes");
}

fn check(call: Call, reply: Reply, before: &Lent, after: &Lent) -> Result<(), String> {
    let is = |holds: bool, what: &str| if holds { Ok(()) } else { Err(what.to_string()) };
    is(reply.0 >> 10 & 0x3f_ffff == 0, "a bit that means nothing is set")?;
    is(reply.number() == expected(call, before, reply), "not the number of document 01 or T-09")?;
    let (number, handed) = (reply.number(), call.handed());
    let accepted = number == number::DONE || number == number::HOST_CLOSED;
    is(accepted || before == after, "a refusal changed a byte")?;
    is(accepted || !reply.sends() && reply.value() == 0, "a refusal sends a message or has a value")?;
    is(!reply.level() || handed == Handed::Machine && before.are_records(), "a level without a device")?;
    is(!reply.sends() || handed == Handed::Machine, "a message without a device")?;
    let most = match call {
        Call::Feed | Call::Pull => before.buffer.len() / 4,
        Call::Save | Call::AdvanceBounds(..) => before.buffer.len(),
        Call::ConfigRead(_) => u32::MAX as usize,
        _ => 0,
    };
    is(reply.value() as usize <= most, "a value that cannot be")?;
    is(
        !accepted || handed == Handed::NewDevice || handed == Handed::NewHost || after.refusal(handed).is_none(),
        "the machine is no longer valid",
    )?;
    is(number != number::DONE || is_restored(call, before, after), "not the machine of the state")?;
    is(call.keeps_the_rest(reply, before, after), "more changed than the call may change")
}

/// Whether a call that took a state has left what it says; any other call takes none.
fn is_restored(call: Call, before: &Lent, after: &Lent) -> bool {
    let Some(crowded) = call.crowded() else { return true };
    let [expected, found] = [states::restored(before, crowded), Ok(after.clone())].map(|lent| lent.map(states::without_interrupts));
    expected == found
}

/// A new device's lists are not crowded, nor are those of an accepted state, and no call crowds a list that was not. So restore does not refuse as crowded what is then saved.
fn check_apart(call: Call, reply: Reply, before: &Lent, after: &Lent, seen: &mut Seen) -> Result<(), String> {
    let starts = reply.number() == number::DONE && (matches!(call, Call::New(_)) || call.crowded().is_some());
    let is_apart = |lent: &Lent| lent.refusal(Handed::Machine).is_none() && !states::has_crowded_list(lent);
    if after.refusal(Handed::Machine).is_some() || !starts && !is_apart(before) {
        return Ok(());
    }
    if !is_apart(after) {
        return Err("a list is crowded now".into());
    }
    seen.added += if starts { 0 } else { added_positions(before, after) };
    if after.saved_bytes() == STATE {
        return Ok(());
    }
    let restored = Machine::new(after.device[device::MICROPHONE] == 1).restore(&after.saved()).number;
    if restored == number::CROWDED { Err("the saved state is refused as crowded".into()) } else { Ok(()) }
}

/// Pending positions above what was submitted before.
fn added_positions(before: &Lent, after: &Lent) -> u64 {
    let added = |index: usize| {
        let numbers = device::stream(index);
        let submitted = get::<8>(&before.device, numbers + stream::SUBMITTED);
        let pending = get::<4>(&after.device, numbers + stream::PENDING) as usize;
        after.lists[LIST * index..][..8 * pending].chunks(8).filter(|position| get::<8>(position, 0) > submitted).count() as u64
    };
    (0..STREAMS).map(added).sum()
}

/// The number that document 01 or T-09 gives. Only `advance` may be refused by the host, which depends on too much to be said here.
fn expected(call: Call, before: &Lent, reply: Reply) -> u8 {
    if let Some(number) = before.refusal(call.handed()) {
        return number;
    }
    match call {
        Call::Advance(_) if reply.number() == number::HOST_CLOSED => number::HOST_CLOSED,
        Call::Feed | Call::Pull if !before.buffer.len().is_multiple_of(4) => number::ODD_FRAMES,
        Call::SetDownstream(bytes) if !is_valid_downstream(u64::from(bytes)) => number::LATENCY,
        Call::Save if before.buffer.len() < before.saved_bytes() => number::LENT_SPACE,
        Call::AdvanceBounds(shortest, longest) if shortest > longest => number::REVERSED,
        Call::AdvanceBounds(..) if before.buffer.len() < BOUNDS => number::SHORT_SPACE,
        _ => call.crowded().and_then(|crowded| states::restored(before, crowded).err()).unwrap_or(number::DONE),
    }
}

/// A machine near a valid one, or any bytes.
fn start(random: &mut Random) -> Lent {
    let memory = random.pick(&[0, 1, 15, 4096, 4100, 20_000, 65_536]);
    let mut lent = Lent::of(&Machine::new(random.flag()), memory, 0);
    random.fill(&mut lent.memory);
    // Descriptors and commands that lead somewhere: low addresses, short lengths.
    for word in lent.memory.chunks_exact_mut(16).step_by(3) {
        put::<8>(word, 0, random.below(memory as u64 + 64));
        put::<4>(word, 8, random.pick(&[4, 8, 64, 1024, 6]));
    }
    if random.percent(10) {
        random.fill(&mut lent.device);
        random.fill(&mut lent.host);
        random.fill(&mut lent.lists);
    }
    if random.percent(85) {
        // Bus mastering, without which nothing moves.
        lent.buffer = vec![6];
        Call::ConfigWrite(1, 0).make(&mut lent);
    }
    for _ in 0..random.below(40) {
        let (offset, width, value) = driver_write(random, memory as u64);
        lent.write(offset, width, value);
    }
    if random.percent(60) {
        lay_streams(random, &mut lent);
    }
    lent
}

/// A register write that a driver might make.
fn driver_write(random: &mut Random, memory: u64) -> (u64, usize, u64) {
    let (stream, address, any) = (0x80 + 32 * random.below(2), random.below(memory + 256) & !127, random.next_u64());
    let unsolicited = 0x0037_0880 | any & 63;
    let command = random.pick(&[0x000f_0000, 0x002f_000a, 0x0027_0620, 0x0022_0011, 0x0022_4811, unsolicited]);
    let cyclic = random.pick(&[64, 1024, 1028, 6, 0]);
    let format = random.pick(&[0x0011, 0x4011, 0x0811, 0x4811, 0x5911, 0]);
    random.pick(&[
        (8, 4, 0x101),
        (8, 4, any & 3),
        (0x20, 4, 0xc000_0003),
        (0x40, 8, address),
        (0x48, 2, any & 255),
        (0x4a, 2, 0),
        (0x4c, 1, 3),
        (0x50, 8, address),
        (0x5a, 2, any & 3),
        (0x5c, 1, 7),
        (0x60, 4, command),
        (0x68, 1, 1),
        (0x70, 8, address | 1),
        (stream, 1, 6),
        (stream, 1, 0x1e),
        (stream, 1, any & 31),
        (stream + 2, 1, any),
        (stream + 8, 4, cyclic),
        (stream + 0xc, 1, any & 7),
        (stream + 0x12, 2, format),
        (stream + 0x18, 8, address),
        (any >> 56, 4, any),
    ])
}

/// Counts and positions, mostly such as a stream can have; RUN and the host's opening may contradict each other.
fn lay_streams(random: &mut Random, lent: &mut Lent) {
    if lent.device.len() != DEVICE || lent.lists.len() < LISTS || lent.host.len() != HOST {
        return;
    }
    for index in 0..STREAMS {
        let numbers = device::stream(index);
        let count = random.weighted(&[(6, 0), (6, 3), (3, 200), (1, POSITIONS as u64), (1, POSITIONS as u64 + 1)]);
        let small = random.below(100_000);
        let base = random.weighted(&[(6, 0), (3, small), (1, u64::MAX - 20_000)]);
        // A record may have a crowded list, which no call refuses.
        let gap = random.weighted(&[(3, 4), (2, 1), (1, 3)]);
        put::<8>(&mut lent.device, numbers + stream::CONSUMED, base);
        put::<8>(&mut lent.device, numbers + stream::SUBMITTED, base.saturating_add(gap * count + random.below(30)));
        put::<4>(&mut lent.device, numbers + stream::PENDING, count);
        for place in 0..count.min(POSITIONS as u64) {
            put::<8>(&mut lent.lists, LIST * index + 8 * place as usize, base.saturating_add(gap * (place + 1)));
        }
        if random.percent(20) {
            lent.host[host::open(index)] ^= 1;
        }
        if random.percent(20) {
            // Closed, with openings that fail: `advance` refuses it where the stream runs.
            lent.host[host::open(index)] = 0;
            lent.host[host::PLAYBACK_FAILS] = 1;
            lent.host[host::CAPTURE_FAILS] = 1;
        }
        let length = random.pick(&[0, 4, 1024, 2044, 2048, 2052, 3]);
        if random.percent(30) && lent.host[host::open(index)] == 1 {
            put::<4>(&mut lent.host, host::length(index), length);
        }
    }
}

/// One byte, one number or one length, anywhere; or everything put right again.
fn disturb(random: &mut Random, lent: &mut Lent) {
    match random.below(9) {
        0..3 => {
            let parts = [&mut lent.device, &mut lent.host, &mut lent.lists, &mut lent.queues, &mut lent.memory];
            let part = random.below(5) as usize;
            for (place, bytes) in parts.into_iter().enumerate() {
                if place == part && !bytes.is_empty() {
                    let at = random.below(bytes.len() as u64) as usize;
                    bytes[at] = random.pick(&[0, 1, 2, 255, bytes[at] ^ 1]);
                }
            }
        }
        3 => lay_streams(random, lent),
        4 => {
            let length = random.pick(&[0, 15, 17, 16]);
            lent.host.resize(length, 0);
        }
        5 => {
            let length = random.pick(&[0, 748, 750, 749]);
            lent.device.resize(length, 0);
        }
        6 => {
            let (lists, queues) =
                (random.pick(&[LISTS, LISTS, LISTS - 1, LISTS + 1, 0]), random.pick(&[QUEUES, QUEUES, QUEUES - 1, QUEUES + 1, 0]));
            lent.lists.resize(lists, 0);
            lent.queues.resize(queues, 0);
        }
        _ => {
            let memory = std::mem::take(&mut lent.memory);
            *lent = Lent { memory, ..Lent::of(&Machine::new(true), 0, 0) };
        }
    }
}

fn call(random: &mut Random) -> Call {
    let (place, any) = (random.below(0x110), random.next_u64());
    let offset = random.weighted(&[(8, place), (1, any), (1, u64::MAX - (any & 3)), (1, 0x2084)]);
    let bar = random.pick(&[0, 0, 0, 1, u32::MAX]);
    let register = random.pick(&[0, 1, 4, 24, 25, 63, 64, any, u64::MAX / 4 + 1]);
    let nanos = random.pick(&[0, 1, 20_833, 1_000_000, 5_333_334, 1_000_000_000, u64::MAX, any]);
    let downstream = random.pick(&[0, 4, 14_336, 14_340, 2, any as u32]);
    let (inside, node) = (random.pick(&[0, 1, 2, 4, u64::MAX]), random.pick(&[3, 5, 0, 259, u32::MAX]));
    random.weighted(&[
        (1, Call::New(any & 1 != 0)),
        (1, Call::HostNew),
        (12, Call::Advance(nanos)),
        (3, Call::Read(offset)),
        (12, Call::Write(offset)),
        (2, Call::BarRead(bar, offset)),
        (3, Call::BarWrite(bar, offset)),
        (2, Call::ConfigRead(register)),
        (4, Call::ConfigWrite(register, inside)),
        (2, Call::PinPresenceChanged(node)),
        (1, Call::SetPaused(any & 7 == 0)),
        (3, Call::Save),
        (6, Call::Restore),
        (4, Call::RestoreEmptied),
        (5, Call::Feed),
        (5, Call::Pull),
        (1, Call::SetPlaybackFails(any & 3 == 0)),
        (1, Call::SetCaptureFails(any & 3 == 0)),
        (2, Call::SetDownstream(downstream)),
    ])
}

/// A buffer for the call: of any length, for a save mostly about what it needs, for a restore mostly near a state.
fn refill(random: &mut Random, lent: &mut Lent, call: Call) {
    if call.crowded().is_some() {
        lent.buffer = stored::state(random, lent);
        return;
    }
    let length = match call {
        Call::Save if lent.refusal(Handed::Machine).is_none() => {
            let needed = lent.saved_bytes();
            random.pick(&[needed, needed + 1, needed - 1, MAX_STATE, 0])
        }
        Call::Feed | Call::Pull => random.pick(&[0, 3, 4, 400, 2048, 2052, 4095]),
        _ => random.pick(&[0, 1, 1, 2, 4, 4, 4, 8, 17, 64, 300]),
    };
    lent.buffer = random.bytes(length);
}

//! Both calls that take a state on states that are cut, damaged or whole. A refusal gives document 01's number, or T-09's, the first in reading order, and changes no lent byte;
//! an accepted state leaves the records and lists that they say, and every other byte as it was. Which lists are crowded is in crowded.rs.
use fuzz::any::{Call, Lent};
use fuzz::states;
use port::layout::{LIST, POSITIONS, STATE, device, get, host, put, stream};
use port::{Machine, Message, Reply, Stream, number};

const BILLION: u64 = 1_000_000_000;
/// Each stream's counts and positions in the state. The first's last position and offset reach up to what was submitted.
const CONSUMED: u64 = 60;
const SUBMITTED: u64 = 112;
const PENDING: [[u64; 3]; 2] = [[70, 80, 100], [61, 75, 99]];
const OFFSETS: [u64; 2] = [12, 4];
/// Where each stream's numbers and its list stand in the state, and where they end.
const NUMBERS: [usize; 2] = [680, 680 + 34 + 24];
const LISTS: [usize; 2] = [NUMBERS[0] + 34, NUMBERS[1] + 34];
const ENDS: [usize; 2] = [NUMBERS[1], LISTS[1] + 24];
/// A stream's registers in a state.
const REGISTERS: [usize; 2] = [device::REGISTERS + 0x80, device::REGISTERS + 0xa0];
const FORMAT: usize = 0x12;

/// A state with something in every field, of a device with a microphone on which both streams run.
fn state() -> Vec<u8> {
    let mut state = Machine::new(true).saved().1;
    state[device::PAUSED] = 1;
    put::<4>(&mut state, device::CONFIG + 0x3c, 0x0a);
    state[device::REGISTERS + 8] = 1;
    state[device::CODEC + 24 * 3 + 8] = 0x85;
    put::<8>(&mut state, device::TICKS, 5_000_000_000);
    put::<8>(&mut state, device::REMAINDER, 77);
    put::<2>(&mut state, device::RESPONSES, 3);
    for (index, format) in [0x0011, 0x4011].into_iter().enumerate() {
        state[REGISTERS[index]] = 6;
        put::<2>(&mut state, REGISTERS[index] + FORMAT, format);
        put::<2>(&mut state, NUMBERS[index] + stream::DESCRIPTOR, 7);
        put::<4>(&mut state, NUMBERS[index] + stream::OFFSET, OFFSETS[index]);
        put::<8>(&mut state, NUMBERS[index] + stream::SUBMITTED, SUBMITTED);
        put::<8>(&mut state, NUMBERS[index] + stream::CONSUMED, CONSUMED);
        put::<8>(&mut state, NUMBERS[index] + stream::TIME, 123);
        put::<4>(&mut state, NUMBERS[index] + stream::PENDING, PENDING[index].len() as u64);
        let list = PENDING[index].iter().flat_map(|position| position.to_le_bytes());
        state.splice(LISTS[index]..LISTS[index], list);
    }
    assert_eq!(state.len(), ENDS[1]);
    state
}

/// A machine with a level, whose streams are open with frames queued, and spaces full of bytes that would show; the buffer is the state.
fn lent(microphone: bool, level: bool, state: &[u8]) -> Lent {
    let (mut machine, mut memory) = (Machine::new(microphone), [0; 64]);
    let enable = if level { [3, 0, 0, 0xc0] } else { [0; 4] };
    let writes: [(u64, &[u8]); 6] = [(8, &[1]), (0x20, &enable), (0x92, &[0x11, 0]), (0xb2, &[0x11, 0]), (0x80, &[6]), (0xa0, &[6])];
    for (offset, bytes) in writes {
        machine.write(&mut memory, offset, bytes);
    }
    let mut bytes = machine.bytes().clone();
    bytes.device[device::REGISTERS + 0xa3] = 4;
    bytes.host[host::DOWNSTREAM] = 8;
    for open in Stream::EACH.into_iter().filter(|each| machine.open(*each)) {
        put::<4>(&mut bytes.host, host::length(open.index()), 12);
    }
    let mut machine = Machine::from_bytes(bytes);
    assert_eq!((machine.write(&mut memory, 0x5000, &[]).level, machine.open(Stream::Capture)), (level, microphone));
    let mut lent = Lent::of(&machine, 64, 0);
    lent.lists.fill(0xaa);
    lent.queues.fill(0xbb);
    lent.buffer = state.to_vec();
    lent
}

fn restore(lent: &mut Lent) -> Reply {
    Call::Restore.make(lent)
}

/// The call's number, with nothing else: no byte changed, the level that was.
fn refused_by(call: Call, lent: &Lent, level: bool, what: &str) -> u8 {
    let mut after = lent.clone();
    let reply = call.make(&mut after);
    assert_eq!((reply.level(), reply.sends(), reply.value()), (level, false, 0), "{what}, {call:?}");
    assert!(reply.number() != number::DONE && after == *lent, "{what}, {call:?}: a refusal that changes nothing, {}", reply.number());
    reply.number()
}

/// The number of a state that both calls refuse alike.
fn refused(lent: &Lent, level: bool, what: &str) -> u8 {
    let [number, other] = [Call::Restore, Call::RestoreEmptied].map(|call| refused_by(call, lent, level, what));
    assert_eq!(number, other, "{what}: the call for crowded lists");
    number
}

/// What a state gives that is cut to a length and right so far.
fn cut(length: usize) -> u8 {
    let in_list = (0..2).any(|index| (LISTS[index]..ENDS[index]).contains(&length));
    if in_list { number::LIST_LENGTH } else { number::SHORT_STATE }
}

/// A wrong value, its number, and how much of the state is read when it is refused.
struct Damage {
    name: String,
    number: u8,
    read: usize,
    change: Box<dyn Fn(&mut Vec<u8>)>,
}

fn damage(name: impl Into<String>, number: u8, read: usize, change: impl Fn(&mut Vec<u8>) + 'static) -> Damage {
    Damage { name: name.into(), number, read, change: Box::new(change) }
}

fn value<const N: usize>(name: &str, number: u8, read: usize, place: usize, value: u64) -> Damage {
    damage(format!("{name} {value}"), number, read, move |state| put::<N>(state, place, value))
}

/// Every condition broken, in reading order.
fn damages() -> Vec<Damage> {
    let mut damages: Vec<Damage> =
        (0..4).map(|place| damage(format!("mark {place}"), number::WRONG_MARK, 4, move |state| state[place] ^= 0x20)).collect();
    for byte in [0, 2, 255] {
        damages.push(value::<1>("microphone", number::MICROPHONE, 5, device::MICROPHONE, byte));
    }
    for node in [2, 4] {
        for word in [0, 0x8011, 0x2011, 0x0010, 0x5811] {
            damages.push(value::<2>(&format!("format of node {node}"), number::FORMAT, 662, device::CODEC + 24 * node + 10, word));
        }
    }
    for index in 0..2 {
        damages.extend(stream_damages(index));
    }
    let end = ENDS[1];
    damages.push(damage("a byte left over", number::STATE, end + 1, |state| state.push(0)));
    for byte in [2, 255] {
        damages.push(value::<1>("pause byte", number::STATE, end, device::PAUSED, byte));
    }
    for remainder in [BILLION, u64::MAX] {
        damages.push(value::<8>("clock remainder", number::STATE, end, device::REMAINDER, remainder));
    }
    for responses in [256, 65_535] {
        damages.push(value::<2>("responses", number::STATE, end, device::RESPONSES, responses));
    }
    for place in 0..4 {
        damages.push(damage(format!("identity {place}"), number::STATE, end, move |state| state[device::CONFIG + place] ^= 1));
    }
    damages
}

/// 6, 7, 5, 8, 20.
fn stream_damages(index: usize) -> Vec<Damage> {
    let (numbers, list, end) = (NUMBERS[index], LISTS[index], ENDS[index]);
    let mut damages = Vec::new();
    // More than the bytes that follow the count, whatever stands there; and more than the limit.
    for count in [17, POSITIONS as u64 + 1, u64::from(u32::MAX)] {
        damages.push(value::<4>(&format!("count {index}"), number::LIST_LENGTH, list, numbers + stream::PENDING, count));
    }
    for (place, position) in [(0, CONSUMED), (0, 0), (1, PENDING[index][0]), (1, PENDING[index][0] - 1), (1, SUBMITTED + 1), (1, u64::MAX)]
    {
        damages.push(value::<8>(&format!("position {index}.{place}"), number::LIST_ORDER, end, list + 8 * place, position));
    }
    damages.push(value::<8>(
        &format!("consumed {index} at the first position"),
        number::LIST_ORDER,
        end,
        numbers + stream::CONSUMED,
        PENDING[index][0],
    ));
    damages.push(value::<8>(
        &format!("submitted {index} below the last"),
        number::LIST_ORDER,
        end,
        numbers + stream::SUBMITTED,
        PENDING[index][2] - 1,
    ));
    damages.push(damage(format!("format {index} 0 of a running stream"), number::FORMAT, end, move |state| {
        state[REGISTERS[index]] = 2;
        put::<2>(state, REGISTERS[index] + FORMAT, 0);
    }));
    for word in [0x8011, 0x2011, 0x5811] {
        damages.push(value::<2>(&format!("format {index}"), number::FORMAT, end, REGISTERS[index] + FORMAT, word));
    }
    damages.push(damage(format!("format {index} of a stream that does not run"), number::FORMAT, end, move |state| {
        state[REGISTERS[index]] = 0;
        put::<2>(state, REGISTERS[index] + FORMAT, 0x0010);
    }));
    for descriptor in [256, 65_535] {
        damages.push(value::<2>(&format!("descriptor {index}"), number::STREAM, end, numbers + stream::DESCRIPTOR, descriptor));
    }
    for time in [8193 * BILLION, u64::MAX] {
        damages.push(value::<8>(&format!("time {index}"), number::STREAM, end, numbers + stream::TIME, time));
    }
    damages.extend(crowded_damages(index));
    damages
}

/// 20: the second position close to one of its neighbours, or the last and the offset above what was submitted.
fn crowded_damages(index: usize) -> Vec<Damage> {
    let (numbers, list, end) = (NUMBERS[index], LISTS[index], ENDS[index]);
    let [first, _, last] = PENDING[index];
    let mut damages = Vec::new();
    for position in [first + 1, first + 3, last - 3, last - 1] {
        damages.push(value::<8>(&format!("position {index}.1"), number::CROWDED, end, list + 8, position));
    }
    for offset in [SUBMITTED - last + 1, u64::from(u32::MAX)] {
        damages.push(value::<4>(&format!("offset {index}"), number::CROWDED, end, numbers + stream::OFFSET, offset));
    }
    let submitted = last + OFFSETS[index] - 1;
    damages.push(value::<8>(&format!("submitted {index}"), number::CROWDED, end, numbers + stream::SUBMITTED, submitted));
    damages
}

#[test]
fn states_cut_anywhere() {
    for level in [false, true] {
        let state = state();
        for length in 0..state.len() {
            assert_eq!(refused(&lent(true, level, &state[..length]), level, "cut"), cut(length), "cut to {length}");
        }
    }
}

/// A wrong value gives its number as soon as it can be read, and 2, or 6 in a list, before. The call for crowded lists reads on behind one, to the end.
#[test]
fn states_damaged_and_cut() {
    let places: [usize; 28] = [
        0, 4, 5, 6, 262, 518, 662, 670, 678, 680, 682, 686, 694, 702, 710, 714, 722, 738, 740, 744, 752, 760, 768, 772, 780, 788, 796, 797,
    ];
    let whole = lent(true, true, &[]);
    for damage in damages() {
        let mut state = state();
        (damage.change)(&mut state);
        for length in places.iter().flat_map(|place| [place.saturating_sub(1), *place]).filter(|length| *length <= state.len()) {
            // A byte left over is none where it is cut.
            if damage.read == ENDS[1] + 1 && length == ENDS[1] {
                continue;
            }
            let lent = Lent { buffer: state[..length].to_vec(), ..whole.clone() };
            if length < damage.read {
                assert_eq!(refused(&lent, true, &damage.name), cut(length), "{} cut to {length}", damage.name);
            } else if damage.number != number::CROWDED {
                assert_eq!(refused(&lent, true, &damage.name), damage.number, "{} cut to {length}", damage.name);
            } else {
                assert_eq!(refused_by(Call::Restore, &lent, true, &damage.name), number::CROWDED, "{} cut to {length}", damage.name);
                emptied_or_cut(lent, length, &damage.name);
            }
        }
    }
}

/// What the call for crowded lists makes of a state with such a list: it is taken where it is whole.
fn emptied_or_cut(lent: Lent, length: usize, what: &str) {
    if length == ENDS[1] {
        accepted_by(Call::RestoreEmptied, lent);
    } else {
        assert_eq!(refused_by(Call::RestoreEmptied, &lent, true, what), cut(length), "{what} cut to {length}");
    }
}

/// Of two wrong values the one that comes first in reading order is told; both switches come last. For the call for crowded lists such a list is none.
#[test]
fn states_damaged_twice() {
    let mut whole = lent(true, false, &[]);
    whole.host[host::PLAYBACK_FAILS] = 1;
    whole.host[host::CAPTURE_FAILS] = 1;
    let damages = damages();
    for (place, first) in damages.iter().enumerate() {
        for second in &damages[place + 1..] {
            let mut state = state();
            // Where both change the same field, the first has the last word.
            (second.change)(&mut state);
            (first.change)(&mut state);
            let lent = Lent { buffer: state, ..whole.clone() };
            let what = format!("{}, then {}", first.name, second.name);
            let told = [first.number, second.number, number::HOST_CLOSED].into_iter().find(|number| *number != number::CROWDED);
            assert_eq!(refused_by(Call::Restore, &lent, false, &what), first.number, "{what}");
            assert_eq!(Some(refused_by(Call::RestoreEmptied, &lent, false, &what)), told, "{what}");
        }
    }
}

#[test]
fn consumed_above_submitted() {
    for index in 0..2 {
        let mut state = state();
        put::<8>(&mut state, NUMBERS[index] + stream::CONSUMED, SUBMITTED + 1);
        put::<4>(&mut state, NUMBERS[index] + stream::PENDING, 0);
        state.drain(LISTS[index]..ENDS[index]);
        assert_eq!(refused(&lent(true, true, &state), true, "consumed above submitted"), number::STREAM);
    }
}

#[test]
fn refused_openings() {
    for level in [false, true] {
        for (switch, stopped) in [(host::CAPTURE_FAILS, 1), (host::PLAYBACK_FAILS, 0)] {
            let mut state = state();
            let mut machine = lent(true, level, &state);
            machine.host[switch] = 1;
            assert_eq!(refused(&machine, level, "both run"), number::HOST_CLOSED);
            state[REGISTERS[stopped]] = 4;
            machine.buffer = state.clone();
            assert_eq!(refused(&machine, level, "one runs"), number::HOST_CLOSED);
            // The stream that would fail does not run.
            state[REGISTERS[stopped]] = 6;
            state[REGISTERS[1 - stopped]] = 4;
            machine.buffer = state;
            assert_eq!(accepted(machine).host[host::open(1 - stopped)], 0);
        }
    }
}

/// The machine that an accepted state leaves, after everything that document 01 and T-09 say of it was compared.
fn accepted_by(call: Call, before: Lent) -> Lent {
    let mut after = before.clone();
    let reply = call.make(&mut after);
    assert_eq!((reply.number(), reply.value()), (number::DONE, 0), "{call:?}");
    let expected = states::restored(&before, call.crowded().unwrap()).unwrap_or_else(|number| panic!("{call:?} is to give {number}"));
    assert!(states::without_interrupts(after.clone()) == states::without_interrupts(expected), "{call:?}");
    after
}

/// The machine that a state leaves which both calls take alike, to the last byte: none of its lists is crowded.
fn accepted(before: Lent) -> Lent {
    let [after, other] = [Call::Restore, Call::RestoreEmptied].map(|call| accepted_by(call, before.clone()));
    assert!(after == other);
    after
}

#[test]
fn an_accepted_state() {
    let (state, before) = (state(), lent(true, true, &state()));
    let after = accepted(before.clone());
    // The record is the state without its lists, but for what the clock and the interrupts set; nothing is asserted.
    for (place, byte) in after.device[..device::stream(0)].iter().enumerate() {
        let set = [0x24, 0x30].map(|register| device::REGISTERS + register);
        assert!(*byte == state[place] || set.iter().any(|register| (*register..register + 4).contains(&place)), "byte {place}");
    }
    assert_eq!(get::<4>(&after.device, device::REGISTERS + 0x30), 5_000_000_000 & 0xffff_ffff);
    assert_eq!(after.device[device::ASSERTED], 0);
    let mut lists = before.lists.clone();
    for index in 0..2 {
        assert_eq!(after.device[device::stream(index)..device::stream(index + 1)], state[NUMBERS[index]..LISTS[index]]);
        let list = &state[LISTS[index]..ENDS[index]];
        lists[LIST * index..][..list.len()].copy_from_slice(list);
    }
    assert!(after.lists == lists, "the rest of the lists stays");
    assert_eq!(after.host, [0, 0, 8, 0, 0, 0, 1, 0, 0, 0, 0, 1, 0, 0, 0, 0]);
    assert!((after.queues, after.memory, after.buffer) == (before.queues, before.memory, before.buffer));
}

#[test]
fn a_device_without_a_microphone_opens_no_capture() {
    let mut state = state();
    state[device::MICROPHONE] = 0;
    let mut machine = lent(false, false, &state);
    machine.host[host::CAPTURE_FAILS] = 1;
    assert_eq!(accepted(machine.clone()).host, [0, 1, 8, 0, 0, 0, 0, 0, 0, 0, 0, 1, 0, 0, 0, 0]);
    machine.host[host::PLAYBACK_FAILS] = 1;
    assert_eq!(refused(&machine, false, "playback"), number::HOST_CLOSED);
}

#[test]
fn the_later_clock_stays() {
    let state = state();
    let own = (get::<8>(&state, device::TICKS), get::<8>(&state, device::REMAINDER));
    for clock in [(0, 0), (own.0, own.1 - 1), own, (own.0, own.1 + 1), (own.0 + 1, 0), (own.0 - 1, BILLION - 1), (u64::MAX, 0)] {
        let mut machine = lent(true, false, &state);
        put::<8>(&mut machine.device, device::TICKS, clock.0);
        put::<8>(&mut machine.device, device::REMAINDER, clock.1);
        let after = accepted(machine);
        assert_eq!((get::<8>(&after.device, device::TICKS), get::<8>(&after.device, device::REMAINDER)), own.max(clock));
        assert_eq!(get::<4>(&after.device, device::REGISTERS + 0x30), own.max(clock).0 & 0xffff_ffff);
    }
}

/// What the registers and the configuration of a state say becomes a level, or a message.
#[test]
fn interrupts_after_a_restore() {
    let mut state = state();
    put::<4>(&mut state, device::REGISTERS + 0x20, 0xc000_0003);
    state[REGISTERS[1] + 3] = 4;
    let mut machine = lent(true, false, &state);
    let reply = restore(&mut machine);
    assert_eq!((reply.number(), reply.level(), reply.sends()), (number::DONE, true, false));
    assert_eq!(get::<4>(&machine.device, device::REGISTERS + 0x24), 0x8000_0002);
    state[device::CONFIG + 0x62] = 1;
    put::<8>(&mut state, device::CONFIG + 0x64, 0xfee0_1000);
    put::<2>(&mut state, device::CONFIG + 0x6c, 0x4041);
    // A message that was sent before is sent again: the latch is no part of a state.
    let mut machine = lent(true, true, &state);
    machine.device[device::ASSERTED] = 1;
    let reply = restore(&mut machine);
    assert_eq!((reply.number(), reply.level(), reply.sends()), (number::DONE, false, true));
    let record = machine.device.as_slice().try_into().unwrap();
    assert_eq!(Message::of(record), Message { address: 0xfee0_1000, data: 0x4041 });
    assert_eq!(machine.device[device::ASSERTED], 1);
}

/// Lists of 4,352 positions in both streams are taken, one more in either is not.
#[test]
fn full_lists() {
    let mut state = Machine::new(true).saved().1;
    let list = |count: u64| (1..=count).flat_map(|place| (4 * place).to_le_bytes()).collect::<Vec<u8>>();
    let full = POSITIONS as u64;
    for index in 0..2 {
        put::<8>(&mut state, device::stream(index) + stream::SUBMITTED, 4 * (full + 1));
    }
    for counts in [[full, full], [full + 1, 0], [0, full + 1], [full, full + 1]] {
        let mut state = state.clone();
        let (first, second) = (device::stream(0), device::stream(1));
        put::<4>(&mut state, first + stream::PENDING, counts[0]);
        put::<4>(&mut state, second + stream::PENDING, counts[1]);
        state.splice(STATE..STATE, list(counts[1]));
        state.splice(second..second, list(counts[0]));
        let machine = lent(true, true, &state);
        if counts == [full, full] {
            let after = accepted(machine);
            assert!(after.lists == [list(full), list(full)].concat());
        } else {
            assert_eq!(refused(&machine, true, "too many"), number::LIST_LENGTH, "{counts:?}");
        }
    }
}

/// Each of the twelve words is taken wherever a state has a format, and no other word is.
#[test]
fn every_format_word_in_every_place() {
    let places = [2, 4].map(|node| device::CODEC + 24 * node + 10).into_iter().chain(REGISTERS.map(|registers| registers + FORMAT));
    for place in places {
        let before = lent(true, false, &state());
        let mut machine = before.clone();
        for word in 0..=u64::from(u16::MAX) {
            put::<2>(&mut machine.buffer, place, word);
            if states::FORMATS.contains(&word) {
                accepted(machine.clone());
            } else {
                assert_eq!(restore(&mut machine).number(), number::FORMAT, "word {word:#06x} at {place}");
            }
        }
        machine.buffer = before.buffer.clone();
        assert!(machine == before, "refusals change nothing");
    }
}

/// A guest stores any format word; what is then saved is not taken.
#[test]
fn a_saved_state_with_an_unsupported_format() {
    for (offset, bytes) in [(0xb2, vec![0x10, 0]), (0x60, 0x0022_0010_u32.to_le_bytes().to_vec())] {
        let (mut machine, mut memory) = (Machine::new(true), [0; 64]);
        machine.write(&mut memory, 8, &[1]);
        machine.write(&mut memory, offset, &bytes);
        machine.write(&mut memory, 0x68, &[1]);
        let (_, state) = machine.saved();
        assert_eq!(machine.restore(&state).number, number::FORMAT, "written at {offset:#x}");
    }
}

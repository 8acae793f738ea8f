//! Records that break a condition, bytes that are no records, and spaces that are too short: every field and length in turn, for every call. Document 01's number
//! comes back (10 before 9), with the level that the record has, and no lent byte changes.
use fuzz::any::{Call, Handed, Lent};
use port::layout::{
    BOUNDS, DEVICE, HOST, LIST, LISTS, MAX_DOWNSTREAM, MAX_STATE, POSITIONS, QUEUE, QUEUES, device, get, host, put, stream,
};
use port::{Machine, number};

const BILLION: u64 = 1_000_000_000;
const MEMORY: usize = 4096;
/// A stream's counts in the machine that is damaged, and its pending positions.
const CONSUMED: u64 = 60;
const SUBMITTED: u64 = 100;
const PENDING: [u64; 3] = [70, 80, 100];

/// A valid machine with something in every field: both streams run with positions pending and frames queued, and the INTx level is `level`.
fn machine(level: bool) -> Machine {
    let (mut machine, mut memory) = (Machine::new(true), [0; MEMORY]);
    let enable = if level { [3, 0, 0, 0xc0] } else { [0; 4] };
    let writes: [(u64, &[u8]); 6] = [(8, &[1]), (0x20, &enable), (0x92, &[0x11, 0]), (0xb2, &[0x11, 0]), (0x80, &[6]), (0xa0, &[6])];
    for (offset, bytes) in writes {
        machine.write(&mut memory, offset, bytes);
    }
    assert_eq!((machine.set_downstream(400).number, machine.feed(&[9; 8]).value), (number::DONE, 2));
    let mut bytes = machine.bytes().clone();
    for index in 0..2 {
        bytes.device[device::REGISTERS + 0x83 + 32 * index] = 4;
        lay_stream(&mut bytes.device, &mut *bytes.lists, index, CONSUMED, SUBMITTED, &PENDING);
    }
    put::<4>(&mut bytes.host, host::length(1), 12);
    let mut machine = Machine::from_bytes(bytes);
    // A write that hits no register brings the interrupts up to date.
    let answer = machine.write(&mut memory, 0x5000, &[]);
    assert_eq!((answer.number, answer.level), (number::DONE, level));
    machine
}

fn lay_stream(record: &mut [u8], lists: &mut [u8], index: usize, consumed: u64, submitted: u64, pending: &[u64]) {
    let numbers = device::stream(index);
    put::<8>(record, numbers + stream::CONSUMED, consumed);
    put::<8>(record, numbers + stream::SUBMITTED, submitted);
    put::<4>(record, numbers + stream::PENDING, pending.len() as u64);
    for (place, position) in pending.iter().enumerate() {
        put::<8>(lists, LIST * index + 8 * place, *position);
    }
}

/// A machine's bytes with a buffer that suits the call, full of bytes that would show.
fn lent(machine: &Machine, call: Call) -> Lent {
    let buffer = match call {
        Call::Save => MAX_STATE,
        Call::AdvanceBounds(..) => BOUNDS,
        _ => 8,
    };
    let mut lent = Lent::of(machine, MEMORY, buffer);
    lent.memory.fill(0xdd);
    lent.buffer.fill(0xee);
    if call.crowded().is_some() {
        // A state that the device takes: what is refused is the machine.
        lent.buffer = machine.saved().1;
    }
    lent
}

/// Which of the lent bytes a damage is in.
#[derive(Clone, Copy, PartialEq, Eq)]
enum Place {
    Device,
    Host,
}

struct Damage {
    name: String,
    place: Place,
    /// Whether the bytes are then no record at all, which has no level.
    unreadable: bool,
    /// Whether the length is wrong, which calls that make a record see too.
    length: bool,
    damage: Box<dyn Fn(&mut Lent)>,
}

impl Damage {
    /// A record that breaks a condition.
    fn broken(place: Place, name: impl Into<String>, damage: impl Fn(&mut Lent) + 'static) -> Self {
        Self { name: name.into(), place, unreadable: false, length: false, damage: Box::new(damage) }
    }

    fn unreadable(place: Place, name: impl Into<String>, damage: impl Fn(&mut Lent) + 'static) -> Self {
        Self { unreadable: true, ..Self::broken(place, name, damage) }
    }

    /// The number and the level that a call gives, or none where it does not see the damage.
    fn refusal(&self, call: Call, short: Short, level: bool) -> Option<(u8, bool)> {
        let (sees, ten) = match call.handed() {
            Handed::Machine => (true, short != Short::Nothing),
            Handed::Host => (self.place == Place::Host, short == Short::Queues),
            Handed::NewDevice => (self.place == Place::Device && self.length, short != Short::Nothing),
            Handed::NewHost => (self.place == Place::Host && self.length, short == Short::Queues),
        };
        let shown = call.handed() == Handed::Machine && !self.unreadable && level;
        (sees || ten).then_some((if ten { number::LENT_SPACE } else { number::STATE }, shown))
    }
}

/// What is a byte too short.
#[derive(Clone, Copy, Debug, PartialEq, Eq)]
enum Short {
    Nothing,
    Lists,
    Queues,
}

impl Short {
    const EACH: [Self; 3] = [Self::Nothing, Self::Lists, Self::Queues];

    fn shorten(self, lent: &mut Lent) {
        match self {
            Self::Nothing => {}
            Self::Lists => lent.lists.truncate(LISTS - 1),
            Self::Queues => lent.queues.truncate(QUEUES - 1),
        }
    }
}

/// Every condition of a device record broken, field by field.
fn device_damages() -> Vec<Damage> {
    let mut damages = Vec::new();
    for place in 0..4 {
        damages.push(Damage::unreadable(Place::Device, format!("mark {place}"), move |lent| lent.device[device::MARK + place] ^= 1));
        for bit in 0..8 {
            damages.push(Damage::broken(Place::Device, format!("identity {place}.{bit}"), move |lent| {
                lent.device[device::CONFIG + place] ^= 1 << bit;
            }));
        }
    }
    for (name, place) in [("microphone", device::MICROPHONE), ("paused", device::PAUSED), ("asserted", device::ASSERTED)] {
        for byte in [2, 3, 128, 255] {
            damages.push(Damage::unreadable(Place::Device, format!("{name} {byte}"), move |lent| lent.device[place] = byte));
        }
    }
    for remainder in [BILLION, u64::MAX] {
        damages.push(number_damage::<8>("clock remainder", device::REMAINDER, remainder));
    }
    for responses in [256, 65_535] {
        damages.push(number_damage::<2>("responses", device::RESPONSES, responses));
    }
    for index in 0..2 {
        damages.extend(stream_damages(index));
    }
    damages
}

fn number_damage<const N: usize>(name: &str, place: usize, value: u64) -> Damage {
    Damage::broken(Place::Device, format!("{name} {value}"), move |lent| put::<N>(&mut lent.device, place, value))
}

fn stream_damages(index: usize) -> Vec<Damage> {
    let at = device::stream(index);
    let mut damages = vec![
        number_damage::<2>("descriptor", at + stream::DESCRIPTOR, 256),
        number_damage::<2>("descriptor", at + stream::DESCRIPTOR, 65_535),
        number_damage::<8>("time", at + stream::TIME, 8193 * BILLION),
        number_damage::<8>("time", at + stream::TIME, u64::MAX),
        number_damage::<8>("submitted below the last position", at + stream::SUBMITTED, SUBMITTED - 1),
        number_damage::<8>("consumed at the first position", at + stream::CONSUMED, PENDING[0]),
        number_damage::<4>("one pending more, of which the list has none", at + stream::PENDING, 4),
        number_damage::<4>("pending", at + stream::PENDING, u64::from(u32::MAX)),
    ];
    for (place, position) in [(0, CONSUMED), (0, CONSUMED - 1), (1, PENDING[0]), (1, PENDING[0] - 1), (2, PENDING[1]), (2, SUBMITTED + 1)] {
        damages.push(Damage::broken(Place::Device, format!("stream {index}: position {place} is {position}"), move |lent| {
            put::<8>(&mut lent.lists, LIST * index + 8 * place, position);
        }));
    }
    damages.push(Damage::broken(Place::Device, format!("stream {index}: consumed above submitted"), move |lent| {
        lay_stream(&mut lent.device, &mut lent.lists, index, SUBMITTED + 1, SUBMITTED, &[]);
    }));
    damages.push(Damage::broken(Place::Device, format!("stream {index}: 4,353 pending"), move |lent| {
        // As many as fit rise; the count alone is wrong.
        lay_stream(&mut lent.device, &mut lent.lists, index, 0, u64::MAX, &(1..=POSITIONS as u64).collect::<Vec<_>>());
        put::<4>(&mut lent.device, device::stream(index) + stream::PENDING, POSITIONS as u64 + 1);
    }));
    damages
}

/// Every condition of a host end record broken, field by field.
fn host_damages() -> Vec<Damage> {
    let mut damages = Vec::new();
    for (name, place) in [
        ("playback fails", host::PLAYBACK_FAILS),
        ("capture fails", host::CAPTURE_FAILS),
        ("capture open", host::open(0)),
        ("playback open", host::open(1)),
    ] {
        for byte in [2, 255] {
            damages.push(Damage::unreadable(Place::Host, format!("{name} {byte}"), move |lent| lent.host[place] = byte));
        }
    }
    for downstream in [1, 2, 3, 5, MAX_DOWNSTREAM + 4, u32::MAX - 3] {
        damages.push(Damage::broken(Place::Host, format!("downstream {downstream}"), move |lent| {
            put::<4>(&mut lent.host, host::DOWNSTREAM, u64::from(downstream));
        }));
    }
    for index in 0..2 {
        for length in [1, 2, 3, 2047, QUEUE as u64 + 4, u64::from(u32::MAX) - 3] {
            damages.push(Damage::broken(Place::Host, format!("queue {index} of {length}"), move |lent| {
                put::<4>(&mut lent.host, host::length(index), length);
            }));
        }
        damages.push(Damage::broken(Place::Host, format!("queue {index} closed, not empty"), move |lent| lent.host[host::open(index)] = 0));
    }
    damages
}

fn length_damages() -> Vec<Damage> {
    let mut damages = Vec::new();
    for length in [0, 1, DEVICE - 1, DEVICE + 1] {
        damages.push(Damage::unreadable(Place::Device, format!("device of {length}"), move |lent| lent.device.resize(length, 0)));
    }
    for length in [0, 1, HOST - 1, HOST + 1] {
        damages.push(Damage::unreadable(Place::Host, format!("host end of {length}"), move |lent| lent.host.resize(length, 0)));
    }
    damages.into_iter().map(|damage| Damage { length: true, ..damage }).collect()
}

/// Each damage, on machines of both levels, with each space short or not, for each call.
fn refused_everywhere(damages: Vec<Damage>) {
    for level in [false, true] {
        let machine = machine(level);
        for damage in &damages {
            for short in Short::EACH {
                for call in Call::EACH {
                    let Some(expected) = damage.refusal(call, short, level) else { continue };
                    let mut lent = lent(&machine, call);
                    (damage.damage)(&mut lent);
                    short.shorten(&mut lent);
                    let before = lent.clone();
                    let reply = call.make(&mut lent);
                    let came = (reply.number(), reply.level(), reply.sends(), reply.value());
                    assert_eq!(came, (expected.0, expected.1, false, 0), "{}, short {short:?}, {call:?}", damage.name);
                    assert!(lent == before, "{}, short {short:?}, {call:?}: a byte changed", damage.name);
                }
            }
        }
    }
}

#[test]
fn device_records_that_break_a_condition() {
    refused_everywhere(device_damages());
}

#[test]
fn host_end_records_that_break_a_condition() {
    refused_everywhere(host_damages());
}

#[test]
fn records_of_other_lengths() {
    refused_everywhere(length_damages());
}

#[test]
fn short_spaces_alone() {
    for level in [false, true] {
        let machine = machine(level);
        for (lists, queues) in [(LISTS - 1, QUEUES), (LISTS, QUEUES - 1), (LIST, QUEUES), (LISTS, QUEUE), (0, 0)] {
            for call in Call::EACH {
                let mut lent = lent(&machine, call);
                lent.lists.truncate(lists);
                lent.queues.truncate(queues);
                let before = lent.clone();
                let reply = call.make(&mut lent);
                let takes_lists = matches!(call.handed(), Handed::Machine | Handed::NewDevice);
                if queues < QUEUES || takes_lists {
                    let shown = call.handed() == Handed::Machine && level;
                    assert_eq!((reply.number(), reply.level(), reply.value()), (number::LENT_SPACE, shown, 0), "{lists} {queues} {call:?}");
                    assert!(lent == before, "{lists} {queues} {call:?}: a byte changed");
                } else {
                    assert_ne!(reply.number(), number::LENT_SPACE, "{call:?} is lent no lists");
                }
            }
        }
    }
}

#[test]
fn spaces_that_are_longer_serve_as_well() {
    let machine = machine(true);
    for call in Call::EACH {
        let mut exact = lent(&machine, call);
        let mut longer = exact.clone();
        longer.lists.extend([0xaa; 9]);
        longer.queues.extend([0xbb; 9]);
        let replies = [&mut exact, &mut longer].map(|lent| call.make(lent));
        assert_eq!(replies[0], replies[1], "{call:?}");
        assert_eq!((longer.lists.split_off(LISTS), longer.queues.split_off(QUEUES)), (vec![0xaa; 9], vec![0xbb; 9]), "{call:?}");
        assert!(exact == longer, "{call:?}");
    }
}

/// The largest and smallest that each condition allows: no call gives 9 or 10.
#[test]
fn records_at_the_edge_of_the_conditions() {
    let machine = machine(true);
    let edges: [fn(&mut Lent); 12] = [
        |lent| put::<8>(&mut lent.device, device::REMAINDER, BILLION - 1),
        |lent| put::<2>(&mut lent.device, device::RESPONSES, 255),
        |lent| put::<2>(&mut lent.device, device::stream(1) + stream::DESCRIPTOR, 255),
        |lent| put::<8>(&mut lent.device, device::stream(0) + stream::TIME, 8193 * BILLION - 1),
        |lent| put::<8>(&mut lent.device, device::TICKS, u64::MAX),
        |lent| lay_stream(&mut lent.device, &mut lent.lists, 0, u64::MAX, u64::MAX, &[]),
        |lent| lay_stream(&mut lent.device, &mut lent.lists, 1, 0, POSITIONS as u64, &(1..=POSITIONS as u64).collect::<Vec<_>>()),
        // Crowded lists are no matter of records.
        |lent| lay_stream(&mut lent.device, &mut lent.lists, 0, CONSUMED, SUBMITTED, &[70, 71, 74, 100]),
        |lent| put::<4>(&mut lent.device, device::stream(1) + stream::OFFSET, u64::from(u32::MAX)),
        |lent| put::<4>(&mut lent.host, host::DOWNSTREAM, u64::from(MAX_DOWNSTREAM)),
        |lent| put::<4>(&mut lent.host, host::length(1), QUEUE as u64),
        |lent| lent.device[device::ASSERTED] = 1,
    ];
    for (place, edge) in edges.iter().enumerate() {
        for call in Call::EACH {
            let mut lent = lent(&machine, call);
            edge(&mut lent);
            let reply = call.make(&mut lent);
            assert!(reply.number() == number::DONE, "edge {place}, {call:?} gave {}", reply.number());
        }
    }
}

#[test]
fn save_needs_its_bytes_and_leaves_the_rest() {
    for level in [false, true] {
        let machine = machine(level);
        let bytes = machine.bytes();
        let (list, second) = (8 * PENDING.len(), device::stream(1));
        let mut state = bytes.device[..second].to_vec();
        state.extend(&bytes.lists[..list]);
        state.extend(&bytes.device[second..device::ASSERTED]);
        state.extend(&bytes.lists[LIST..LIST + list]);
        for length in [0, 1, 747, 748, 772, state.len() - 1] {
            let mut lent = lent(&machine, Call::Save);
            lent.buffer.truncate(length);
            let before = lent.clone();
            let reply = Call::Save.make(&mut lent);
            assert_eq!((reply.number(), reply.level(), reply.value()), (number::LENT_SPACE, level, 0), "{length} bytes");
            assert!(lent == before, "{length} bytes: a byte changed");
        }
        for rest in [0, 1, 9] {
            let mut lent = lent(&machine, Call::Save);
            lent.buffer.truncate(state.len() + rest);
            let mut after = lent.clone();
            after.buffer[..state.len()].copy_from_slice(&state);
            let reply = Call::Save.make(&mut lent);
            assert_eq!((reply.number(), reply.level(), reply.value()), (number::DONE, level, state.len() as u32), "{rest} bytes more");
            assert!(lent == after, "{rest} bytes more");
        }
    }
}

#[test]
fn other_base_addresses_read_zeros_and_drop_writes() {
    let machine = machine(true);
    for bar in [1, 2, 6, 256, u32::MAX] {
        let mut lent = lent(&machine, Call::BarRead(bar, 0));
        let mut after = lent.clone();
        after.buffer.fill(0);
        let reply = Call::BarRead(bar, 0).make(&mut lent);
        assert_eq!((reply.number(), reply.level(), lent == after), (number::DONE, true, true), "read of {bar}");
        let reply = Call::BarWrite(bar, 0x20).make(&mut lent);
        assert_eq!((reply.number(), reply.level(), lent == after), (number::DONE, true, true), "write to {bar}");
    }
    assert_eq!(get::<4>(&machine.bytes().device, device::REGISTERS + 0x20), 0xc000_0003);
}

#[test]
fn odd_lengths_and_latencies_change_nothing() {
    let machine = machine(false);
    for (call, length, expected) in [
        (Call::Feed, 3, number::ODD_FRAMES),
        (Call::Pull, 2050, number::ODD_FRAMES),
        (Call::SetDownstream(MAX_DOWNSTREAM + 4), 0, number::LATENCY),
        (Call::SetDownstream(2), 0, number::LATENCY),
    ] {
        let mut lent = lent(&machine, call);
        lent.buffer.resize(length, 0xee);
        let before = lent.clone();
        let reply = call.make(&mut lent);
        assert_eq!((reply.number(), reply.value(), lent == before), (expected, 0, true), "{call:?} of {length}");
    }
}

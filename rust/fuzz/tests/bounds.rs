//! A timer with jitter (request T-13): the numbers in their order, spaces at their edges, and machines made at random, whose counts are found by exhaustion.
use fuzz::any::{Call, Lent};
use fuzz::bounds::{Exhausted, Space, Tally, cases};
use fuzz::jittery;
use port::layout::{BOUNDS, LISTS, QUEUES, STREAMS, device, host, put, stream};
use port::{Bounds, Machine, number};
use random::Random;

const MEMORY: usize = 4096;
const FRAME: u64 = 1_000_000_000;

/// A machine whose streams run at 48,000 over one buffer each; the interrupt line is as it is told.
fn running(level: bool) -> Lent {
    let mut lent = Lent::of(&Machine::new(true), MEMORY, 0);
    for index in 0..STREAMS {
        put::<8>(&mut lent.memory, 128 * index, 0x400 * (1 + index as u64));
        put::<4>(&mut lent.memory, 128 * index + 8, 1024);
    }
    lent.buffer = vec![6];
    Call::ConfigWrite(1, 0).make(&mut lent);
    lent.write(8, 4, 1);
    for index in 0..STREAMS as u64 {
        let base = 0x80 + 32 * index;
        for (offset, width, value) in [(8, 4, 1024), (0x12, 2, 0x0011), (0x18, 8, 128 * index), (0, 1, 6)] {
            assert_eq!(lent.write(base + offset, width, value).number(), number::DONE);
        }
    }
    if level {
        lent.device[device::REGISTERS + 0x83] = 4;
        assert!(lent.write(0x20, 4, 0xc000_0003).level());
    }
    lent
}

/// Makes the call and has all of it judged; the number.
fn number_of(lent: &Lent, space: &Space, shortest: u64, longest: u64) -> u8 {
    space.judge(lent, shortest, longest).unwrap().0.number()
}

#[test]
fn what_a_timer_says_within_half_a_millisecond() {
    for level in [false, true] {
        let lent = running(level);
        let (reply, exhausted) = Space::enough(MEMORY).judge(&lent, 500_000, 1_500_000).unwrap();
        let exhausted = exhausted.unwrap();
        assert_eq!((reply.number(), reply.level(), reply.sends(), reply.value()), (number::DONE, level, false, BOUNDS as u32));
        assert_eq!(exhausted.bounds, [Bounds { lowest: 96, highest: 288 }; STREAMS]);
        assert_eq!((exhausted.cases, exhausted.ends), (49, exhausted.bounds));
    }
}

#[test]
fn numbers_come_in_their_order() {
    for level in [false, true] {
        let good = running(level);
        let enough = Space::enough(MEMORY);
        let mut short = enough.clone();
        short.lists.pop();
        let mut broken = good.clone();
        put::<2>(&mut broken.device, device::RESPONSES, 256);
        let mut unlent = broken.clone();
        unlent.lists.pop();
        // Each machine and space with the times the wrong way round and the right one.
        for (lent, space, numbers) in [
            (&unlent, &short, [number::LENT_SPACE; 2]),
            (&broken, &short, [number::STATE; 2]),
            (&broken, &enough, [number::STATE; 2]),
            (&good, &short, [number::REVERSED, number::SHORT_SPACE]),
            (&good, &enough, [number::REVERSED, number::DONE]),
        ] {
            let mut own = space.clone();
            let replies = [own.ask(lent, 21, 20), own.ask(lent, 20, 21)];
            assert_eq!(replies.map(|reply| reply.number()), numbers);
            // A record that breaks a condition has a level too.
            assert_eq!(replies.map(|reply| reply.level()), [level; 2]);
            assert_eq!([number_of(lent, space, 21, 20), number_of(lent, space, 20, 21)], numbers);
        }
        let mut none = good;
        none.device.pop();
        assert_eq!(enough.clone().ask(&none, 20, 21).0, u64::from(number::STATE), "bytes that are no record have no level");
    }
}

#[test]
fn times_are_the_wrong_way_round_from_a_nanosecond_on() {
    let (lent, space) = (running(false), Space::enough(MEMORY));
    for (shortest, longest, number) in [
        (0, 0, number::DONE),
        (1, 0, number::REVERSED),
        (5, 5, number::DONE),
        (u64::MAX, u64::MAX, number::DONE),
        (u64::MAX, u64::MAX - 1, number::REVERSED),
        (1 << 63, (1 << 63) - 1, number::REVERSED),
        (1 << 32, 1, number::REVERSED),
    ] {
        assert_eq!(number_of(&lent, &space, shortest, longest), number, "{shortest} to {longest}");
    }
}

#[test]
fn each_space_at_its_edge() {
    let lent = running(true);
    let parts: [(fn(&mut Space) -> &mut Vec<u8>, usize); 4] = [
        (|space| &mut space.lists, LISTS),
        (|space| &mut space.queues, QUEUES),
        (|space| &mut space.memory, MEMORY),
        (|space| &mut space.into, BOUNDS),
    ];
    for (part, least) in parts {
        for (length, number) in [
            (0, number::SHORT_SPACE),
            (least / 2, number::SHORT_SPACE),
            (least - 1, number::SHORT_SPACE),
            (least, number::DONE),
            (least + 1, number::DONE),
            (2 * least, number::DONE),
        ] {
            let mut space = Space::enough(MEMORY);
            *part(&mut space) = vec![0xb7; length];
            // What stands behind the result, and all of a scratch that is longer, are judged too.
            assert_eq!(number_of(&lent, &space, 0, 100_000), number, "{length} of {least}");
        }
    }
    // A guest with no memory needs no scratch for it.
    let lent = Lent { memory: Vec::new(), ..lent };
    assert_eq!(number_of(&lent, &Space::enough(0), 0, 100_000), number::DONE);
}

#[test]
fn the_longest_range() {
    let lent = running(false);
    let (_, exhausted) = Space::enough(MEMORY).judge(&lent, 0, u64::MAX).unwrap();
    let exhausted = exhausted.unwrap();
    // A capture goes on with silence, and a playback until its queue is full.
    assert_eq!(exhausted.bounds, [Bounds { lowest: 0, highest: 4 * 8192 }, Bounds { lowest: 0, highest: 2048 }]);
    assert_eq!(exhausted.cases, 8193);
}

#[test]
fn counts_at_the_end_of_64_bits() {
    let mut lent = running(false);
    for index in 0..STREAMS {
        for place in [stream::SUBMITTED, stream::CONSUMED] {
            put::<8>(&mut lent.device, device::stream(index) + place, u64::MAX - 43);
        }
    }
    // Ten frames fit, and no count begins again at 0.
    let (_, exhausted) = Space::enough(MEMORY).judge(&lent, 0, 1_000_000).unwrap();
    for Bounds { lowest, highest } in exhausted.unwrap().bounds {
        assert!(lowest >= u64::MAX - 43 && highest >= lowest, "{lowest} to {highest}");
    }
}

#[test]
fn openings_are_taken_as_ones_that_succeed() {
    let mut lent = running(false);
    let expected = Exhausted::of(&lent, 0, 1_000_000).bounds;
    for index in 0..STREAMS {
        lent.host[host::open(index)] = 0;
    }
    lent.host[host::PLAYBACK_FAILS] = 1;
    lent.host[host::CAPTURE_FAILS] = 1;
    let (_, exhausted) = Space::enough(MEMORY).judge(&lent, 0, 1_000_000).unwrap();
    assert_eq!(exhausted.unwrap().bounds, expected);
    assert_eq!(Call::Advance(1_000_000).make(&mut lent).number(), number::HOST_CLOSED);
}

#[test]
fn machines_that_stand_still() {
    let moves = running(false);
    let still: [fn(&mut Lent); 5] = [
        |lent| lent.device[device::PAUSED] = 1,
        |lent| lent.device[device::CONFIG + 4] = 2,
        |lent| lent.device[device::REGISTERS + 8] = 0,
        |lent| lent.device[device::REGISTERS + 0x38] = 3,
        |lent| (0..STREAMS).for_each(|index| put::<2>(&mut lent.device, device::format(index), 0)),
    ];
    for (place, change) in still.iter().enumerate() {
        let mut lent = moves.clone();
        change(&mut lent);
        let (_, exhausted) = Space::enough(MEMORY).judge(&lent, 0, 2_000_000).unwrap();
        assert_eq!(exhausted.unwrap().bounds, [Bounds { lowest: 0, highest: 0 }; STREAMS], "{place}");
    }
}

#[test]
fn frames_that_are_deferred_already_count() {
    let mut lent = running(false);
    put::<8>(&mut lent.device, device::stream(1) + stream::TIME, 100 * FRAME + FRAME / 2);
    let (_, exhausted) = Space::enough(MEMORY).judge(&lent, 0, 10_417).unwrap();
    assert_eq!(exhausted.unwrap().bounds[1], Bounds { lowest: 400, highest: 404 });
}

#[test]
fn every_nanosecond_of_short_ranges() {
    let mut random = Random::new(13);
    for _ in 0..40 {
        let lent = jittery::start(&mut random);
        let all = cases(&lent.device, 0, 400_000);
        for (first, _) in all {
            let (shortest, longest) = (first.saturating_sub(3), first + 3);
            let each = (shortest..=longest).map(|nanos| Exhausted::of(&lent, nanos, nanos).bounds);
            let expected = each.reduce(|one, next| {
                std::array::from_fn(|index| Bounds {
                    lowest: one[index].lowest.min(next[index].lowest),
                    highest: one[index].highest.max(next[index].highest),
                })
            });
            let (_, exhausted) = Space::enough(lent.memory.len()).judge(&lent, shortest, longest).unwrap();
            assert_eq!(exhausted.map(|exhausted| exhausted.bounds), expected, "{shortest} to {longest}");
        }
    }
}

/// Machines made at random, as many as it says; what they came to.
fn machines(seed: u64, count: u64) -> Tally {
    let (mut random, mut tally) = (Random::new(seed), Tally::default());
    for place in 0..count {
        jittery::play(&mut random, &mut tally).unwrap_or_else(|error| panic!("machine {place} of seed {seed}: {error}"));
    }
    tally
}

#[test]
fn machines_at_random() {
    let tally = machines(1, 2000);
    assert!(tally.wrong_ends.iter().all(|wrong| *wrong >= 5), "{:?}", tally.lines());
    assert!(tally.moving.iter().all(|moving| *moving >= 400), "{:?}", tally.lines());
}

/// `cargo test --release -p fuzz --test bounds -- --ignored --nocapture`
#[test]
#[ignore = "some minutes"]
fn many_machines() {
    for (count, name) in machines(2, 100_000).lines() {
        println!("{count:>9}  {name}");
    }
}

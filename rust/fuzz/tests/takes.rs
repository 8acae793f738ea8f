//! The two calls on takes beside [`fuzz::takes`], on every small length and space, every rate to 200,000 and any two changed bits of a header; and what that module says itself.
use fuzz::takes::{Call, HEADER, Lent, RATES, fields, header};
use port::{WavReply, number};

/// Bytes of the frames in the largest file.
const MOST: usize = 4_294_967_256;

/// What a call on bytes and a space returns, which with all lent bytes is what the module says.
fn reply(call: Call, given: &[u8], space: usize) -> WavReply {
    let before = Lent { given: given.to_vec(), into: vec![0xee; space] };
    let mut after = before.clone();
    let reply = call.make(&mut after);
    assert!((reply, after) == call.expected(&before), "{call:?} of {} bytes into {space} returned {:#x}", given.len(), reply.0);
    reply
}

fn bytes(length: usize) -> Vec<u8> {
    (1..=length as u8).collect()
}

/// A file or what is near one, its sizes those of its length.
fn file(rate: u32, length: usize) -> Vec<u8> {
    [fields(rate, length as u32).as_slice(), &bytes(length)].concat()
}

#[test]
fn a_take_of_one_frame() {
    let file = b"RIFF\x28\0\0\0WAVEfmt \x10\0\0\0\x01\0\x02\0\x88\x58\x01\0\x20\x62\x05\0\x04\0\x10\0data\x04\0\0\0\x0a\x0b\x0c\x0d";
    let outcome = |call: Call, given: &[u8], into: &[u8]| {
        let (reply, after) = call.expected(&Lent { given: given.to_vec(), into: into.to_vec() });
        assert_eq!(after.given, given);
        (reply.0, after.into)
    };
    let (frame, rest) = (&file[HEADER..], [0xee; 3]);
    let full = [file.as_slice(), &rest].concat();
    assert_eq!(outcome(Call::Write(88_200), frame, &[0xee; 51]), (0x1588_8000_0000_3000, full));
    assert_eq!(outcome(Call::Read, file, &[0xee; 7]), (0x1588_8000_0000_0400, [frame, &rest].concat()));
    assert_eq!(outcome(Call::Write(88_200), frame, &[0xee; 47]), (14, vec![0xee; 47]));
    assert_eq!(outcome(Call::Read, file, &[0xee; 3]), (14, vec![0xee; 3]));
    assert_eq!(outcome(Call::Write(88_201), frame, &[]), (13, vec![]));
    assert_eq!(outcome(Call::Read, &file[..47], &[]), (13, vec![]));
}

#[test]
fn which_takes_have_a_header() {
    let lengths = |lengths: &[usize]| lengths.iter().map(|length| header(96_000, *length).is_some()).collect::<Vec<_>>();
    assert_eq!(lengths(&[0, 1, 2, 3, 4, 5, 6, 7, 8]), [true, false, false, false, true, false, false, false, true]);
    assert_eq!(lengths(&[MOST - 4, MOST - 1, MOST, MOST + 1, MOST + 3, MOST + 4]), [true, false, true, false, false, false]);
    assert_eq!(lengths(&[(1 << 32) - 4, 1 << 32, (1 << 32) + 4]), [false; 3]);
    let largest = header(96_000, MOST).unwrap();
    assert_eq!([&largest[4..8], &largest[40..]], [[0xfc, 0xff, 0xff, 0xff], [0xd8, 0xff, 0xff, 0xff]]);
    assert_eq!(
        [44_099, 44_100, 48_000, 88_200, 96_000, 176_400].map(|rate| header(rate, 4).is_some()),
        [false, true, true, true, true, false]
    );
}

#[test]
fn every_small_length_and_space() {
    for rate in RATES.into_iter().chain([0, 44_101, u32::MAX]) {
        for length in 0..=20 {
            for space in 0..=HEADER + 24 {
                reply(Call::Write(rate), &bytes(length), space);
                reply(Call::Read, &file(rate, length), space);
            }
        }
    }
}

#[test]
fn every_cut_and_tail() {
    let longer = [file(88_200, 20), bytes(8)].concat();
    for length in 0..=longer.len() {
        let is_file = length == HEADER + 20;
        for space in [0, 19, 20, 28, HEADER + 20] {
            let number = if !is_file {
                number::WAV
            } else if space < 20 {
                number::SHORT_SPACE
            } else {
                number::DONE
            };
            assert_eq!(reply(Call::Read, &longer[..length], space).number(), number, "{length} bytes into {space}");
        }
    }
}

#[test]
fn every_size_for_every_small_length() {
    for length in 0..=20 {
        for size in (0..=40).chain(u32::MAX - 60..=u32::MAX) {
            let changed = [fields(48_000, size).as_slice(), &bytes(length)].concat();
            let is_file = size as usize == length && length.is_multiple_of(4);
            assert_eq!(reply(Call::Read, &changed, length).number(), if is_file { number::DONE } else { number::WAV });
        }
    }
}

#[test]
fn every_rate_to_200_000_and_beyond() {
    let higher = RATES.into_iter().flat_map(|rate| (18..32).map(move |bit| rate | 1 << bit));
    for rate in (0..=200_000).chain(higher) {
        let number = if RATES.contains(&rate) { number::DONE } else { number::WAV };
        assert_eq!(reply(Call::Write(rate), &bytes(4), 50).number(), number, "{rate}");
        assert_eq!(reply(Call::Read, &file(rate, 4), 5).number(), number, "{rate}");
        let mut rate_alone = file(44_100, 4);
        rate_alone[24..28].copy_from_slice(&rate.to_le_bytes());
        assert_eq!(reply(Call::Read, &rate_alone, 5).number(), if rate == 44_100 { number::DONE } else { number::WAV }, "{rate}");
    }
}

#[test]
fn any_two_changed_bits_make_it_no_file() {
    let good = file(96_000, 8);
    for one in 0..8 * HEADER {
        for other in 0..=one {
            let mut changed = good.clone();
            changed[one / 8] ^= 1 << (one % 8);
            if other < one {
                changed[other / 8] ^= 1 << (other % 8);
            }
            assert_eq!(reply(Call::Read, &changed, 60).number(), number::WAV, "bits {one} and {other}");
        }
    }
}

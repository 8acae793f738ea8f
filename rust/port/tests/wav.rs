//! Takes written as WAV files and read back, and what the two calls refuse: 13 before 14, and no byte changed.
use port::format::RATES;
use port::layout::put;
use port::wav::{self, HEADER, MAX_FRAMES, Take};
use port::{WavReply, calls, number};

/// Where numbers stand in the header.
const RIFF_SIZE: usize = 4;
const RATE: usize = 24;
const BYTE_RATE: usize = 28;
const DATA_SIZE: usize = 40;
/// What fills a space before a call, so that what the call leaves shows.
const FILLER: u8 = 0xee;

/// A reply that accepts.
fn done(rate: u32, bytes: usize) -> WavReply {
    WavReply(u64::from(rate) << 44 | (bytes as u64) << 8)
}

/// A reply that refuses: the number alone.
fn refusal(number: u8) -> WavReply {
    WavReply(u64::from(number))
}

/// What a call returns on a space, and the space as it leaves it.
fn called(space: usize, call: impl FnOnce(&mut [u8]) -> WavReply) -> (WavReply, Vec<u8>) {
    let mut into = vec![FILLER; space];
    (call(&mut into), into)
}

fn written(rate: u32, frames: &[u8], space: usize) -> (WavReply, Vec<u8>) {
    called(space, |into| calls::wav_write(rate, frames, into))
}

fn read(file: &[u8], space: usize) -> (WavReply, Vec<u8>) {
    called(space, |into| calls::wav_read(file, into))
}

/// The outcome of a call that refuses.
fn refused(number: u8, space: usize) -> (WavReply, Vec<u8>) {
    (refusal(number), vec![FILLER; space])
}

/// Whether bytes are read as no file, into spaces that are too short, exact and too long for what is behind a header.
fn is_no_file(bytes: &[u8]) -> bool {
    let behind = bytes.len().saturating_sub(HEADER);
    let mut spaces = [0, behind.saturating_sub(1), behind, behind + 1, behind + HEADER].into_iter();
    spaces.all(|space| read(bytes, space) == refused(number::WAV, space))
}

/// Bytes of which neighbours differ.
fn frames(length: usize) -> Vec<u8> {
    (0..length).map(|place| (place * 7 + 1) as u8).collect()
}

fn file(rate: u32, length: usize) -> Vec<u8> {
    wav::file(rate, &frames(length)).unwrap()
}

/// Lays both sizes as a header has them for `size` bytes of frames.
fn put_sizes(file: &mut [u8], size: usize) {
    put::<4>(file, RIFF_SIZE, size.wrapping_add(36) as u64);
    put::<4>(file, DATA_SIZE, size as u64);
}

#[test]
fn headers_are_those_written_out() {
    // Two frames at 44,100, three at 96,000.
    let slow = b"RIFF\x2c\0\0\0WAVEfmt \x10\0\0\0\x01\0\x02\0\x44\xac\0\0\x10\xb1\x02\0\x04\0\x10\0data\x08\0\0\0";
    let fast = b"RIFF\x30\0\0\0WAVEfmt \x10\0\0\0\x01\0\x02\0\0\x77\x01\0\0\xdc\x05\0\x04\0\x10\0data\x0c\0\0\0";
    for (rate, length, header) in [(44_100, 8, slow), (96_000, 12, fast)] {
        let expected = [header.as_slice(), &frames(length)].concat();
        assert_eq!(written(rate, &frames(length), HEADER + length), (done(rate, HEADER + length), expected.clone()));
        assert_eq!(read(&expected, length), (done(rate, length), frames(length)));
    }
}

#[test]
fn takes_come_back() {
    for rate in RATES {
        for length in [0, 4, 8, 252, 256, 260, 65_500, 65_536, 1_000_000] {
            let file = file(rate, length);
            assert_eq!(file.len(), HEADER + length);
            assert_eq!(wav::take(&file), Ok(Take { rate, frames: frames(length) }));
        }
    }
}

#[test]
fn any_other_byte_in_the_header_makes_it_no_file() {
    for rate in RATES {
        let good = file(rate, 8);
        for place in 0..HEADER {
            for byte in (0..=255).filter(|byte| *byte != good[place]) {
                let mut changed = good.clone();
                changed[place] = byte;
                assert!(is_no_file(&changed), "{rate}: byte {place} is {byte}");
            }
        }
    }
}

#[test]
fn a_write_takes_no_other_rate() {
    let beside = RATES.into_iter().flat_map(|rate| [rate - 1, rate + 1]);
    for rate in beside.chain([0, 1, 22_050, 32_000, 176_400, 192_000, 44_100 + 65_536, u32::MAX]) {
        for space in [0, HEADER, HEADER + 7, HEADER + 8, HEADER + 9] {
            assert_eq!(written(rate, &frames(8), space), refused(number::WAV, space), "{rate}");
        }
    }
}

#[test]
fn a_write_takes_whole_frames() {
    for length in (1..8).filter(|length| *length != 4) {
        for space in [0, HEADER, HEADER + length - 1, HEADER + length, HEADER + 8] {
            assert_eq!(written(48_000, &frames(length), space), refused(number::WAV, space), "{length} bytes into {space}");
        }
    }
}

#[test]
fn a_write_fills_what_it_needs_and_no_more() {
    for (rate, length) in RATES.into_iter().zip([0, 4, 8, 400]) {
        let expected = file(rate, length);
        let needed = expected.len();
        for space in [0, 1, HEADER - 1, needed - 1] {
            assert_eq!(written(rate, &frames(length), space), refused(number::SHORT_SPACE, space));
        }
        for over in [0, 1, 50] {
            let kept = vec![FILLER; over];
            assert_eq!(written(rate, &frames(length), needed + over), (done(rate, needed), [expected.as_slice(), &kept].concat()));
        }
    }
}

#[test]
fn a_read_fills_what_it_needs_and_no_more() {
    for (rate, length) in RATES.into_iter().zip([0, 4, 8, 400]) {
        let file = file(rate, length);
        for space in [0, 1, length / 2, length.saturating_sub(1)].into_iter().filter(|space| *space < length) {
            assert_eq!(read(&file, space), refused(number::SHORT_SPACE, space));
        }
        for over in [0, 1, HEADER, 50] {
            let kept = vec![FILLER; over];
            assert_eq!(read(&file, length + over), (done(rate, length), [frames(length), kept].concat()));
        }
    }
}

#[test]
fn a_file_ends_with_its_frames() {
    for rate in RATES {
        let good = file(rate, 8);
        for length in 0..good.len() {
            assert!(is_no_file(&good[..length]), "cut to {length}");
        }
        for over in 1..=8 {
            assert!(is_no_file(&[good.as_slice(), &frames(over)].concat()), "{over} bytes behind");
        }
        // Behind a header of no frames.
        for over in 1..=4 {
            assert!(is_no_file(&[file(rate, 0), frames(over)].concat()), "{over} bytes behind");
        }
    }
}

#[test]
fn sizes_are_those_of_the_length() {
    for (rate, length) in RATES.into_iter().zip([0_usize, 4, 8, 400]) {
        let good = file(rate, length);
        let beside = (1..=8).flat_map(|by| [length.wrapping_sub(by), length + by]);
        for size in beside.chain([length + 256, length + 65_536, MAX_FRAMES, MAX_FRAMES + 4]) {
            let mut changed = good.clone();
            put_sizes(&mut changed, size);
            assert!(is_no_file(&changed), "{size} for {length}");
        }
    }
}

#[test]
fn a_file_has_whole_frames() {
    for length in 0_usize..=48 {
        let mut file = [file(88_200, 0), frames(length)].concat();
        put_sizes(&mut file, length);
        if length.is_multiple_of(4) {
            assert_eq!(read(&file, length), (done(88_200, length), frames(length)));
        } else {
            assert!(is_no_file(&file), "{length} bytes of frames");
        }
    }
}

#[test]
fn a_file_has_a_listed_rate_and_its_byte_rate() {
    let good = file(44_100, 8);
    // In 32 bits the byte rate of 44,100 + 2^30 is that of 44,100.
    for rate in RATES.into_iter().chain([0, 1, 22_050, 44_099, 48_001, 176_400, 1 << 30, 44_100 + (1 << 30), u32::MAX]) {
        let (mut changed, mut consistent) = (good.clone(), good.clone());
        put::<4>(&mut changed, RATE, u64::from(rate));
        assert!(changed == good || is_no_file(&changed), "the rate alone is {rate}");
        put::<4>(&mut consistent, BYTE_RATE, u64::from(rate.wrapping_mul(4)));
        assert!(consistent == good || is_no_file(&consistent), "the byte rate alone is that of {rate}");
        put::<4>(&mut consistent, RATE, u64::from(rate));
        if RATES.contains(&rate) {
            assert_eq!(read(&consistent, 8), (done(rate, 8), frames(8)));
        } else {
            assert!(is_no_file(&consistent), "{rate}");
        }
    }
}

#[test]
fn takes_in_memory_of_their_own_are_refused_by_number() {
    assert_eq!(wav::file(44_101, &frames(4)), Err(number::WAV));
    assert_eq!(wav::file(44_100, &frames(5)), Err(number::WAV));
    for length in [0, 43, 44, 45] {
        assert_eq!(wav::take(&frames(length)), Err(number::WAV));
    }
}

/// Whether all bytes are 0, by comparison of pieces: quick without optimization too.
fn are_zeros(bytes: &[u8]) -> bool {
    let zeros = [0; 65_536];
    bytes.chunks(zeros.len()).all(|piece| *piece == zeros[..piece.len()])
}

/// Bytes of the frames in the largest file, and of a buffer for the tests of it: sizes of 32 bits wrap there to those of no frames.
const MOST: usize = 4_294_967_256;
const WRAPPED: usize = 1 << 32;

/// Both calls where lengths, sizes and replies need the most bits. The frames take hardly any memory, since most are zeros that nothing writes.
#[test]
#[ignore = "takes 8.6 GB of memory and half a minute"]
fn the_largest_file() {
    let mut file = largest_written();
    let mut frames = vec![0; MOST + 1];
    assert_eq!(calls::wav_read(&file[..HEADER + MOST], &mut frames[..MOST - 1]), refusal(number::SHORT_SPACE));
    assert!(are_zeros(&frames), "a refusal changed a byte");
    frames[MOST] = FILLER;
    assert_eq!(calls::wav_read(&file[..HEADER + MOST], &mut frames), done(96_000, 4_294_967_256));
    // A frame and a byte less and more than the sizes say; then a frame too many, and 2^32 bytes, with the low bits of their sizes.
    for length in [MOST - 4, MOST - 1, MOST + 1, MOST + 4] {
        assert_eq!(calls::wav_read(&file[..HEADER + length], &mut frames), refusal(number::WAV), "{length}");
    }
    for length in [MOST + 4, WRAPPED] {
        put_sizes(&mut file, length);
        assert_eq!(calls::wav_read(&file[..HEADER + length], &mut frames), refusal(number::WAV), "{length}");
    }
    assert!(frames[..MOST] == file[HEADER..][..MOST] && frames[MOST] == FILLER, "not the frames, or a refusal changed a byte");
}

/// The largest file in the start of a buffer.
fn largest_written() -> Vec<u8> {
    let mut frames = vec![0; WRAPPED];
    let middle = 1 << 31;
    let marked = [0, 4, middle - HEADER - 4, middle - HEADER, middle - 4, middle, MOST - HEADER, MOST - 4];
    for (index, place) in marked.into_iter().enumerate() {
        frames[place..place + 4].fill(index as u8 + 1);
    }
    let mut file = vec![0; HEADER + WRAPPED];
    for length in [MOST + 1, MOST + 4, MOST + 8, WRAPPED] {
        assert_eq!(calls::wav_write(96_000, &frames[..length], &mut file), refusal(number::WAV), "{length}");
    }
    assert_eq!(calls::wav_write(96_000, &frames[..MOST], &mut file[..HEADER + MOST - 1]), refusal(number::SHORT_SPACE));
    assert!(are_zeros(&file), "a refusal changed a byte");
    file[HEADER + MOST] = FILLER;
    assert_eq!(calls::wav_write(96_000, &frames[..MOST], &mut file), done(96_000, 4_294_967_300));
    let header = b"RIFF\xfc\xff\xff\xffWAVEfmt \x10\0\0\0\x01\0\x02\0\0\x77\x01\0\0\xdc\x05\0\x04\0\x10\0data\xd8\xff\xff\xff";
    assert_eq!(file[..HEADER], *header);
    assert!(file[HEADER..][..MOST] == frames[..MOST], "not the frames");
    assert!(file[HEADER + MOST] == FILLER && are_zeros(&file[HEADER + MOST + 1..]), "the rest changed");
    file
}

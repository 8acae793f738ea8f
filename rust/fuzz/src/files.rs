//! Random calls on takes: rates, lengths and spaces mostly near such as are accepted, and files good or wrong in one way.
use fuzz::takes::{Call, HEADER, Lent, RATES, fields};
use random::Random;

/// Where a header has its two sizes, and where the rate and the bytes a second.
const SIZES: [usize; 2] = [4, 40];
const RATE_FIELDS: [usize; 2] = [24, 28];

/// A call and what it is lent.
pub fn call(random: &mut Random) -> (Call, Lent) {
    let (call, given) = if random.flag() { (Call::Write(rate(random)), frames(random)) } else { (Call::Read, file(random)) };
    let needed = match call {
        Call::Write(_) => given.len() + HEADER,
        Call::Read => given.len().saturating_sub(HEADER),
    };
    let any = random.below(needed as u64 + 60) as usize;
    let [byte_less, frame_less] = [1, 4].map(|by| needed.saturating_sub(by));
    let space = random.weighted(&[(6, needed), (3, needed + 1), (2, needed + HEADER), (3, byte_less), (1, frame_less), (1, any), (1, 0)]);
    (call, Lent { given, into: random.bytes(space) })
}

/// A rate, mostly of the list.
fn rate(random: &mut Random) -> u32 {
    let listed = random.pick(&RATES);
    if random.percent(70) { listed } else { other_rate(random, listed) }
}

/// A rate in the place of a listed one: any of the list, one near it, one that differs in a bit, or any number.
fn other_rate(random: &mut Random, listed: u32) -> u32 {
    let (another, bit, any) = (random.pick(&RATES), 1 << random.below(32), random.next_u64() as u32);
    random.pick(&[another, another, another, listed - 1, listed + 1, 2 * listed, listed / 2, listed ^ bit, 0, any])
}

/// Frames, mostly whole ones.
fn frames(random: &mut Random) -> Vec<u8> {
    let (few, some, many) = (random.below(20), random.below(300), random.below(20_000));
    let whole = 4 * random.weighted(&[(3, 0), (12, few), (4, some), (1, many)]);
    let length = if random.percent(80) { whole } else { whole + random.between(1, 3) };
    random.bytes(length as usize)
}

/// A file of whole frames, or of a part of one more, changed in one way or not; or any bytes.
fn file(random: &mut Random) -> Vec<u8> {
    let (listed, frames) = (random.pick(&RATES), frames(random));
    let size = frames.len() as u32;
    let other = fields(other_rate(random, listed), other_size(random, size));
    let mut file = [fields(listed, size).as_slice(), &frames].concat();
    let mut exchange = |places: &[usize]| {
        for place in places {
            file[*place..][..4].copy_from_slice(&other[*place..][..4]);
        }
    };
    match random.below(12) {
        0 | 1 => {
            let place = random.below(HEADER as u64) as usize;
            file[place] ^= random.between(1, 255) as u8;
        }
        2 => exchange(&SIZES),
        3 => exchange(&RATE_FIELDS),
        4 => exchange(&[random.pick(&[SIZES, RATE_FIELDS].concat())]),
        5 => {
            let (any, byte_less) = (random.below(file.len() as u64), file.len() as u64 - 1);
            file.truncate(random.pick(&[any, any.min(48), byte_less, byte_less - 3]) as usize);
        }
        6 => {
            let count = random.between(1, 8) as usize;
            file.extend(random.bytes(count));
        }
        7 => {
            let length = random.below(60) as usize;
            file = random.bytes(length);
        }
        _ => {}
    }
    file
}

/// Another size than the one of the frames, which are fewer than 2^20 bytes.
fn other_size(random: &mut Random, size: u32) -> u32 {
    let (by, bit, any) = (random.between(1, 8) as u32, 1 << random.below(32), random.next_u64() as u32);
    random.pick(&[size.wrapping_sub(by), size + by, size.wrapping_sub(4), size + 4, size ^ bit, any | 1 << 20])
}

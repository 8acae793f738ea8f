//! Which saved states a device takes and what an accepted one leaves, for tests: written from document 01's text ("Numbers returned"), in its reading order, and from
//! request T-09's, which refuses crowded lists and has a call of its own for them.
use crate::any::Lent;
use port::layout::{LIST, POSITIONS, STREAMS, device, get, host, put, stream};
use port::number;

/// The words of document 01's list, and those of T-01.
pub const FORMATS: [u64; 12] = [0x0011, 0x0811, 0x0911, 0x1211, 0x1911, 0x1b11, 0x4011, 0x4911, 0x5211, 0x5b11, 0x4811, 0x5911];
/// A stream's registers, in the registers.
const fn registers(index: usize) -> usize {
    0x80 + 32 * index
}
/// Its format word, in a stream's registers.
const FORMAT: usize = 0x12;

/// What becomes of crowded lists.
#[derive(Clone, Copy, Debug, PartialEq, Eq)]
pub enum Crowded {
    /// Number 20, by restore.
    Refused,
    /// They are taken as empty ones, by the call for such states.
    Emptied,
}

/// What the one or the other call leaves of a machine that passes the check of every call, or the number by which the state in its buffer is refused.
///
/// Left out is what follows from the rest by the interrupt update at the end of the call: register 0x24, bit 3 of configuration byte 6, and whether a message was sent.
pub fn restored(lent: &Lent, crowded: Crowded) -> Result<Lent, u8> {
    let mut reader = Reader(&lent.buffer);
    let mut after = lent.clone();
    let head = reader.head(lent.device[device::MICROPHONE])?;
    for index in 0..STREAMS {
        let (numbers, list) = reader.stream(index, &head[device::REGISTERS..])?;
        put_stream(&mut after, index, numbers, list, crowded)?;
    }
    let is_same_identity = head[device::CONFIG..][..4] == lent.device[device::CONFIG..][..4];
    let is_good = head[device::PAUSED] <= 1 && remainder(head) < 1_000_000_000 && get::<2>(head, device::RESPONSES) <= 255;
    is(reader.0.is_empty() && is_good && is_same_identity, number::STATE)?;
    for index in 0..STREAMS {
        let runs = head[device::REGISTERS + registers(index)] & 2 != 0;
        let fails = lent.host[if index == 0 { host::CAPTURE_FAILS } else { host::PLAYBACK_FAILS }] == 1;
        let opens = runs && (index == 1 || lent.device[device::MICROPHONE] == 1);
        is(!(opens && fails), number::HOST_CLOSED)?;
        after.host[host::open(index)] = u8::from(opens);
        put::<4>(&mut after.host, host::length(index), 0);
    }
    after.device[..head.len()].copy_from_slice(head);
    let clock = |bytes: &[u8]| (get::<8>(bytes, device::TICKS), remainder(bytes));
    let later = clock(head).max(clock(&lent.device));
    put::<8>(&mut after.device, device::TICKS, later.0);
    put::<8>(&mut after.device, device::REMAINDER, later.1);
    put::<4>(&mut after.device, device::REGISTERS + 0x30, later.0);
    Ok(after)
}

/// Puts a state's stream in the place of the machine's: 20. Of a list that is emptied no position is put.
fn put_stream(after: &mut Lent, index: usize, numbers: &[u8], list: &[u8], crowded: Crowded) -> Result<(), u8> {
    let record = &mut after.device[device::stream(index)..][..device::STREAM];
    record.copy_from_slice(numbers);
    if is_crowded(numbers, list) {
        put::<4>(record, stream::PENDING, 0);
        return is(crowded == Crowded::Emptied, number::CROWDED);
    }
    after.lists[LIST * index..][..list.len()].copy_from_slice(list);
    Ok(())
}

/// Whether the list of a stream with these numbers is crowded: neighbours fewer than 4 apart, or the last with the descriptor offset above what was submitted. Sums have
/// 128 bits, in which none wraps.
pub fn is_crowded(numbers: &[u8], list: &[u8]) -> bool {
    let positions: Vec<u128> = list.chunks_exact(8).map(|position| get::<8>(position, 0).into()).collect();
    let [offset, submitted] = [get::<4>(numbers, stream::OFFSET), get::<8>(numbers, stream::SUBMITTED)].map(u128::from);
    let are_close = positions.windows(2).any(|pair| pair[1] < pair[0] + 4);
    are_close || positions.last().is_some_and(|last| last + offset > submitted)
}

/// Whether a list of a valid machine is crowded.
pub fn has_crowded_list(lent: &Lent) -> bool {
    (0..STREAMS).any(|index| {
        let numbers = &lent.device[device::stream(index)..][..device::STREAM];
        let pending = get::<4>(numbers, stream::PENDING) as usize;
        is_crowded(numbers, &lent.lists[LIST * index..][..8 * pending])
    })
}

/// A machine without what [`restored`] leaves out.
pub fn without_interrupts(mut lent: Lent) -> Lent {
    put::<4>(&mut lent.device, device::REGISTERS + 0x24, 0);
    lent.device[device::CONFIG + 6] &= !8;
    lent.device[device::ASSERTED] = 0;
    lent
}

fn remainder(bytes: &[u8]) -> u64 {
    get::<8>(bytes, device::REMAINDER)
}

fn is(holds: bool, number: u8) -> Result<(), u8> {
    if holds { Ok(()) } else { Err(number) }
}

/// The unread bytes of a state.
struct Reader<'a>(&'a [u8]);

impl<'a> Reader<'a> {
    /// The next bytes.
    fn take(&mut self, count: usize) -> Result<&'a [u8], u8> {
        let (head, tail) = self.0.split_at_checked(count).ok_or(number::SHORT_STATE)?;
        self.0 = tail;
        Ok(head)
    }

    /// Everything before the streams: 3, 4, 5, and 2 at the field that is cut.
    fn head(&mut self, microphone: u8) -> Result<&'a [u8], u8> {
        let whole = self.0;
        is(self.take(4)? == b"HDA1", number::WRONG_MARK)?;
        is(self.take(1)? == [microphone], number::MICROPHONE)?;
        for bytes in [1, 256, 256] {
            self.take(bytes)?;
        }
        let codec = self.take(144)?;
        is([2, 4].iter().all(|node| FORMATS.contains(&get::<2>(codec, 24 * node + 10))), number::FORMAT)?;
        for bytes in [8, 8, 2] {
            self.take(bytes)?;
        }
        Ok(&whole[..device::stream(0)])
    }

    /// A stream's numbers and its list: 6, 7, 5, 8.
    fn stream(&mut self, index: usize, file: &[u8]) -> Result<(&'a [u8], &'a [u8]), u8> {
        let numbers = self.take(device::STREAM)?;
        let pending = get::<4>(numbers, stream::PENDING) as usize;
        is(pending <= POSITIONS && pending <= self.0.len() / 8, number::LIST_LENGTH)?;
        let list = self.take(8 * pending)?;
        let (consumed, submitted) = (get::<8>(numbers, stream::CONSUMED), get::<8>(numbers, stream::SUBMITTED));
        let mut last = consumed;
        for place in 0..pending {
            let before = std::mem::replace(&mut last, get::<8>(list, 8 * place));
            is(before < last && last <= submitted, number::LIST_ORDER)?;
        }
        let (word, runs) = (get::<2>(file, registers(index) + FORMAT), file[registers(index)] & 2 != 0);
        is(word == 0 && !runs || FORMATS.contains(&word), number::FORMAT)?;
        let is_stream = get::<2>(numbers, stream::DESCRIPTOR) <= 255 && consumed <= submitted;
        is(is_stream && get::<8>(numbers, stream::TIME) < 8193 * 1_000_000_000, number::STREAM)?;
        Ok((numbers, list))
    }
}

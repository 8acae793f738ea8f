//! The host end of document 01 for the Rust devices, free of their types.
//!
//! A Rust device opens a host stream by asking for a handle and closes it by dropping the handle. Each opening has a queue of its own, and the
//! device's handle is what keeps it: so opening and closing empty the queue, and a refused restore, which may have opened one, keeps the old queue.
use crate::side::{Direction, Interrupts, Message, number};
use std::collections::VecDeque;
use std::sync::atomic::{AtomicBool, AtomicU32, Ordering::Relaxed};
use std::sync::{Arc, Mutex, MutexGuard, Weak};

pub const QUEUE_BYTES: usize = 2048;
pub const MAX_DOWNSTREAM: u32 = 14_336;
pub const FRAME_BYTES: usize = 4;

/// The text of the error that a refused opening gives to the device.
pub const HOST_CLOSED: &str = "host closed";

/// Frames on their way between host and device.
#[derive(Default)]
pub struct Queue(Mutex<VecDeque<u8>>);

impl Queue {
    fn bytes(&self) -> MutexGuard<'_, VecDeque<u8>> {
        self.0.lock().unwrap()
    }

    pub fn length(&self) -> usize {
        self.bytes().len()
    }

    /// Takes as many bytes as fit, and says how many.
    pub fn put(&self, data: &[u8]) -> usize {
        let mut bytes = self.bytes();
        let count = data.len().min(QUEUE_BYTES - bytes.len());
        bytes.extend(&data[..count]);
        count
    }

    /// Gives as many bytes as there are, and says how many.
    pub fn take(&self, data: &mut [u8]) -> usize {
        let mut bytes = self.bytes();
        let count = data.len().min(bytes.len());
        for (to, from) in data.iter_mut().zip(bytes.drain(..count)) {
            *to = from;
        }
        count
    }

    fn contents(&self) -> Vec<u8> {
        self.bytes().iter().copied().collect()
    }
}

/// The host end of one device.
#[derive(Default)]
pub struct HostEnd {
    openings: Mutex<[Vec<Weak<Queue>>; 2]>,
    opening_fails: [AtomicBool; 2],
    downstream: AtomicU32,
}

impl HostEnd {
    /// A fresh queue, or none where the host's switch makes opening fail.
    pub fn open(&self, direction: Direction) -> Option<Arc<Queue>> {
        if self.opening_fails(direction) {
            return None;
        }
        let queue = Arc::new(Queue::default());
        let openings = &mut self.openings.lock().unwrap()[direction.index()];
        openings.retain(|opening| opening.strong_count() > 0);
        openings.push(Arc::downgrade(&queue));
        Some(queue)
    }

    /// The queue of the open stream. At rest a device holds at most one.
    fn queue(&self, direction: Direction) -> Option<Arc<Queue>> {
        let openings = self.openings.lock().unwrap();
        let mut open = openings[direction.index()].iter().filter_map(Weak::upgrade);
        let queue = open.next();
        assert!(open.next().is_none(), "two host streams open at rest");
        queue
    }

    pub fn contents(&self, direction: Direction) -> Vec<u8> {
        self.queue(direction).map_or_else(Vec::new, |queue| queue.contents())
    }

    pub fn let_all_open(&self) {
        for direction in Direction::BOTH {
            self.set_opening_fails(direction, false);
        }
    }

    /// Takes over another's settings, and the contents of its queues where a stream is open here too.
    pub fn take_after(&self, other: &Self) {
        for direction in Direction::BOTH {
            self.set_opening_fails(direction, other.opening_fails(direction));
            if let Some(queue) = self.queue(direction) {
                queue.put(&other.contents(direction));
            }
        }
        self.downstream.store(other.downstream(), Relaxed);
    }

    pub fn feed(&self, frames: &[u8]) -> (u32, u32) {
        if !frames.len().is_multiple_of(FRAME_BYTES) {
            return (number::ODD_FRAMES, 0);
        }
        let bytes = self.queue(Direction::Capture).map_or(0, |queue| queue.put(frames));
        (number::DONE, (bytes / FRAME_BYTES) as u32)
    }

    pub fn pull(&self, frames: &mut [u8]) -> (u32, u32) {
        if !frames.len().is_multiple_of(FRAME_BYTES) {
            return (number::ODD_FRAMES, 0);
        }
        let bytes = self.queue(Direction::Playback).map_or(0, |queue| queue.take(frames));
        (number::DONE, (bytes / FRAME_BYTES) as u32)
    }

    pub fn opening_fails(&self, direction: Direction) -> bool {
        self.opening_fails[direction.index()].load(Relaxed)
    }

    pub fn set_opening_fails(&self, direction: Direction, fails: bool) {
        self.opening_fails[direction.index()].store(fails, Relaxed);
    }

    pub fn downstream(&self) -> u32 {
        self.downstream.load(Relaxed)
    }

    pub fn set_downstream(&self, bytes: u32) -> u32 {
        if bytes > MAX_DOWNSTREAM || !bytes.is_multiple_of(FRAME_BYTES as u32) {
            return number::LATENCY;
        }
        self.downstream.store(bytes, Relaxed);
        number::DONE
    }
}

/// Where a device's interrupts arrive.
#[derive(Default)]
pub struct Wires {
    level: AtomicBool,
    messages: Mutex<Vec<Message>>,
}

impl Wires {
    pub fn set_level(&self, high: bool) {
        self.level.store(high, Relaxed);
    }

    pub fn send(&self, message: Message) {
        self.messages.lock().unwrap().push(message);
    }

    pub fn take(&self) -> Interrupts {
        Interrupts { level: self.level.load(Relaxed), messages: std::mem::take(&mut *self.messages.lock().unwrap()) }
    }
}

/// Document 01's number for an error of the Rust, which tells its errors apart by their texts alone.
pub fn number_of(error: &str) -> u32 {
    let texts = [
        (HOST_CLOSED, number::HOST_CLOSED),
        ("truncated HDA snapshot", 2),
        ("bad HDA snapshot version", 3),
        ("HDA microphone configuration mismatch", 4),
        ("unsupported HDA format", 5),
        ("invalid HDA completion count", 6),
        ("invalid HDA completion position", 7),
        ("invalid HDA stream state", 8),
        ("invalid HDA snapshot state", 9),
        ("crowded HDA completions", number::CROWDED),
    ];
    let found = texts.iter().find(|(text, _)| error.contains(text));
    found.unwrap_or_else(|| panic!("the Rust gave an error that has no number: {error}")).1
}

#[cfg(test)]
mod tests {
    use super::*;

    #[test]
    fn queues_hold_their_limit_and_end_with_their_handle() {
        let host = HostEnd::default();
        assert_eq!(host.feed(&[1; 4]), (number::DONE, 0));
        let handle = host.open(Direction::Capture).unwrap();
        assert_eq!(host.feed(&[1; 2052]), (number::DONE, 512));
        assert_eq!(host.feed(&[1; 3]), (number::ODD_FRAMES, 0));
        assert_eq!(host.contents(Direction::Capture).len(), QUEUE_BYTES);
        drop(handle);
        assert!(host.contents(Direction::Capture).is_empty());
    }

    #[test]
    fn downstream_is_whole_frames_up_to_its_limit() {
        let host = HostEnd::default();
        assert_eq!([14_336, 14_340, 2].map(|bytes| host.set_downstream(bytes)), [0, 12, 12]);
        assert_eq!(host.downstream(), 14_336);
    }
}

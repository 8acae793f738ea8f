//! The port beside both Rust devices. The amended oracle judges every call, and no difference excuses the port. The unchanged reference judges too, until a call
//! that meets a difference makes it part; the sequence then goes on without it.
use crate::coverage::Coverage;
use crate::device::{Amended, Reference};
use crate::lockstep::{DEFAULT_MEMORY, InStep, Parting, Seen, differing};
use crate::ops::Op;
use crate::ported::Port;
use crate::side::{Answer, Side};

pub struct Trio {
    reference: Option<Reference>,
    amended: Amended,
    pub port: Port,
    place: usize,
    before: Vec<u8>,
    coverage: Coverage,
}

impl InStep for Trio {
    fn new() -> Self {
        let amended = Amended::new(true, DEFAULT_MEMORY);
        let before = amended.view().state;
        Self {
            reference: Some(Reference::new(true, DEFAULT_MEMORY)),
            amended,
            port: Port::new(true, DEFAULT_MEMORY),
            place: 0,
            before,
            coverage: Coverage::default(),
        }
    }

    fn step(&mut self, op: &Op) -> Result<Answer, Box<Parting>> {
        self.amended.take_differences();
        let amended = Seen::after(&mut self.amended, op);
        let fired = self.amended.take_differences();
        let port = Seen::after(&mut self.port, op);
        let place = self.place;
        self.place += 1;
        let part = |sides, what| Err(Box::new(Parting { sides, place, op: op.clone(), fired, excusable: false, what }));

        let what = differing((&self.amended, &amended), (&self.port, &port));
        if !what.is_empty() {
            return part([Amended::NAME, Port::NAME], what);
        }
        if let Some(reference) = &mut self.reference {
            let seen = Seen::after(reference, op);
            let what = differing((&*reference, &seen), (&self.port, &port));
            if !what.is_empty() && fired.is_empty() {
                return part([Reference::NAME, Port::NAME], what);
            }
            self.coverage.count("call that the reference judged");
            if !what.is_empty() {
                self.coverage.count(&format!("sequence that the reference left by {fired}"));
                self.reference = None;
            }
        }
        let Seen { answer, view } = port.expect("sides that are the same did not panic");
        self.coverage.record(op, &answer, &self.before, &view.state, fired);
        self.before = view.state;
        Ok(answer)
    }

    fn is_judged_by_reference(&self) -> bool {
        self.reference.is_some()
    }

    fn coverage(&mut self) -> &mut Coverage {
        &mut self.coverage
    }
}

#[cfg(test)]
mod tests {
    use super::*;
    use port::layout::{device, host};

    /// A trio in which both streams are open, with one byte of the port changed; whether it parts at the next call.
    fn parts(change: impl FnOnce(&mut port::Bytes)) -> bool {
        let mut trio = Trio::new();
        let writes = [(8, vec![1]), (0x92, vec![0x11, 0]), (0xb2, vec![0x11, 0]), (0x80, vec![2]), (0xa0, vec![2])];
        for (offset, data) in writes {
            trio.step(&Op::Write { offset, data }).unwrap();
        }
        trio.step(&Op::Feed(vec![7; 8])).unwrap();
        trio.port.change(change);
        trio.step(&Op::ConfigRead(0)).is_err()
    }

    #[test]
    fn a_changed_byte_of_the_port_is_seen() {
        assert!(!parts(|_| {}));
        for place in [device::CONFIG + 0x3c, device::REGISTERS + 0x40, device::CODEC, device::TICKS, device::stream(0), device::ASSERTED] {
            assert!(parts(|bytes| bytes.device[place] ^= 1), "device byte {place}");
        }
        for place in [host::PLAYBACK_FAILS, host::CAPTURE_FAILS, host::DOWNSTREAM + 1, host::open(1)] {
            assert!(parts(|bytes| bytes.host[place] ^= 1), "host end byte {place}");
        }
        assert!(parts(|bytes| bytes.queues[0] ^= 1), "a queued byte");
    }
}

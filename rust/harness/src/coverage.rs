//! What a run reached: a lockstep without partings says nothing about what it never came to.
use crate::differences::Differences;
use crate::ops::Op;
use crate::side::{Answer, Direction};
use crate::state::{Progress, progress};
use std::collections::BTreeMap;
use std::fmt;

#[derive(Default)]
pub struct Coverage {
    counts: BTreeMap<String, u64>,
    ops: u64,
}

impl Coverage {
    pub fn ops(&self) -> u64 {
        self.ops
    }

    /// Counts one call, from the saved states before and after it.
    pub fn record(&mut self, op: &Op, answer: &Answer, before: &[u8], after: &[u8], fired: Differences) {
        self.ops += 1;
        self.count(&format!("op {}", op.kind()));
        match op {
            Op::Restore(_) | Op::RestoreList { .. } => self.count(&format!("restore answered {}", answer.number)),
            Op::RestoreEmptied(state) => self.emptied(answer.number, state, after),
            Op::Feed(_) | Op::Pull(_) | Op::Downstream(_) | Op::Advance(_) if answer.number != 0 => {
                self.count(&format!("{} answered {}", op.kind(), answer.number));
            }
            _ => {}
        }
        if answer.interrupts.level {
            self.count("call that left INTx high");
        }
        if !answer.interrupts.messages.is_empty() {
            self.count("call that sent MSI");
        }
        for name in fired.names() {
            self.count(&format!("difference {name}"));
        }
        let (before, after) = (progress(before), progress(after));
        for direction in Direction::BOTH {
            self.stream(op, direction.name(), before[direction.index()], after[direction.index()]);
        }
    }

    /// Counts what the separate call answered, and the lists of the state that it emptied or kept.
    fn emptied(&mut self, number: u32, state: &[u8], after: &[u8]) {
        self.count(&format!("restore-emptied answered {number}"));
        if number != 0 {
            return;
        }
        for (_, left) in progress(state).into_iter().zip(progress(after)).filter(|(handed, _)| handed.pending > 0) {
            self.count(if left.pending == 0 { "list that restore-emptied emptied" } else { "list that restore-emptied kept" });
        }
    }

    fn stream(&mut self, op: &Op, name: &str, before: Progress, after: Progress) {
        let failed = after.status & !before.status & 0x10 != 0;
        let moved = matches!(op, Op::Advance(_)) && after.submitted > before.submitted;
        let events = [
            (moved, "turn that moved"),
            (moved && failed, "turn that moved, then failed"),
            (moved && !after.submitted.is_multiple_of(4), "turn that left submitted odd"),
            (moved && after.pending > 0, "turn that left completions pending"),
            (moved && after.pending >= 4000, "turn that left 4,000 or more pending"),
            (failed, "stream error"),
        ];
        for (happened, event) in events {
            if happened {
                self.count(&format!("{name} {event}"));
            }
        }
        if moved {
            self.count(&format!("{name} turn that moved, format {:04x}", after.format));
        }
    }

    pub fn count(&mut self, what: &str) {
        match self.counts.get_mut(what) {
            Some(count) => *count += 1,
            None => _ = self.counts.insert(what.into(), 1),
        }
    }
}

impl fmt::Display for Coverage {
    fn fmt(&self, f: &mut fmt::Formatter) -> fmt::Result {
        writeln!(f, "{:>9}  calls", self.ops)?;
        for (what, count) in &self.counts {
            writeln!(f, "{count:>9}  {what}")?;
        }
        Ok(())
    }
}

#[cfg(test)]
mod tests {
    use super::*;
    use crate::device::Amended;
    use crate::lockstep::{InStep, Lockstep};
    use crate::state::{SPACING, State};

    #[test]
    fn refusals_of_crowded_lists_and_emptied_lists_are_counted() {
        let mut sides = Lockstep::<Amended, Amended>::new();
        let mut state = State::parse(&sides.step(&Op::Save).unwrap().bytes).unwrap();
        state.streams.iter_mut().for_each(|stream| stream.fill(2, SPACING));
        state.streams[1].pending[0] += 1;
        sides.step(&Op::Restore(state.bytes())).unwrap();
        sides.step(&Op::RestoreEmptied(state.bytes())).unwrap();
        let lines = sides.coverage().to_string();
        for line in ["1  restore answered 20", "1  list that restore-emptied emptied", "1  list that restore-emptied kept"] {
            assert!(lines.contains(line), "{line}");
        }
    }
}

//! Shrinks a sequence to a small one that still shows what it showed.
use crate::ops::Op;

/// The smallest list found for which `shows` holds, as it does for `ops`: whole chunks go first, then single calls, then data.
pub fn shrink(ops: &[Op], mut shows: impl FnMut(&[Op]) -> bool) -> Vec<Op> {
    let mut ops = ops.to_vec();
    loop {
        let before = ops.clone();
        drop_calls(&mut ops, &mut shows);
        simplify_calls(&mut ops, &mut shows);
        if ops == before {
            return ops;
        }
    }
}

/// Drops chunks of half the list, then of a quarter, down to single calls.
fn drop_calls(ops: &mut Vec<Op>, shows: &mut impl FnMut(&[Op]) -> bool) {
    let mut chunk = ops.len().div_ceil(2).max(1);
    loop {
        // From the end: what set up a state stands before what used it.
        let mut end = ops.len();
        while end > 0 {
            let start = end.saturating_sub(chunk);
            let mut fewer = ops.clone();
            fewer.drain(start..end);
            if shows(&fewer) {
                *ops = fewer;
            }
            end = start.min(ops.len());
        }
        if chunk == 1 {
            return;
        }
        chunk = chunk.div_ceil(2);
    }
}

/// Replaces each call by the first simpler one that still shows it, as long as there is one.
fn simplify_calls(ops: &mut [Op], shows: &mut impl FnMut(&[Op]) -> bool) {
    for place in 0..ops.len() {
        while let Some(simpler) = simpler(&ops[place]).into_iter().find(|op| {
            let mut changed = ops.to_vec();
            changed[place] = op.clone();
            shows(&changed)
        }) {
            ops[place] = simpler;
        }
    }
}

/// Calls that are simpler than this one, the simplest first.
fn simpler(op: &Op) -> Vec<Op> {
    let lengths =
        |length: usize| [0, length / 2, length.saturating_sub(4), length.saturating_sub(1)].into_iter().filter(move |n| *n < length);
    let numbers = |number: u64| [0, number / 2, number - number % 1000, number.saturating_sub(1)].into_iter().filter(move |n| *n < number);
    match op {
        Op::Advance(time) => numbers(*time).map(Op::Advance).collect(),
        Op::AdvanceBounds { shortest, longest } => {
            // From either end, half of the range or a nanosecond goes.
            let cuts = [longest.saturating_sub(*shortest).div_ceil(2), 1].map(|cut| cut.min(longest.saturating_sub(*shortest)));
            let ranges = cuts.into_iter().filter(|cut| *cut > 0).flat_map(|cut| [(shortest + cut, *longest), (*shortest, longest - cut)]);
            ranges.map(|(shortest, longest)| Op::AdvanceBounds { shortest, longest }).collect()
        }
        Op::Pull(length) => lengths(*length).map(Op::Pull).collect(),
        Op::Downstream(bytes) => numbers(u64::from(*bytes)).map(|bytes| Op::Downstream(bytes as u32)).collect(),
        Op::Read { offset, length } => lengths(*length).map(|length| Op::Read { offset: *offset, length }).collect(),
        Op::Feed(frames) => lengths(frames.len()).map(|length| Op::Feed(frames[..length].to_vec())).collect(),
        Op::Restore(state) => lengths(state.len()).map(|length| Op::Restore(state[..length].to_vec())).collect(),
        Op::RestoreEmptied(state) => lengths(state.len()).map(|length| Op::RestoreEmptied(state[..length].to_vec())).collect(),
        Op::Write { offset, data } => {
            lengths(data.len()).map(|length| Op::Write { offset: *offset, data: data[..length].to_vec() }).collect()
        }
        Op::Poke { address, data } => {
            let mut simpler: Vec<Op> =
                lengths(data.len()).map(|length| Op::Poke { address: *address, data: data[..length].to_vec() }).collect();
            let half = data.len() / 2;
            simpler.push(Op::Poke { address: address + half as u64, data: data[half..].to_vec() });
            simpler.retain(|op| matches!(op, Op::Poke { data: fewer, .. } if fewer.len() < data.len()));
            simpler
        }
        _ => Vec::new(),
    }
}

#[cfg(test)]
mod tests {
    use super::*;

    #[test]
    fn only_what_matters_stays() {
        let ops: Vec<Op> = (0..50).map(Op::Advance).chain([Op::Save, Op::Feed(vec![7; 40])]).collect();
        let shows = |ops: &[Op]| ops.contains(&Op::Save) && ops.iter().any(|op| matches!(op, Op::Feed(bytes) if bytes.len() >= 5));
        assert_eq!(shrink(&ops, shows), [Op::Save, Op::Feed(vec![7; 5])]);
    }
}

//! Sets of the differences between port and Rust: document 01's ("Where port and Rust part"), and those that requests add.
use amended::differences::NAMES;
use std::fmt;

/// The differences that a call met.
#[derive(Clone, Copy, Debug, Default, PartialEq, Eq, PartialOrd, Ord)]
pub struct Differences(u16);

impl Differences {
    /// The set in which bit n stands for the n-th name.
    pub fn from_bits(bits: u16) -> Self {
        Self(bits)
    }

    pub fn from_names(names: &str) -> Result<Self, String> {
        let mut bits = 0;
        for name in names.split('+') {
            let place = NAMES.iter().position(|known| *known == name);
            bits |= 1 << place.ok_or_else(|| format!("unknown difference {name}"))?;
        }
        Ok(Self(bits))
    }

    pub fn union(self, other: Self) -> Self {
        Self(self.0 | other.0)
    }

    pub fn is_empty(self) -> bool {
        self.0 == 0
    }

    pub fn names(self) -> impl Iterator<Item = &'static str> {
        NAMES.into_iter().enumerate().filter(move |(bit, _)| self.0 >> bit & 1 != 0).map(|(_, name)| name)
    }
}

impl fmt::Display for Differences {
    fn fmt(&self, f: &mut fmt::Formatter) -> fmt::Result {
        if self.is_empty() { f.write_str("no difference") } else { f.write_str(&self.names().collect::<Vec<_>>().join("+")) }
    }
}

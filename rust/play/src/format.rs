//! 16-bit stereo at a rate: the word that says so, and how a codec declares it. HDA 1.0a's, so that the device is tried by another's rules than its own.

#[derive(Clone, Copy, Debug, PartialEq, Eq)]
pub struct Format {
    /// Frames a second.
    pub rate: u32,
    /// The format word, for the stream's register and for the converter.
    pub word: u16,
}

/// What the player can be asked for. A rate has several words: these have no divisor, as a driver writes them.
pub const FORMATS: [Format; 4] = [
    Format { rate: 44_100, word: 0x4011 },
    Format { rate: 48_000, word: 0x0011 },
    Format { rate: 88_200, word: 0x4811 },
    Format { rate: 96_000, word: 0x0811 },
];

/// The rates of bits 0 to 11 of a converter's parameter 0x0a.
const DECLARED: [u32; 12] = [8_000, 11_025, 16_000, 22_050, 32_000, 44_100, 48_000, 88_200, 96_000, 176_400, 192_000, 384_000];
/// Its bit for samples of 16 bits.
const SIXTEEN_BITS: u32 = 1 << 17;

impl Format {
    /// Whether a converter whose parameter 0x0a is `sizes_and_rates` takes it.
    pub fn is_declared(self, sizes_and_rates: u32) -> bool {
        let has_rate = (0..).zip(DECLARED).any(|(bit, rate)| rate == self.rate && sizes_and_rates >> bit & 1 != 0);
        has_rate && sizes_and_rates & SIXTEEN_BITS != 0
    }
}

#[cfg(test)]
mod tests {
    use super::*;

    #[test]
    fn a_rate_is_declared_by_its_own_bit_with_16_bits() {
        for (format, bit) in FORMATS.into_iter().zip(5..) {
            assert!(format.is_declared(1 << bit | SIXTEEN_BITS));
            assert!(!format.is_declared(1 << bit));
            assert!(!format.is_declared(!(1 << bit)));
        }
        assert!(Format { rate: 176_400, word: 0x5811 }.is_declared(1 << 9 | SIXTEEN_BITS));
        assert!(!Format { rate: 50_000, word: 0 }.is_declared(u32::MAX));
    }
}

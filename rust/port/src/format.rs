//! The stream format word, as HDA 1.0a has it.

/// The rates that the device plays and records at, in frames a second.
pub const RATES: [u32; 4] = [44_100, 48_000, 88_200, 96_000];

/// The rate of a word that the device accepts, which says 16-bit stereo at one of [`RATES`]; none for every other word.
pub fn rate(word: u16) -> Option<u32> {
    let base = if word & 0x4000 == 0 { 48_000 } else { 44_100 };
    let multiple = u32::from(word >> 11 & 7) + 1;
    let divisor = u32::from(word >> 8 & 7) + 1;
    // PCM, the reserved bit clear, 16 bits, two channels; multiples above 4 are reserved.
    let stereo = word & 0x80ff == 0x0011 && multiple <= 4;
    let rate = base * multiple / divisor;
    (stereo && rate * divisor == base * multiple && RATES.contains(&rate)).then_some(rate)
}

#[cfg(test)]
mod tests {
    use super::*;

    #[test]
    fn twelve_words_have_a_rate() {
        let accepted = [
            (0x4011, 44_100),
            (0x4911, 44_100),
            (0x5211, 44_100),
            (0x5b11, 44_100),
            (0x0011, 48_000),
            (0x0911, 48_000),
            (0x1211, 48_000),
            (0x1b11, 48_000),
            (0x4811, 88_200),
            (0x5911, 88_200),
            (0x0811, 96_000),
            (0x1911, 96_000),
        ];
        for word in 0..=u16::MAX {
            let listed = accepted.iter().find(|(accepted, _)| *accepted == word).map(|(_, rate)| *rate);
            assert_eq!(rate(word), listed, "{word:#06x}");
        }
    }
}

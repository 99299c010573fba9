//! The tables that the papers write out.

use crate::table::{Codeword, ZERO_DIFFERENCE};

/// A table's words as little-endian bytes.
pub fn table_bytes(words: &[u32]) -> Vec<u8> {
    words.iter().flat_map(|word| word.to_le_bytes()).collect()
}

/// The plain table, which serves until a fitted one exists.
pub fn plain_table() -> Vec<u8> {
    let mut words = vec![1, 3837, 512, 34, 99, 227];
    words.extend((0..512).map(|entry| 64 * entry + 10));
    table_bytes(&words)
}

/// The memo's two versions label its two bad strings in opposite ways.
#[derive(Clone, Copy, Debug)]
pub enum Labels {
    Version11,
    Version01a,
}

const MEMO_ESCAPE: &str = "01001000";
const MEMO_BAD: [&str; 2] = ["000111010000", "000111010001"];
/// The strings of -16 to 15, first bit first. Those of 14 and 15 are from
/// version 01a, as the other print lost their last bits.
const MEMO_ENTRIES: &str = "\
    00011101001 1011010000 000111011 00011100 10110101 0100101 000110 101100 \
    01000 01110 10111 0010 0101 1000 1010 1101 \
    1111 1110 1100 1001 0110 0011 0000 01111 \
    00010 010011 1011011 0001111 01001001 101101001 1011010001 0001110101";

/// The memo's listed table of 32 entries, in this format's layout.
pub fn memo_table(labels: Labels) -> Vec<u8> {
    let (bad_pixel, bad_bias) = match labels {
        Labels::Version11 => (MEMO_BAD[0], MEMO_BAD[1]),
        Labels::Version01a => (MEMO_BAD[1], MEMO_BAD[0]),
    };
    let mut words = vec![1234, (ZERO_DIFFERENCE - 16) as u32, 32];
    words.extend([MEMO_ESCAPE, bad_pixel, bad_bias].map(string_word));
    words.extend(MEMO_ENTRIES.split(' ').map(string_word));
    table_bytes(&words)
}

/// The word of a string written first bit first.
pub fn string_word(text: &str) -> u32 {
    let set = |(place, bit)| u32::from(bit == '1') << place;
    let bits = text.chars().enumerate().map(set).sum();
    Codeword { bits, length: text.len() as u32 }.to_word()
}

#[cfg(test)]
mod tests {
    use super::*;

    #[test]
    fn words_of_strings() {
        assert_eq!(string_word("0"), 1);
        assert_eq!(string_word("10"), 34);
        assert_eq!(string_word("110"), 99);
        assert_eq!(string_word("111"), 227);
        // The memo: the string of +8 has the decimal value 8.
        assert_eq!(MEMO_ENTRIES.split(' ').nth(8 + 16).map(string_word), Some(8 << 5 | 5));
    }

    /// The memo's tree is built by Huffman's method, so it has no unused
    /// branch: a lost bit would show here.
    #[test]
    fn memo_tree_is_full() {
        let strings = MEMO_ENTRIES.split(' ').chain(MEMO_BAD).chain([MEMO_ESCAPE]);
        let share: u32 = strings.map(|text| 1 << (12 - text.len())).sum();
        assert_eq!(share, 1 << 12);
    }
}

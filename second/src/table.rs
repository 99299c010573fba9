//! A table of codewords: reading it from bytes, its rules, its lookups.

use crate::refusal::{DONE, PREFIX, STRING_WORD, TABLE_SHAPE};

pub const HEADER_WORDS: usize = 6;
/// The first of a table's words that holds a codeword.
const FIRST_STRING: usize = 3;
pub const MAX_ENTRIES: u32 = 8187;
pub const MAX_LENGTH: u32 = 27;
pub const MAX_ESCAPE_LENGTH: u32 = 15;
/// Bits of a height that follows the escape.
pub const HEIGHT_BITS: u32 = 12;
/// lowLimit of a table whose first entry is the difference 0.
pub const ZERO_DIFFERENCE: i32 = 4093;

/// Where the codewords stand in `Table::codewords`, as in the table's words.
pub const ESCAPE: usize = 0;
pub const BAD_PIXEL: usize = 1;
pub const BAD_BIAS: usize = 2;
pub const FIRST_ENTRY: usize = 3;

/// A string of `length` bits; its first bit is the least significant one.
#[derive(Clone, Copy, PartialEq, Eq, Debug)]
pub struct Codeword {
    pub bits: u32,
    pub length: u32,
}

impl Codeword {
    /// Reads a string word: the length in its low 5 bits, the string above.
    pub fn from_word(word: u32, longest: u32) -> Option<Codeword> {
        let (bits, length) = (word >> 5, word & 31);
        let fits = length >= 1 && length <= longest && bits >> length == 0;
        fits.then_some(Codeword { bits, length })
    }

    pub fn to_word(self) -> u32 {
        self.bits << 5 | self.length
    }

    /// Ones in the places that the string has.
    fn mask(self) -> u32 {
        (1 << self.length) - 1
    }
}

/// A table that keeps all rules.
#[derive(Clone, Debug)]
pub struct Table {
    pub id: u32,
    pub low_limit: u32,
    /// Escape, bad pixel, bad bias, then the entries.
    pub codewords: Vec<Codeword>,
    /// The most bits that an item takes.
    pub worst: u32,
}

impl Table {
    /// Reads and checks a table, or gives the number of its refusal.
    pub fn parse(bytes: &[u8]) -> Result<Table, u32> {
        let words = table_words(bytes).ok_or(TABLE_SHAPE)?;
        let codewords = read_codewords(&words[FIRST_STRING..]).ok_or(STRING_WORD)?;
        if !prefix_free(&codewords) {
            return Err(PREFIX);
        }
        let longest = codewords.iter().map(|c| c.length).max().unwrap_or(0);
        let escaped = codewords[ESCAPE].length + HEIGHT_BITS;
        let worst = longest.max(escaped);
        Ok(Table { id: words[0], low_limit: words[1], codewords, worst })
    }

    pub fn entries(&self) -> usize {
        self.codewords.len() - FIRST_ENTRY
    }

    /// The difference that codeword `index`, an entry, stands for.
    pub fn difference_of(&self, index: usize) -> i32 {
        (index - FIRST_ENTRY) as i32 + self.low_limit as i32 - ZERO_DIFFERENCE
    }

    /// The codeword of a difference, if the table has it.
    #[inline]
    pub fn entry_of(&self, difference: i32) -> Option<Codeword> {
        let entry = difference + ZERO_DIFFERENCE - self.low_limit as i32;
        let entry = usize::try_from(entry).ok()?;
        self.codewords.get(FIRST_ENTRY + entry).copied()
    }

    pub fn escape(&self) -> Codeword {
        self.codewords[ESCAPE]
    }
}

/// The table check: its number and the most bits that an item takes.
pub fn check(bytes: &[u8]) -> (u32, u32) {
    match Table::parse(bytes) {
        Ok(table) => (DONE, table.worst),
        Err(number) => (number, 0),
    }
}

/// The words, if their count, tableSize and lowLimit agree.
fn table_words(bytes: &[u8]) -> Option<Vec<u32>> {
    let (chunks, rest) = bytes.as_chunks::<4>();
    if !rest.is_empty() || chunks.len() < HEADER_WORDS {
        return None;
    }
    let words: Vec<u32> = chunks.iter().map(|&word| u32::from_le_bytes(word)).collect();
    // Wider than 32 bits, so that no sum wraps.
    let (low_limit, size) = (u64::from(words[1]), u64::from(words[2]));
    let limit = u64::from(MAX_ENTRIES);
    let right = (1..=limit).contains(&size)
        && low_limit + size <= limit
        && words.len() as u64 == HEADER_WORDS as u64 + size;
    right.then_some(words)
}

fn read_codewords(words: &[u32]) -> Option<Vec<Codeword>> {
    let longest = |index| if index == ESCAPE { MAX_ESCAPE_LENGTH } else { MAX_LENGTH };
    let read = |(index, &word)| Codeword::from_word(word, longest(index));
    words.iter().enumerate().map(read).collect()
}

/// Two strings clash when they agree in every place that both have: then the
/// shorter begins the longer, or they are equal.
fn prefix_free(codewords: &[Codeword]) -> bool {
    let places: Vec<(u32, u32)> = codewords.iter().map(|c| (c.bits, c.mask())).collect();
    places.iter().enumerate().all(|(index, &(bits, mask))| {
        // No early exit: the inner loop has no branch.
        let clash = |(b, m): &(u32, u32)| (bits ^ b) & mask & m == 0;
        let clashes = places[index + 1..].iter().fold(false, |any, other| any | clash(other));
        !clashes
    })
}

#[cfg(test)]
mod tests {
    use super::*;
    use crate::known::{memo_table, plain_table, table_bytes, Labels};

    fn changed(words: &[(usize, u32)]) -> Vec<u8> {
        let mut bytes = plain_table();
        for &(index, word) in words {
            bytes[4 * index..4 * index + 4].copy_from_slice(&word.to_le_bytes());
        }
        bytes
    }

    #[test]
    fn plain_table_is_accepted() {
        assert_eq!(plain_table().len(), 4 * 518);
        assert_eq!(check(&plain_table()), (0, 14));
    }

    #[test]
    fn low_limit_and_size() {
        assert_eq!(check(&changed(&[(1, 7675)])), (0, 14));
        assert_eq!(check(&changed(&[(1, 7676)])), (1, 0));
        assert_eq!(check(&changed(&[(1, u32::MAX - 511)])), (1, 0), "the sum wraps to 0");
        assert_eq!(check(&changed(&[(2, 0)])), (1, 0));
        assert_eq!(check(&changed(&[(2, 511)])), (1, 0));
        assert_eq!(check(&changed(&[(2, 512 + (1 << 30))])), (1, 0), "the byte count wraps");
    }

    #[test]
    fn word_count() {
        let plain = plain_table();
        for cut in [0, 1, 4, 23, 24, plain.len() - 4, plain.len() - 1] {
            assert_eq!(check(&plain[..cut]), (1, 0), "{cut} bytes");
        }
        for extra in [1, 2, 3, 4] {
            let longer = [&plain[..], &[0; 4][..extra]].concat();
            assert_eq!(check(&longer), (1, 0), "{extra} bytes more");
        }
    }

    #[test]
    fn full_table() {
        let entries: Vec<u32> = (0..8188).map(|i| (i << 3 | 7) << 5 | 16).collect();
        let words = |low, size: u32| {
            let head = [9, low, size, 1, 34, 99];
            [&head[..], &entries[..size as usize]].concat()
        };
        assert_eq!(check(&table_bytes(&words(0, 8187))), (0, 16));
        assert_eq!(check(&table_bytes(&words(1, 8186))), (0, 16));
        assert_eq!(check(&table_bytes(&words(1, 8187))), (1, 0));
        assert_eq!(check(&table_bytes(&words(0, 8188))), (1, 0));
    }

    #[test]
    fn escape_length() {
        // 10 and zeros after it: still no beginning of another string.
        let escape = |length: u32| changed(&[(3, 1 << 5 | length)]);
        assert_eq!(check(&escape(15)), (0, 27));
        assert_eq!(check(&escape(16)), (2, 0));
    }

    #[test]
    fn string_words() {
        assert_eq!(check(&changed(&[(4, 0)])), (2, 0));
        assert_eq!(check(&changed(&[(4, 3 << 5 | 27)])), (0, 27));
        for length in 28..32 {
            assert_eq!(check(&changed(&[(4, 3 << 5 | length)])), (2, 0));
        }
        assert_eq!(check(&changed(&[(5, 227 | 1 << 8)])), (2, 0), "a bit above the string");
        assert_eq!(check(&changed(&[(517, 1 << 31 | 10)])), (2, 0));
    }

    #[test]
    fn prefixes() {
        assert_eq!(check(&changed(&[(517, 64 * 510 + 10)])), (3, 0), "an entry twice");
        assert_eq!(check(&changed(&[(4, 34)])), (3, 0), "two special strings alike");
        assert_eq!(check(&changed(&[(4, 1)])), (3, 0), "a special string begins entries");
        assert_eq!(check(&changed(&[(6, 1 << 5 | 1)])), (3, 0), "an entry begins special ones");
        assert_eq!(check(&changed(&[(6, 64 * 3 + 9)])), (3, 0), "an entry begins an entry");
    }

    #[test]
    fn earlier_number_wins() {
        let clash_and_bad_word = [(6, 1 << 5 | 1), (517, 0)];
        assert_eq!(check(&changed(&clash_and_bad_word)), (2, 0));
        let all = [(1, 7676), (6, 1 << 5 | 1), (517, 0)];
        assert_eq!(check(&changed(&all)), (1, 0));
    }

    #[test]
    fn memo_table_is_accepted() {
        for labels in [Labels::Version11, Labels::Version01a] {
            assert_eq!(check(&memo_table(labels)), (0, 20));
        }
    }

    #[test]
    fn lookups() {
        let table = Table::parse(&plain_table()).unwrap();
        assert_eq!(table.entries(), 512);
        assert_eq!(table.difference_of(FIRST_ENTRY), -256);
        assert_eq!(table.entry_of(-257), None);
        assert_eq!(table.entry_of(256), None);
        for entry in 0..512u32 {
            let codeword = Codeword { bits: 2 * entry, length: 10 };
            assert_eq!(table.entry_of(entry as i32 - 256), Some(codeword));
            assert_eq!(codeword.to_word(), 64 * entry + 10);
        }
    }
}

//! Packing one row, and the room question.

use crate::refusal::{DONE, PIXEL, ROOM, TOO_MANY};
use crate::table::{Codeword, Table, BAD_BIAS, BAD_PIXEL, HEIGHT_BITS, MAX_LENGTH};

pub const MAX_PIXELS: usize = 4096;
pub const MAX_HEIGHT: i32 = 4093;
/// The pixel values that mark bad spots.
pub const BIAS_SPOT: u16 = 4094;
pub const PIXEL_SPOT: u16 = 4095;
/// No item is longer than the longest codeword allowed.
const MAX_WORDS: usize = MAX_PIXELS * MAX_LENGTH as usize / 32;

/// Packs a row of 2-byte pixels; answers the number and the bits.
pub fn pack(table: &[u8], pixels: &[u8], words: &mut [u8]) -> (u32, u32) {
    match Table::parse(table) {
        Ok(table) => pack_under(&table, pixels, words),
        Err(number) => (number, 0),
    }
}

/// Packs under a table that is already checked. A row's first height, the
/// first pixel that is neither 4094 nor 4095, is always escaped: document 02,
/// ticket 5.
pub fn pack_under(table: &Table, pixels: &[u8], words: &mut [u8]) -> (u32, u32) {
    pack_by(escaped, table, pixels, words)
}

/// Packs with the string that `first` gives for the first height.
pub(crate) fn pack_by(
    first: impl Fn(&Table, u16) -> Codeword,
    table: &Table,
    pixels: &[u8],
    words: &mut [u8],
) -> (u32, u32) {
    let (pixels, _) = pixels.as_chunks::<2>();
    if pixels.len() > MAX_PIXELS {
        return (TOO_MANY, 0);
    }
    let mut row = [0; MAX_PIXELS];
    let row = &mut row[..pixels.len()];
    for (pixel, &bytes) in row.iter_mut().zip(pixels) {
        *pixel = u16::from_le_bytes(bytes);
    }
    if row.iter().any(|&pixel| pixel > PIXEL_SPOT) {
        return (PIXEL, 0);
    }
    let mut packer = Packer::new();
    pack_row(first, table, row, &mut packer);
    let bits = packer.bits();
    // Packed aside first: a refused call must leave the lent memory alone.
    let packed = packer.finish();
    let (lent, _) = words.as_chunks_mut::<4>();
    if packed.len() > lent.len() {
        return (ROOM, 0);
    }
    for (lent, word) in lent.iter_mut().zip(packed) {
        *lent = word.to_le_bytes();
    }
    (DONE, bits)
}

/// The words that suffice for every row of `n` pixels.
pub fn room(table: &[u8], n: u64) -> (u32, u32) {
    match Table::parse(table) {
        Ok(table) => room_under(&table, n),
        Err(number) => (number, 0),
    }
}

pub fn room_under(table: &Table, n: u64) -> (u32, u32) {
    if n > MAX_PIXELS as u64 {
        return (TOO_MANY, 0);
    }
    (DONE, (n as u32 * table.worst).div_ceil(32))
}

fn pack_row(
    first: impl Fn(&Table, u16) -> Codeword,
    table: &Table,
    row: &[u16],
    packer: &mut Packer,
) {
    let spots = row.iter().take_while(|&&pixel| pixel >= BIAS_SPOT).count();
    row[..spots].iter().for_each(|&pixel| packer.put(bad_spot(table, pixel)));
    let Some((&pixel, later)) = row[spots..].split_first() else {
        return;
    };
    packer.put(first(table, pixel));
    // The first height becomes previous in any form.
    let mut previous = i32::from(pixel);
    for &pixel in later {
        if pixel >= BIAS_SPOT {
            packer.put(bad_spot(table, pixel));
            continue;
        }
        let height = i32::from(pixel);
        if let Some(codeword) = table.entry_of(height - previous) {
            packer.put(codeword);
            previous = height;
        } else {
            // A later height that is escaped does not become previous.
            packer.put(escaped(table, pixel));
        }
    }
}

fn bad_spot(table: &Table, pixel: u16) -> Codeword {
    table.codewords[if pixel == PIXEL_SPOT { BAD_PIXEL } else { BAD_BIAS }]
}

/// The escape and the height after it, as one string.
pub(crate) fn escaped(table: &Table, pixel: u16) -> Codeword {
    let escape = table.escape();
    let bits = escape.bits | u32::from(pixel) << escape.length;
    Codeword { bits, length: escape.length + HEIGHT_BITS }
}

/// Gathers strings of at most 27 bits, first bit lowest, into words.
struct Packer {
    words: [u32; MAX_WORDS + 1],
    full: usize,
    /// Fewer than 32 bits that have not reached a word yet.
    pending: u64,
    held: u32,
}

impl Packer {
    fn new() -> Packer {
        Packer { words: [0; MAX_WORDS + 1], full: 0, pending: 0, held: 0 }
    }

    #[inline]
    fn put(&mut self, string: Codeword) {
        self.pending |= u64::from(string.bits) << self.held;
        self.held += string.length;
        if self.held >= 32 {
            self.words[self.full] = self.pending as u32;
            self.full += 1;
            self.pending >>= 32;
            self.held -= 32;
        }
    }

    fn bits(&self) -> u32 {
        32 * self.full as u32 + self.held
    }

    fn finish(&mut self) -> &[u32] {
        self.words[self.full] = self.pending as u32;
        &self.words[..self.bits().div_ceil(32) as usize]
    }
}

#[cfg(test)]
mod tests {
    use super::*;
    use crate::known::{memo_table, plain_table, string_word, table_bytes, Labels};

    const FIGURE_4: [u16; 13] = [204, 201, 210, 4095, 202, 202, 200, 766, 208, 200, 202, 206, 201];

    fn pixel_bytes(row: &[u16]) -> Vec<u8> {
        row.iter().flat_map(|pixel| pixel.to_le_bytes()).collect()
    }

    /// Packs with room for `lent` words; gives number, bits and all memory.
    fn packed(table: &[u8], row: &[u16], lent: usize) -> (u32, u32, Vec<u32>) {
        let mut memory = vec![0xA5; 4 * lent];
        let (number, bits) = pack(table, &pixel_bytes(row), &mut memory);
        let words = memory.as_chunks::<4>().0.iter().map(|&word| u32::from_le_bytes(word));
        (number, bits, words.collect())
    }

    /// The packed bits as text, first bit first.
    fn bit_text(table: &[u8], row: &[u16]) -> String {
        let (number, bits, words) = packed(table, row, 64);
        assert_eq!(number, 0);
        let text: String = words
            .iter()
            .flat_map(|w| (0..32).map(move |b| w >> b & 1))
            .map(|b| b.to_string())
            .collect();
        text[..bits as usize].to_string()
    }

    #[test]
    fn written_cases() {
        let cases: [(&[u16], &[u32], u32); 6] = [
            (&[], &[], 0),
            // The escape 10 and twelve zeros.
            (&[0], &[1], 14),
            // 1 + 4 x 204, then 110 from bit 14.
            (&[204, 4095], &[49969], 17),
            (&[766], &[3065], 14),
            // The difference 0 is 0 000000001 from bit 14.
            (&[766, 766], &[8391673], 24),
            // 1, 3065 from bit 14; the 1 of the difference 0 is bit 28 + 9.
            (&[0, 766, 0], &[50216961, 32], 38),
        ];
        for (row, words, bits) in cases {
            let expected = (0, bits, words.to_vec());
            assert_eq!(packed(&plain_table(), row, words.len()), expected, "{row:?}");
        }
    }

    #[test]
    fn bit_counts() {
        let bits = |row: &[u16]| packed(&plain_table(), row, 8).1;
        assert_eq!(bits(&[255]), 14);
        assert_eq!(bits(&[256]), 14);
        assert_eq!(bits(&[0, 255]), 14 + 10);
        assert_eq!(bits(&[0, 256]), 14 + 14);
        assert_eq!(bits(&[4093, 0, 0]), 42);
        // Two heights are escaped and ten are differences.
        assert_eq!(bits(&FIGURE_4), 14 + 10 * 10 + 3 + 14);
        assert_eq!(bits(&FIGURE_4), 131);
        // Only the first height becomes previous by the escape.
        assert_eq!(bits(&[4095, 0, 0]), 3 + 14 + 10);
        assert_eq!(bits(&[4094, 4095, 766, 766]), 3 + 3 + 14 + 10);
        assert_eq!(bits(&[10, 766, 766]), 14 + 14 + 14);
        assert_eq!(bits(&[4094, 4095]), 6);
    }

    #[test]
    fn figure_4_strings() {
        // Fixed strings of 9 bits behind a 0, so that each names its entry.
        let entry = |i: u32| i << 1 << 5 | 9;
        let head = [7, 3965, 256, string_word("10"), string_word("110"), string_word("111")];
        let words: Vec<u32> = head.into_iter().chain((0..256).map(entry)).collect();
        let tab = |i: u32| (0..9).map(|b| (i << 1 >> b & 1).to_string()).collect::<String>();
        let height = |h: u32| (0..12).map(|b| (h >> b & 1).to_string()).collect::<String>();
        let raw = |h| "10".to_string() + &height(h);
        let strings = [
            raw(204),
            tab(125),
            tab(137),
            "110".into(),
            tab(120),
            tab(128),
            tab(126),
            raw(766),
            tab(136),
            tab(120),
            tab(130),
            tab(132),
            tab(123),
        ];
        assert_eq!(bit_text(&table_bytes(&words), &FIGURE_4), strings.concat());
    }

    #[test]
    fn memo_table_strings() {
        let row = [12, 14, 4095, 4094, 6, 1030, 21, 5];
        let text = |labels| bit_text(&memo_table(labels), &row);
        // escape 12, +2, bad pixel, bad bias, -8, escape 1030, +15, -16
        let strings = |pixel: &str, bias: &str| {
            let after = "01000 01001000 011000000010 0001110101 00011101001";
            format!("01001000 001100000000 1100 {pixel} {bias} {after}").replace(' ', "")
        };
        let (zero, one) = ("000111010000", "000111010001");
        assert_eq!(text(Labels::Version11), strings(zero, one));
        assert_eq!(text(Labels::Version01a), strings(one, zero));
    }

    #[test]
    fn refusals_leave_memory() {
        let refused = |row: &[u16], lent, number| {
            let found = vec![0xA5A5A5A5; lent];
            assert_eq!(packed(&plain_table(), row, lent), (number, 0, found));
        };
        refused(&[0, 766, 0], 1, ROOM);
        refused(&[0], 0, ROOM);
        refused(&[0, 4096], 0, PIXEL);
        refused(&[0, 65535, 0], 9, PIXEL);
        refused(&[4096; 4097], 9, TOO_MANY);
        let mut memory = [7; 8];
        assert_eq!(pack(&[], &pixel_bytes(&[0]), &mut memory), (1, 0));
        assert_eq!(memory, [7; 8]);
    }

    #[test]
    fn incomplete_ends_count_for_nothing() {
        let mut memory = [9; 7];
        let pixels = [0, 0, 255];
        assert_eq!(pack(&plain_table(), &pixels, &mut memory), (0, 14));
        assert_eq!(memory, [1, 0, 0, 0, 9, 9, 9]);
        assert_eq!(pack(&plain_table(), &pixels, &mut memory[..3]), (ROOM, 0));
        let pixels = vec![0; 8193];
        // 14 bits and 4095 times 10: 1281 words.
        let mut memory = vec![0; 4 * 1281];
        assert_eq!(pack(&plain_table(), &pixels, &mut memory), (0, 40964));
        assert_eq!(pack(&plain_table(), &pixels, &mut memory[4..]), (ROOM, 0));
    }

    #[test]
    fn room_question() {
        assert_eq!(room(&plain_table(), 4096), (0, 1792));
        assert_eq!(room(&plain_table(), 0), (0, 0));
        assert_eq!(room(&plain_table(), 1), (0, 1));
        assert_eq!(room(&plain_table(), 3), (0, 2));
        for n in [4097, 1 << 32, u64::MAX] {
            assert_eq!(room(&plain_table(), n), (TOO_MANY, 0));
        }
        assert_eq!(room(&[], u64::MAX), (1, 0));
    }
}

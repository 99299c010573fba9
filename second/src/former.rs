//! The packing rule before ticket 5, document 01's own; only compared with.

use crate::row::{escaped, pack_by};
use crate::table::{Codeword, Table};

/// Packs under a table that is already checked.
pub fn pack_under(table: &Table, pixels: &[u8], words: &mut [u8]) -> (u32, u32) {
    pack_by(first_height, table, pixels, words)
}

/// A row's first height is a difference from 0 where the table has it.
fn first_height(table: &Table, pixel: u16) -> Codeword {
    table.entry_of(i32::from(pixel)).unwrap_or_else(|| escaped(table, pixel))
}

#[cfg(test)]
mod tests {
    use super::*;
    use crate::generate::rows::pixel_bytes;
    use crate::known::{memo_table, plain_table, table_bytes, Labels};
    use crate::refusal::{DONE, PIXEL, ROOM};

    /// The words and the bits, with exact room.
    fn packed(table: &[u8], row: &[u16]) -> (Vec<u8>, u32) {
        let table = Table::parse(table).unwrap();
        let mut words = vec![0; 4 * row.len()];
        let (number, bits) = pack_under(&table, &pixel_bytes(row), &mut words);
        assert_eq!(number, DONE);
        words.truncate(4 * bits.div_ceil(32) as usize);
        (words, bits)
    }

    #[test]
    fn cases_of_document_01() {
        let cases: [(&[u16], &[u32], u32); 6] = [
            (&[], &[], 0),
            (&[0], &[512], 10),
            (&[204, 4095], &[3992], 13),
            (&[766], &[3065], 14),
            (&[766, 766], &[8391673], 24),
            (&[0, 766, 0], &[3139072, 2], 34),
        ];
        for (row, words, bits) in cases {
            assert_eq!(packed(&plain_table(), row), (table_bytes(words), bits), "{row:?}");
        }
        let figure_4 = [204, 201, 210, 4095, 202, 202, 200, 766, 208, 200, 202, 206, 201];
        let bits = |row: &[u16]| packed(&plain_table(), row).1;
        assert_eq!([bits(&[255]), bits(&[256]), bits(&[4093, 0, 0])], [10, 14, 42]);
        assert_eq!(bits(&figure_4), 127);
        assert_eq!(bits(&[4095, 0, 0]), 3 + 10 + 10);
        assert_eq!(bits(&[10, 766, 766]), 10 + 14 + 14);
    }

    /// The memo's difference +12, 01001001, and +2, 1100.
    #[test]
    fn a_first_height_under_the_memos_table() {
        let table = memo_table(Labels::Version11);
        assert_eq!(packed(&table, &[12, 14]), (table_bytes(&[0b0011_1001_0010]), 12));
    }

    #[test]
    fn refusals_are_as_before() {
        let table = Table::parse(&plain_table()).unwrap();
        let mut words = [7; 4];
        let mut number = |row: &[u16]| pack_under(&table, &pixel_bytes(row), &mut words);
        assert_eq!(number(&[0, 766, 0]), (ROOM, 0));
        assert_eq!(number(&[0, 4096]), (PIXEL, 0));
        assert_eq!(words, [7; 4]);
    }
}

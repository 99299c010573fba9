//! The text of the sheet lister and of the table lister.

use crate::refusal::has_place;
use crate::sheet::{Content, Records};
use crate::table::{Codeword, Table, BAD_BIAS, BAD_PIXEL, ESCAPE};

/// Lists a whole sheet.
pub fn list_sheet(sheet: &[u8]) -> String {
    let mut text = String::new();
    let mut records = Records::new(sheet);
    while let Some(content) = records.next(None) {
        text.push_str(&content_line(&content));
    }
    text + &records.verdict()
}

/// A listing's last line; `bit` is counted from the row's first word.
pub fn refused_line(number: u32, record: usize, bit: u32) -> String {
    if has_place(number) {
        format!("refused {number} at record {record} bit {bit}\n")
    } else {
        format!("refused {number} at record {record}\n")
    }
}

fn content_line(content: &Content) -> String {
    match content {
        Content::Table { id, low_limit, size, worst } => {
            format!("table {id} low {low_limit} size {size} worst {worst}\n")
        }
        Content::Packed { row, pixels, bits, words } => {
            format!("row {row} pixels {pixels} bits {bits} words {words}\n")
        }
        Content::Plain { row, pixels } => format!("row {row} pixels {pixels} plain\n"),
        Content::Line { numbers } => format!("line numbers {numbers}\n"),
    }
}

/// Lists a table's codewords in tree order, the 0-branch first.
pub fn list_table(bytes: &[u8]) -> String {
    let table = match Table::parse(bytes) {
        Ok(table) => table,
        Err(number) => return format!("refused {number}\n"),
    };
    let named = |(index, codeword)| (bit_text(codeword), name_of(&table, index));
    let mut lines: Vec<(String, String)> =
        table.codewords.iter().copied().enumerate().map(named).collect();
    // No codeword begins another, so the order of texts is the tree's.
    lines.sort();
    lines.iter().map(|(bits, name)| format!("{name} {bits}\n")).collect()
}

fn bit_text(codeword: Codeword) -> String {
    (0..codeword.length)
        .map(|place| if codeword.bits >> place & 1 == 1 { '1' } else { '0' })
        .collect()
}

fn name_of(table: &Table, index: usize) -> String {
    match index {
        ESCAPE => "raw".to_string(),
        BAD_PIXEL => "bad-pixel".to_string(),
        BAD_BIAS => "bad-bias".to_string(),
        _ => table.difference_of(index).to_string(),
    }
}

#[cfg(test)]
mod tests {
    use super::*;
    use crate::known::{memo_table, plain_table, table_bytes, Labels};

    fn record(kind: u16, body: &[u8]) -> Vec<u8> {
        let length = (2 + body.len()) as u32;
        [&length.to_le_bytes()[..], &kind.to_le_bytes(), body].concat()
    }

    fn packed(row: u8, pixels: u8, word: u32) -> Vec<u8> {
        record(2, &[&[row, 0, pixels, 0][..], &word.to_le_bytes()].concat())
    }

    const TABLE_LINE: &str = "table 1 low 3837 size 512 worst 14\n";

    #[test]
    fn written_sheet() {
        // In words of the rule and in those of the former one.
        for (word, bits) in [(49969, 17), (3992, 13)] {
            let rows = [packed(0, 2, word), packed(5, 1, 3065)].concat();
            let sheet = [record(1, &plain_table()), rows].concat();
            let first = format!("row 0 pixels 2 bits {bits} words 1\n");
            let rest = "row 5 pixels 1 bits 14 words 1\ndone rows 2\n";
            assert_eq!(list_sheet(&sheet), TABLE_LINE.to_string() + &first + rest);
        }
    }

    #[test]
    fn other_kinds() {
        let plain = record(3, &[9, 0, 2, 0, 255, 15, 0, 0]);
        let line = record(4, &[3, 0, 0x7F, 0x80, 0x40, 0]);
        let sheet = [record(1, &plain_table()), line, plain].concat();
        let text = "line numbers 3\nrow 9 pixels 2 plain\ndone rows 1\n";
        assert_eq!(list_sheet(&sheet), TABLE_LINE.to_string() + text);
        assert_eq!(
            list_sheet(&record(1, &plain_table())),
            TABLE_LINE.to_string() + "done rows 0\n"
        );
    }

    #[test]
    fn refused_sheets() {
        assert_eq!(list_sheet(&[]), "refused 16 at record 0\n");
        assert_eq!(list_sheet(&[2, 0, 0]), "refused 14 at record 0\n");
        assert_eq!(list_sheet(&packed(0, 2, 3992)), "refused 16 at record 0\n");
        let sheet = [record(1, &plain_table()), packed(5, 1, 3065), packed(5, 1, 3065)].concat();
        let text = "row 5 pixels 1 bits 14 words 1\nrefused 16 at record 2\n";
        assert_eq!(list_sheet(&sheet), TABLE_LINE.to_string() + text);
        let sheet = [record(1, &plain_table()), vec![1]].concat();
        assert_eq!(list_sheet(&sheet), TABLE_LINE.to_string() + "refused 14 at record 1\n");
    }

    /// The row 0 766 0, changed: by the former rule it has 34 bits in the words
    /// 3139072 and 2, by the rule 38 in 50216961 and 32.
    #[test]
    fn refused_rows_have_a_bit() {
        let last = |pixels: u8, words: &[u32]| {
            let row = record(2, &[&[6, 0, pixels, 0][..], &table_bytes(words)].concat());
            let sheet = [record(1, &plain_table()), packed(5, 1, 3065), row].concat();
            list_sheet(&sheet).lines().skip(2).collect::<Vec<_>>().join("/")
        };
        assert_eq!(last(3, &[3139072]), "refused 6 at record 2 bit 24");
        assert_eq!(last(4, &[3139072, 2]), "refused 8 at record 2 bit 34");
        assert_eq!(last(3, &[3139072 | 1 << 23, 2]), "row 6 pixels 3 bits 34 words 2/done rows 2");
        assert_eq!(last(3, &[3139072 | 0b1111_1111_1110 << 12, 2]), "refused 9 at record 2 bit 10");
        assert_eq!(last(3, &[3139072, 2 | 1 << 20]), "refused 10 at record 2 bit 34");
        assert_eq!(last(3, &[50216961]), "refused 6 at record 2 bit 28");
        assert_eq!(last(4, &[50216961, 32]), "refused 8 at record 2 bit 38");
        assert_eq!(last(3, &[50216961 | 4094 << 2, 32]), "refused 9 at record 2 bit 0");
        assert_eq!(last(3, &[50216961, 32 | 1 << 20]), "refused 10 at record 2 bit 38");
        assert_eq!(last(1, &[]), "refused 6 at record 2 bit 0");
        // Refusals that no row's reading gives have none.
        assert_eq!(last(3, &[3139072, 2, 0]), "refused 14 at record 2");
        // No codeword begins with 1111: two heights, then 7 at bit 2.
        let table = table_bytes(&[7, 4093, 1, 34, 99, 228, 1]);
        let sheet = [record(1, &table), packed(5, 3, 0b11_1100)].concat();
        let text = "table 7 low 4093 size 1 worst 14\nrefused 7 at record 1 bit 2\n";
        assert_eq!(list_sheet(&sheet), text);
    }

    #[test]
    fn id_is_unsigned() {
        let mut table = plain_table();
        table[..4].fill(255);
        let text = "table 4294967295 low 3837 size 512 worst 14\ndone rows 0\n";
        assert_eq!(list_sheet(&record(1, &table)), text);
    }

    #[test]
    fn written_table() {
        let words = table_bytes(&[7, 4093, 1, 34, 99, 227, 1]);
        assert_eq!(list_table(&words), "0 0\nraw 10\nbad-pixel 110\nbad-bias 111\n");
        assert_eq!(list_table(&words[1..]), "refused 1\n");
        let words = table_bytes(&[7, 4093, 1, 34, 99, 227, 0]);
        assert_eq!(list_table(&words), "refused 2\n");
        let words = table_bytes(&[7, 4093, 1, 34, 99, 227, 99]);
        assert_eq!(list_table(&words), "refused 3\n");
    }

    #[test]
    fn memo_table_in_tree_order() {
        let text = list_table(&memo_table(Labels::Version11));
        let lines: Vec<&str> = text.lines().collect();
        assert_eq!(lines.len(), 35);
        let start = ["6 0000", "8 00010", "-10 000110", "-13 00011100"];
        assert_eq!(lines[..4], start);
        let bad = ["bad-pixel 000111010000", "bad-bias 000111010001", "-16 00011101001"];
        assert_eq!(lines[4..7], bad);
        assert_eq!(lines[32..], ["-1 1101", "1 1110", "0 1111"]);
    }

    #[test]
    fn deepest_string() {
        let strings = [34, 99, 227, 27];
        let words = table_bytes(&[&[7, 4092, 1], &strings[..]].concat());
        let deep = format!("-1 {}\n", "0".repeat(27));
        assert_eq!(list_table(&words), deep + "raw 10\nbad-pixel 110\nbad-bias 111\n");
    }
}

//! What was written, read back as a sheet.

use second::known::plain_table;
use second::reader::Codec;
use second::refusal::DONE;
use second::sheet::{read_record, Content, State, KIND_BYTES, LENGTH_BYTES};

const TABLE_PLACE: usize = LENGTH_BYTES + KIND_BYTES;

/// The heights of each row of a sheet, which must be the plain table and then
/// packed rows numbered from 0.
pub fn heights(codec: &Codec, sheet: &[u8]) -> Result<Vec<Vec<u16>>, String> {
    let table = read_record(State::default(), Err(0), sheet, &mut []);
    if table.number != DONE || sheet[TABLE_PLACE..table.used] != plain_table() {
        return Err(format!("no plain table first: {table:?}"));
    }
    let (mut rest, mut state) = (&sheet[table.used..], table.state);
    let mut rows = Vec::new();
    while !rest.is_empty() {
        let mut content = [0; 8192];
        let record = read_record(state, Ok(codec), rest, &mut content);
        let pixels = match record.content {
            Some(Content::Packed { row, pixels, .. }) if usize::from(row) == rows.len() => pixels,
            _ => return Err(format!("no row {}: {record:?}", rows.len())),
        };
        let (pixels, _) = content[..2 * usize::from(pixels)].as_chunks::<2>();
        rows.push(pixels.iter().map(|&pixel| u16::from_le_bytes(pixel)).collect());
        state = record.state;
        rest = &rest[record.used..];
    }
    Ok(rows)
}

#[cfg(test)]
mod tests {
    use super::*;
    use second::fits::Converter;
    use second::generate::scans::{scan, Size};
    use second::random::Random;

    #[test]
    fn written_sheets_are_read_and_others_are_not() {
        let converter = Converter::default();
        let codec = converter.codec();
        let size = Size { width: 3, rows: 2, others: 0 };
        let scan = scan(&mut Random::new(60), &codec.table, size);
        let (mut sheet, _) = converter.sheet(&scan.bytes());
        let rows = heights(codec, &sheet).unwrap().concat();
        assert!(rows.iter().map(|&pixel| pixel as i16).eq(scan.pixels));
        assert_eq!(heights(codec, &sheet[..2078]), Ok(vec![]));
        assert!(heights(codec, &sheet[..sheet.len() - 1]).is_err());
        sheet.drain(2078..2078 + 14);
        assert!(heights(codec, &sheet).is_err(), "row 1 comes first");
        assert!(heights(codec, &[]).is_err());
    }
}

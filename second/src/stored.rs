//! What a sheet stores: its rows, as far as they are accepted.

use crate::refusal::DONE;
use crate::row::MAX_PIXELS;
use crate::sheet::Records;

/// The bytes of the longest content, a line of 4-byte numbers.
const CONTENT_BYTES: usize = 4 * MAX_PIXELS;

pub struct StoredRow {
    pub number: u16,
    pub heights: Vec<u16>,
}

pub struct Stored<'a> {
    /// Their numbers rise.
    pub rows: Vec<StoredRow>,
    /// The refusal's number, or 0.
    number: u32,
    /// The line with which a listing ends.
    pub verdict: String,
    /// From the refused record on.
    pub rest: &'a [u8],
}

impl<'a> Stored<'a> {
    pub fn read(sheet: &'a [u8]) -> Stored<'a> {
        let (mut rows, mut memory) = (Vec::new(), [0; CONTENT_BYTES]);
        let mut records = Records::new(sheet);
        while let Some(content) = records.next(Some(&mut memory)) {
            if let Some((number, count)) = content.row() {
                let (pixels, _) = memory[..2 * usize::from(count)].as_chunks::<2>();
                let heights = pixels.iter().map(|&pixel| u16::from_le_bytes(pixel)).collect();
                rows.push(StoredRow { number, heights });
            }
        }
        let (number, verdict) = (records.number(), records.verdict());
        Stored { rows, number, verdict, rest: records.rest() }
    }

    pub fn is_accepted(&self) -> bool {
        self.number == DONE
    }

    /// The longest row's heights.
    pub fn width(&self) -> usize {
        self.rows.iter().map(|row| row.heights.len()).max().unwrap_or(0)
    }

    /// The last row's number and one more.
    pub fn height(&self) -> usize {
        self.rows.last().map_or(0, |row| usize::from(row.number) + 1)
    }

    /// The row with this number.
    pub fn heights_of(&self, number: usize) -> Option<&[u16]> {
        let found = self.rows.binary_search_by_key(&number, |row| row.number.into());
        found.ok().map(|place| &self.rows[place].heights[..])
    }
}

//! FITS images: a header of cards, then rows of big-endian pixels. A scan
//! becomes a sheet of packed rows under the plain table, numbered from 0.

mod card;
mod header;

#[cfg(test)]
mod tests;

use crate::answers::{Answer, Image};
use crate::conversion::{Conversion, Verdict};
use crate::known::plain_table;
use crate::reader::Codec;
use crate::refusal::{DONE, FITS_HEADER, IMAGE_END, PIXEL, ROOM, TOO_MANY};
use crate::row::{MAX_PIXELS, PIXEL_SPOT};
use crate::sheet::{write_record, State, KIND_PACKED};
use header::Header;

pub const CARD_BYTES: usize = 80;
pub const BLOCK_BYTES: usize = 2880;
/// END stands in one of so many blocks.
pub const MOST_BLOCKS: usize = 10;
/// The cards that come first, in this order.
pub const FIRST_KEYWORDS: [&str; 5] = ["SIMPLE", "BITPIX", "NAXIS", "NAXIS1", "NAXIS2"];
/// The most pixels of a row and the most rows.
pub const MAX_AXIS: usize = MAX_PIXELS;
/// The plain table's record.
pub const TABLE_RECORD_BYTES: usize = 2078;

/// Makes sheets of scans, under the plain table.
pub struct Converter(Conversion);

impl Default for Converter {
    fn default() -> Converter {
        Converter(Conversion::new(&plain_table()).expect("the plain table is accepted"))
    }
}

impl Converter {
    pub fn codec(&self) -> &Codec {
        &self.0.codec
    }

    /// The header's call: judges the header and writes the table's record.
    pub fn header(&self, fits: &[u8], out: &mut [u8]) -> Image {
        let written = Header::read(fits).and_then(|header| {
            let record = &self.0.record;
            out.get_mut(..record.len()).ok_or(ROOM)?.copy_from_slice(record);
            Ok(header)
        });
        match written {
            Ok(header) => Image {
                number: DONE,
                width: header.width as u32,
                rows: header.rows as u32,
                start: header.start as u32,
                count: self.0.record.len() as u32,
            },
            Err(number) => Image { number, ..Image::default() },
        }
    }

    /// The row's call: writes the record of the row at the front of `image`.
    pub fn row(&self, width: u64, row: u64, image: &[u8], out: &mut [u8]) -> Answer {
        match self.row_record(width, row, image, out) {
            Ok(bytes) => Answer { number: DONE, count: bytes as u32 },
            Err(number) => Answer { number, count: 0 },
        }
    }

    fn row_record(&self, width: u64, row: u64, image: &[u8], out: &mut [u8]) -> Result<usize, u32> {
        if width == 0 {
            return Err(FITS_HEADER);
        }
        let limit = MAX_AXIS as u64;
        if width > limit || row >= limit {
            return Err(TOO_MANY);
        }
        let pixels = row_pixels(image, width as usize)?;
        let state = State { least_row: row as u32, ..self.0.state };
        let table = Ok(&self.codec().table);
        let written = write_record(state, table, KIND_PACKED.into(), row as u32, &pixels, out);
        if written.number != DONE {
            return Err(written.number);
        }
        Ok(written.bytes)
    }

    /// A whole scan: the sheet as far as it comes, and how it ends.
    pub fn sheet(&self, fits: &[u8]) -> (Vec<u8>, Verdict) {
        let Header { width, rows, start } = match Header::read(fits) {
            Ok(header) => header,
            Err(number) => return (Vec::new(), Verdict::Header { number }),
        };
        let from = |row: usize| fits.get(start + 2 * width * row..).unwrap_or_default();
        self.0.sheet((0..rows).map(|row| row_pixels(from(row), width)))
    }
}

/// The pixels of the row in front, as a record writer takes them. A row that
/// is cut is refused before any of its pixels is looked at.
fn row_pixels(image: &[u8], width: usize) -> Result<Vec<u8>, u32> {
    let row = image.get(..2 * width).ok_or(IMAGE_END)?;
    let (pixels, _) = row.as_chunks::<2>();
    let allowed = 0..=PIXEL_SPOT as i16;
    let mut content = Vec::with_capacity(row.len());
    let mut all_allowed = true;
    for &bytes in pixels {
        let pixel = i16::from_be_bytes(bytes);
        all_allowed &= allowed.contains(&pixel);
        content.extend_from_slice(&pixel.to_le_bytes());
    }
    if all_allowed {
        Ok(content)
    } else {
        Err(PIXEL)
    }
}

//! Binary PGM pictures with maxval 4095: heights out of a sheet, and into one.

mod convert;
mod header;
mod shape;

#[cfg(test)]
mod tests;

pub use convert::{convert, Converted};
pub use header::Header;
pub use shape::Fault;

use crate::stored::Stored;

/// What a picture begins with.
pub const MAGIC: &[u8] = b"P5";
/// The greatest sample, and what the header must say that it is.
pub const MAXVAL: u16 = 4095;
/// The most rows: as many as there are row numbers.
pub const MOST_ROWS: usize = 1 << 16;
/// The header ends in one of the first so many bytes.
pub const MOST_HEADER: usize = 1 << 16;

/// The picture of a sheet's rows. Without a height to pad with, no row may be
/// missing and all must be of one length.
pub fn write_pgm(stored: &Stored, pad: Option<u16>) -> Result<Vec<u8>, Fault> {
    let (width, rows) = (stored.width(), stored.height());
    if let Some(fault) = shape::fault(stored, pad.is_some()) {
        return Err(fault);
    }
    let mut pgm = format!("P5\n{width} {rows}\n{MAXVAL}\n").into_bytes();
    pgm.reserve(2 * width * rows);
    for row in 0..rows {
        let heights = stored.heights_of(row).unwrap_or_default();
        for height in heights {
            pgm.extend(height.to_be_bytes());
        }
        // Nothing is lacking where there is no height to pad with.
        let lacking = width - heights.len();
        let pad = pad.unwrap_or_default().to_be_bytes();
        pgm.extend(std::iter::repeat_n(pad, lacking).flatten());
    }
    Ok(pgm)
}

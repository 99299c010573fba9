//! A PGM picture becomes a sheet.

use super::{Header, MAXVAL};
use crate::conversion::{Conversion, Verdict};
use crate::refusal::{IMAGE_END, PIXEL};

/// What a picture becomes.
#[derive(PartialEq, Eq, Debug)]
pub struct Converted {
    /// As far as it comes.
    pub sheet: Vec<u8>,
    pub verdict: Verdict,
    /// Whether bytes follow the last row, if it comes so far.
    pub more: bool,
}

pub fn convert(conversion: &Conversion, pgm: &[u8]) -> Converted {
    let Header { width, rows, start } = match Header::read(pgm) {
        Ok(header) => header,
        Err(number) => {
            let verdict = Verdict::Header { number };
            return Converted { sheet: Vec::new(), verdict, more: false };
        }
    };
    let place = |row: usize| start + 2 * width * row;
    let samples = |row: usize| pgm.get(place(row)..place(row + 1)).ok_or(IMAGE_END);
    let (sheet, verdict) = conversion.sheet((0..rows).map(|row| samples(row).and_then(row_pixels)));
    // It has not come so far where the file ends before.
    let more = verdict == Verdict::Done { rows } && pgm.len() > place(rows);
    Converted { sheet, verdict, more }
}

/// A row as a record writer takes it.
fn row_pixels(samples: &[u8]) -> Result<Vec<u8>, u32> {
    let (samples, _) = samples.as_chunks::<2>();
    let samples = samples.iter().map(|&sample| u16::from_be_bytes(sample));
    if samples.clone().any(|sample| sample > MAXVAL) {
        return Err(PIXEL);
    }
    Ok(samples.flat_map(u16::to_le_bytes).collect())
}

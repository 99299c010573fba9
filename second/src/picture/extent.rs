//! How large the picture of a sheet is, in heights.

use crate::sheet::{KIND_BYTES, KIND_PACKED, KIND_PLAIN, LENGTH_BYTES, MAX_RECORD};
use crate::stored::Stored;

#[derive(Clone, Copy, PartialEq, Eq, Debug)]
pub struct Extent {
    pub width: usize,
    pub height: usize,
}

/// A refused sheet is so wide at least, and has so many missing rows, or more,
/// below its own.
const LEAST_BROKEN: usize = 16;

impl Extent {
    /// As wide as the longest row; each row stands at its number. Where the
    /// sheet is refused, the records behind the fault have their place too.
    pub fn of(stored: &Stored) -> Extent {
        let (width, height) = (stored.width(), stored.height());
        if stored.is_accepted() {
            return Extent { width: width.max(1), height: height.max(1) };
        }
        let claimed = rows_claimed(stored.rest);
        Extent { width: width.max(LEAST_BROKEN), height: (height + LEAST_BROKEN).max(claimed) }
    }
}

/// The rows up to the last that the records claim, as far as these are there by
/// their lengths.
fn rows_claimed(mut rest: &[u8]) -> usize {
    let mut claimed = 0;
    while let Some((record, after)) = split_record(rest) {
        claimed = claimed.max(row_claimed(record));
        rest = after;
    }
    claimed
}

/// What the next record's length counts, and what follows it.
fn split_record(rest: &[u8]) -> Option<(&[u8], &[u8])> {
    let (length, rest) = rest.split_first_chunk::<LENGTH_BYTES>()?;
    let length = u32::from_le_bytes(*length) as usize;
    let allowed = (KIND_BYTES..=MAX_RECORD).contains(&length);
    allowed.then(|| rest.split_at_checked(length))?
}

/// The row number and one more, if the record's kind is a row's and it is long
/// enough to have one.
fn row_claimed(record: &[u8]) -> usize {
    let Some(([kind, row], _)) = record.as_chunks::<2>().0.split_first_chunk() else {
        return 0;
    };
    match u16::from_le_bytes(*kind) {
        KIND_PACKED | KIND_PLAIN => usize::from(u16::from_le_bytes(*row)) + 1,
        _ => 0,
    }
}

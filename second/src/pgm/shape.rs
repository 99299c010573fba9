//! Why a sheet's rows are no picture.

use crate::stored::Stored;

#[derive(Clone, Copy, PartialEq, Eq, Debug)]
pub enum Fault {
    NoHeights,
    Missing {
        row: usize,
    },
    /// A row that is not as long as row 0.
    Unequal {
        row: usize,
        heights: usize,
        first: usize,
    },
}

impl Fault {
    pub fn text(self) -> String {
        match self {
            Fault::NoHeights => "there are no heights".to_string(),
            Fault::Missing { row } => format!("row {row} is missing"),
            Fault::Unequal { row, heights, first } => {
                format!("row {row} has {heights} heights and row 0 has {first}")
            }
        }
    }
}

/// The first fault in row order, if there is one. Where rows are padded, only
/// a sheet without any height is at fault.
pub fn fault(stored: &Stored, padded: bool) -> Option<Fault> {
    if stored.width() == 0 {
        return Some(Fault::NoHeights);
    }
    if padded {
        return None;
    }
    let first = stored.heights_of(0).map_or(0, |heights| heights.len());
    (0..stored.height()).find_map(|row| match stored.heights_of(row) {
        None => Some(Fault::Missing { row }),
        Some(heights) if heights.len() != first => {
            Some(Fault::Unequal { row, heights: heights.len(), first })
        }
        Some(_) => None,
    })
}

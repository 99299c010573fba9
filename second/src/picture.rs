//! The picture of a sheet: a square of samples for each height, and at times a
//! map to the right.

mod colour;
mod extent;

#[cfg(test)]
mod tests;

use crate::png::Png;
use crate::stored::Stored;
pub use colour::Range;
use colour::{count_index, height_index, palette, BACKGROUND, MISSING};
pub use extent::Extent;

/// Rows and columns of a map.
const MAP_SIDE: usize = 128;
/// Samples between the sheet and the map.
const GAP: usize = 8;
/// The most times that a count stands in each direction.
const MOST_MAP_TIMES: usize = 31;

/// What stands beside the heights.
pub enum Beside {
    Nothing,
    /// The counts of a map.
    Counts(Vec<u16>),
    /// A map that is refused.
    Unread,
}

pub struct Look {
    /// How many times a height stands in each direction.
    pub times: usize,
    pub grey: Range,
    pub beside: Beside,
}

/// The picture's samples, a row at a time.
pub struct Picture<'a> {
    look: &'a Look,
    stored: &'a Stored<'a>,
    extent: Extent,
    /// The index of each height.
    indices: Vec<u8>,
    /// The indices of the map, row after row.
    map: Vec<u8>,
    /// How many times a count stands in each direction.
    map_times: usize,
}

impl<'a> Picture<'a> {
    pub fn new(look: &'a Look, stored: &'a Stored<'a>) -> Picture<'a> {
        let extent = Extent::of(stored);
        let map_times = (extent.height * look.times / MAP_SIDE).clamp(1, MOST_MAP_TIMES);
        let indices = (0..=4095).map(|height| height_index(look.grey, height)).collect();
        Picture { look, stored, extent, indices, map: map_indices(&look.beside), map_times }
    }

    /// The samples of a row.
    pub fn width(&self) -> usize {
        let left = self.extent.width * self.look.times;
        if self.map.is_empty() {
            left
        } else {
            left + GAP + MAP_SIDE * self.map_times
        }
    }

    pub fn height(&self) -> usize {
        let left = self.extent.height * self.look.times;
        if self.map.is_empty() {
            left
        } else {
            left.max(MAP_SIDE * self.map_times)
        }
    }

    /// Puts row `y` in the place of what is there.
    fn row(&self, y: usize, samples: &mut Vec<u8>) {
        samples.clear();
        self.put_heights(y / self.look.times, samples);
        if !self.map.is_empty() {
            samples.extend([BACKGROUND; GAP]);
            self.put_counts(y / self.map_times, samples);
        }
    }

    fn put_heights(&self, row: usize, samples: &mut Vec<u8>) {
        let Extent { width, height } = self.extent;
        if row >= height {
            samples.extend(vec![BACKGROUND; width * self.look.times]);
            return;
        }
        let heights = self.stored.heights_of(row).unwrap_or_default();
        let indices = heights.iter().map(|&height| self.indices[usize::from(height)]);
        if self.look.times == 1 {
            samples.extend(indices);
        } else {
            indices.for_each(|index| samples.extend(std::iter::repeat_n(index, self.look.times)));
        }
        samples.resize(width * self.look.times, MISSING);
    }

    fn put_counts(&self, row: usize, samples: &mut Vec<u8>) {
        if row < MAP_SIDE {
            let counts = &self.map[MAP_SIDE * row..][..MAP_SIDE];
            let widened =
                counts.iter().flat_map(|&index| std::iter::repeat_n(index, self.map_times));
            samples.extend(widened);
        } else {
            samples.extend(vec![BACKGROUND; MAP_SIDE * self.map_times]);
        }
    }

    /// All rows as a file.
    pub fn png(&self) -> Vec<u8> {
        let mut png = Png::new(self.width(), self.height(), &palette());
        let mut samples = Vec::new();
        for y in 0..self.height() {
            self.row(y, &mut samples);
            png.row(&samples);
        }
        png.finish()
    }
}

fn map_indices(beside: &Beside) -> Vec<u8> {
    match beside {
        Beside::Nothing => Vec::new(),
        Beside::Counts(counts) => {
            let most = counts.iter().copied().max().unwrap_or(0).max(1);
            counts.iter().map(|&count| count_index(most, count)).collect()
        }
        Beside::Unread => vec![MISSING; MAP_SIDE * MAP_SIDE],
    }
}

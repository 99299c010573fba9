//! The colours of a picture: greys for heights, six colours of their own, and
//! greens for the counts of a map.

/// The heights that are drawn in grey, both ends included.
#[derive(Clone, Copy, PartialEq, Eq, Debug)]
pub struct Range {
    pub low: u16,
    pub high: u16,
}

impl Range {
    /// All heights that are no bad spots.
    pub const WHOLE: Range = Range { low: 0, high: 4093 };
}

const GREYS: usize = 178;
pub const BELOW: u8 = 178;
pub const ABOVE: u8 = 179;
pub const BAD_BIAS: u8 = 180;
pub const BAD_PIXEL: u8 = 181;
/// What a row lacks, and a row that is not there.
pub const MISSING: u8 = 182;
/// Where neither the sheet nor the map is.
pub const BACKGROUND: u8 = 183;
const FIRST_GREEN: usize = 184;
/// The lightest green is so many above the first.
const LAST_GREEN: usize = 71;

/// The colours of the indices 178 to 183.
const OWN: [[u8; 3]; 6] =
    [[112, 0, 160], [0, 224, 255], [255, 200, 0], [255, 0, 0], [32, 64, 208], [250, 244, 220]];
/// The first green, far darker than the others.
const NO_COUNT: [u8; 3] = [0, 32, 0];

/// The range in 178 steps, all but equal; bad spots are no heights.
pub fn height_index(range: Range, height: u16) -> u8 {
    match height {
        4095 => BAD_PIXEL,
        4094 => BAD_BIAS,
        _ if height < range.low => BELOW,
        _ if height > range.high => ABOVE,
        _ => {
            let (above, heights) = (height - range.low, range.high - range.low + 1);
            (usize::from(above) * GREYS / usize::from(heights)) as u8
        }
    }
}

/// The darkest green for no count, the lightest for the largest; `most` is it,
/// or 1 if all are 0.
pub fn count_index(most: u16, count: u16) -> u8 {
    let (most, count) = (usize::from(most), usize::from(count));
    (FIRST_GREEN + (count * LAST_GREEN).div_ceil(most)) as u8
}

/// Red, green and blue of all 256 indices.
pub fn palette() -> Vec<u8> {
    (0..256).flat_map(colour).collect()
}

fn colour(index: usize) -> [u8; 3] {
    if index < GREYS {
        return [(index * 255 / (GREYS - 1)) as u8; 3];
    }
    if index < FIRST_GREEN {
        return OWN[index - GREYS];
    }
    if index == FIRST_GREEN {
        return NO_COUNT;
    }
    let step = |most: usize| (index - FIRST_GREEN) * most / LAST_GREEN;
    [step(220) as u8, (80 + step(175)) as u8, step(140) as u8]
}

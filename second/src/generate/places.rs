//! Places of a reader of items.

use super::mutations::any_number;
use crate::answers::ReaderPlace;
use crate::random::Random;
use crate::row::{MAX_HEIGHT, MAX_PIXELS};
use crate::table::MAX_LENGTH;

/// A place that no reader need have come to: the place with some field changed.
pub fn odd_place(random: &mut Random, place: ReaderPlace) -> ReaderPlace {
    let (any, near) = (any_number(random), random.below(40) as u32);
    let most = place.count * MAX_LENGTH;
    let heights = MAX_HEIGHT as u32;
    match random.below(9) {
        0 => ReaderPlace { at: place.at + near, ..place },
        1 => ReaderPlace { at: random.pick(&[most, most + 1, most + near]), ..place },
        2 => ReaderPlace { at: any, ..place },
        3 => ReaderPlace { count: any, ..place },
        4 => full(random, place),
        5 => ReaderPlace { previous: any, begun: random.below(2) as u32, ..place },
        6 => ReaderPlace { previous: random.pick(&[heights, heights + 1]), begun: 1, ..place },
        7 => ReaderPlace { begun: random.pick(&[0, 1, 2, any]), ..place },
        _ => ReaderPlace { previous: 0, begun: 0, ..place },
    }
}

/// With about as many items as a row has, and the bits of such a row.
fn full(random: &mut Random, place: ReaderPlace) -> ReaderPlace {
    let count = MAX_PIXELS as u32 - 1 + random.below(3) as u32;
    let most = count * MAX_LENGTH;
    ReaderPlace { count, at: random.pick(&[place.at, most, most + 1]), ..place }
}

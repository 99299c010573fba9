//! Rows of DELTA arrays.

use crate::rows::count;
use crate::scene::Scene;
use second::compared::{DeltaCall, Outcome};
use second::generate::deltas::flaws::{change, changes, Change, Reading};
use second::generate::deltas::{Sound, Widths, SORTS};
use second::generate::mutations::any_number;
use second::random::Random;
use second::tally::Tally;

/// A row that is changed in its elements, in its bytes, in some argument, or in
/// several of these ways.
pub fn read(random: &mut Random, scene: &Scene, tally: &mut Tally) -> Outcome<()> {
    let (widths, sort) = (Widths::any(random), random.pick(&SORTS));
    let sound = Sound::new(random, widths, sort);
    let kind = random.pick(&changes());
    let kind = random.pick(&[Change::Among, kind]);
    let mut reading = change(random, &sound, kind);
    for array in [&mut reading.data, &mut reading.value, &mut reading.repeat] {
        if random.one_in(4) {
            *array = scene.changed(random, array);
        }
    }
    change_argument(random, &mut reading);
    DeltaCall::new(random, &reading).read(tally).map(|_| ())
}

/// Mostly leaves them as they are.
fn change_argument(random: &mut Random, reading: &mut Reading) {
    let Reading { n, widths, first, .. } = reading;
    match random.below(40) {
        0 => *n = count(random),
        1 => first.data = count(random),
        2 => first.value = count(random),
        3 => first.repeat = count(random),
        4 => widths.data = any_number(random),
        5 => widths.value = any_number(random),
        // Right in their low bits.
        6 => *n |= count(random) << 32,
        7 => first.data |= count(random) << 32,
        8 => first.value |= count(random) << 32,
        9 => first.repeat |= count(random) << 32,
        10 => widths.data |= any_number(random) << 16,
        11 => widths.value |= any_number(random) << 16,
        12 => reading.row_room = random.below(2 * reading.row_room + 20),
        13 => reading.marks_room = random.below(2 * reading.marks_room + 20),
        14 => *n = n.saturating_add(random.below(4) as u64).saturating_sub(2),
        _ => {}
    }
}

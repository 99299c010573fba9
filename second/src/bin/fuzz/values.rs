//! Adaptive numbers.

use crate::scene::{lent, Scene};
use second::compared::{read_signed, read_unsigned, write_signed, write_unsigned, Outcome};
use second::generate::numbers::{sample, shortest_form, value, Sort, SORTS};
use second::memory::Given;
use second::random::Random;
use second::tally::Tally;

/// The same bytes as either sort of number.
pub fn read(random: &mut Random, scene: &Scene, tally: &mut Tally) -> Outcome<()> {
    let sort = random.pick(&SORTS);
    let (bytes, _) = sample(random, sort);
    let bytes = scene.maybe_changed(random, &bytes);
    let given = Given::new(random, &bytes);
    read_signed(tally, &given)?;
    read_unsigned(tally, &given)?;
    Ok(())
}

pub fn write(random: &mut Random, tally: &mut Tally) -> Outcome<()> {
    let sort = random.pick(&SORTS);
    let value = value(random, sort);
    let lent = lent(random, shortest_form(sort, value).len());
    match sort {
        Sort::Signed => write_signed(tally, value as i32, &lent),
        Sort::Unsigned => write_unsigned(tally, value as u32, &lent),
    }
    .map(|_| ())
}

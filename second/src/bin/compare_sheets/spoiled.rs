//! Spoiled sheets, read until they are refused.

use crate::progress::Progress;
use crate::reading::read_until_refused;
use crate::trial::Trial;
use second::command::hex;
use second::compared::Outcome;
use second::generate::flaws::{flaws, spoil, Ending};
use second::memory::Given;
use second::random::Random;

pub fn compare(
    random: &mut Random,
    trial: &Trial,
    records: &[Vec<u8>],
    progress: &mut Progress,
) -> Outcome<()> {
    let flaw = random.pick(&flaws());
    let Some((bytes, wanted)) = spoil(random, trial.model(), records, flaw) else {
        return Ok(());
    };
    let sheet = Given::new(random, &bytes);
    let ending = read_until_refused(random, trial, &sheet, progress)
        .map_err(|what| format!("{what}a sheet spoiled by {flaw:?}\n"))?;
    progress.add_flaw(flaw);
    if wanted == Ending::Unknown || wanted == ending {
        return Ok(());
    }
    Err(format!("{flaw:?}: both end with {ending:?}, made for {wanted:?}\n{}", hex(&bytes)))
}

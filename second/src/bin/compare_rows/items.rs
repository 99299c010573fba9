//! A share of the rows and runs read an item a call.

use crate::progress::Progress;
use crate::trial::Trial;
use second::compared::{walk, Items};
use second::memory::Given;
use second::random::Random;

/// Reading an item checks the table and looks through its strings, so a row
/// costs its items times these. What costs more than this is read less often in
/// proportion; long rows and large tables would take all the time otherwise.
const WORK: usize = 60_000;

/// Reads the words, about `items` of them, to the end and past it.
pub fn compare(
    random: &mut Random,
    trial: &Trial,
    words: &[u8],
    items: usize,
    progress: &mut Progress,
) -> Result<(), String> {
    let strings = trial.codec().map_or(0, |codec| codec.table.codewords.len());
    if random.below(WORK + (items + words.len()) * strings) >= WORK {
        return Ok(());
    }
    let words = Given::new(random, words);
    walk(random, &mut progress.tally, Items { table: &trial.opened, words: &words })?;
    progress.walks += 1;
    Ok(())
}

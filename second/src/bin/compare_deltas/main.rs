//! Compares the proved library's reading of rows of DELTA arrays with the second
//! program's, over random rows at all widths of DATA and VALUE, sound and changed
//! in each way.

mod long;
mod progress;
mod reading;
mod seen;

use std::process::ExitCode;

use progress::Progress;
use second::command::{count_and_seed, report};
use second::compared::Outcome;
use second::generate::deltas::flaws::changes;
use second::generate::deltas::{Sound, Widths, SORTS};
use second::random::Random;

fn main() -> ExitCode {
    let (count, seed) = count_and_seed(300_000, 9);
    println!("compare_deltas: {count} rows, seed {seed}");
    let mut progress = Progress::default();
    match compare(count, &mut Random::new(seed), &mut progress) {
        Ok(()) => progress.verdict(),
        Err(what) => report("compare_deltas", &format!("{what}seed {seed}\n")),
    }
}

/// Each row is read back from its arrays, then read from them changed.
fn compare(count: u64, random: &mut Random, progress: &mut Progress) -> Outcome<()> {
    let changes = changes();
    while progress.rows < count {
        let (widths, sort) = (Widths::any(random), random.pick(&SORTS));
        let sound = Sound::new(random, widths, sort);
        let change = random.pick(&changes);
        reading::read_back(random, &sound, progress)
            .and_then(|()| reading::compare(random, &sound, change, progress))
            .map_err(|what| format!("{what}a row {sort:?}, changed by {change:?}\n"))?;
        progress.add(sort, change);
    }
    long::compare(random, progress)
}

//! Compares the proved library's reading and writing of pressure mat maps with
//! the second program's, over random maps of both group sizes, sound and changed
//! in each way.

mod progress;
mod reading;
mod writing;

use std::process::ExitCode;

use progress::Progress;
use second::command::{count_and_seed, report};
use second::compared::Outcome;
use second::generate::maps::flaws::changes;
use second::generate::maps::{Sound, SORTS};
use second::map::GROUPS;
use second::random::Random;

fn main() -> ExitCode {
    let (count, seed) = count_and_seed(200_000, 7);
    println!("compare_maps: {count} maps, seed {seed}");
    let mut progress = Progress::default();
    match compare(count, &mut Random::new(seed), &mut progress) {
        Ok(()) => progress.verdict(),
        Err(what) => report("compare_maps", &format!("{what}seed {seed}\n")),
    }
}

/// Each map is written, read back, changed and read.
fn compare(count: u64, random: &mut Random, progress: &mut Progress) -> Outcome<()> {
    let changes = changes();
    while progress.maps < count {
        let (group, sort) = (random.pick(&GROUPS), random.pick(&SORTS));
        let sound = Sound::new(random, group, sort);
        let change = random.pick(&changes);
        writing::compare(random, &sound, progress)
            .and_then(|()| reading::compare(random, &sound, change, progress))
            .map_err(|what| format!("{what}a map {sort:?}, changed by {change:?}\n"))?;
        progress.add(sort, change);
    }
    Ok(())
}

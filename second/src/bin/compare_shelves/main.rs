//! Compares the proved library's shelf of tables with the second program's, over
//! random scripts of calls by two parties, on shelves that are spoilt now and
//! then; and looks whether what one party gets depends on the other's places and
//! calls.

mod apart;
mod progress;
mod script;
mod seen;
mod uses;

use std::process::ExitCode;

use progress::Progress;
use second::command::{count_and_seed, report};
use second::compared::Outcome;
use second::random::Random;

fn main() -> ExitCode {
    let (count, seed) = count_and_seed(100_000, 8);
    println!("compare_shelves: {count} scripts, seed {seed}");
    let mut progress = Progress::default();
    match compare(count, &mut Random::new(seed), &mut progress) {
        Ok(()) => progress.verdict(),
        Err(what) => report("compare_shelves", &format!("{what}seed {seed}\n")),
    }
}

fn compare(count: u64, random: &mut Random, progress: &mut Progress) -> Outcome<()> {
    while progress.scripts < count {
        script::compare(random, progress)
            .map_err(|what| format!("{what}script {}\n", progress.scripts))?;
        progress.scripts += 1;
    }
    Ok(())
}

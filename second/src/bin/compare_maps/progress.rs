//! What has been compared so far.

use std::fmt::Debug;
use std::process::ExitCode;

use second::generate::maps::flaws::{changes, Change};
use second::generate::maps::{Sort, SORTS};
use second::tally::Tally;

/// The calls compared, every number of which must be reached.
const CALLS: [&str; 6] = [
    "read_map 4",
    "read_map 16",
    "read_map other",
    "write_map 4",
    "write_map 16",
    "write_map other",
];

#[derive(Default)]
pub struct Progress {
    pub tally: Tally,
    pub maps: u64,
    /// Maps that came of a change and were written again.
    pub again: u64,
    sorts: Vec<(Sort, u64)>,
    changes: Vec<(Change, u64)>,
}

impl Progress {
    pub fn add(&mut self, sort: Sort, change: Change) {
        self.maps += 1;
        add_one(&mut self.sorts, sort);
        add_one(&mut self.changes, change);
    }

    pub fn verdict(&self) -> ExitCode {
        let mut missed = self.tally.missed(&CALLS);
        missed.extend(print_counts(&self.sorts, &SORTS));
        missed.extend(print_counts(&self.changes, &changes()));
        print!("{}", self.tally.text());
        if !missed.is_empty() {
            println!("FAILED: never reached: {}", missed.join(", "));
            return ExitCode::FAILURE;
        }
        let Progress { tally, maps, again, .. } = self;
        let calls = tally.calls();
        println!("no difference in {maps} maps, {calls} calls; {again} changed maps written again");
        ExitCode::SUCCESS
    }
}

fn add_one<T: PartialEq>(counts: &mut Vec<(T, u64)>, kind: T) {
    match counts.iter_mut().find(|(seen, _)| *seen == kind) {
        Some((_, count)) => *count += 1,
        None => counts.push((kind, 1)),
    }
}

/// Gives the kinds that were never met.
fn print_counts<T: PartialEq + Debug>(counts: &[(T, u64)], kinds: &[T]) -> Vec<String> {
    let mut missed = Vec::new();
    for kind in kinds {
        let count = counts.iter().find(|(seen, _)| seen == kind).map_or(0, |seen| seen.1);
        println!("{count:>9}  {kind:?}");
        if count == 0 {
            missed.push(format!("{kind:?}"));
        }
    }
    missed
}

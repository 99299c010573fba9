//! What has been compared so far.

use std::fmt::Debug;
use std::process::ExitCode;

use crate::seen::Seen;
use second::generate::deltas::flaws::{changes, Change};
use second::generate::deltas::{Sort, SORTS};
use second::tally::Tally;

/// The calls compared, every number of which must be reached.
const CALLS: [&str; 10] = [
    "delta_row 8 8",
    "delta_row 8 16",
    "delta_row 8 32",
    "delta_row 16 8",
    "delta_row 16 16",
    "delta_row 16 32",
    "delta_row 32 8",
    "delta_row 32 16",
    "delta_row 32 32",
    "delta_row other",
];

#[derive(Default)]
pub struct Progress {
    pub tally: Tally,
    pub rows: u64,
    pub seen: Seen,
    /// Rows that lead out of 32 bits by differences alone.
    pub long: u64,
    sorts: Vec<(Sort, u64)>,
    changes: Vec<(Change, u64)>,
}

impl Progress {
    pub fn add(&mut self, sort: Sort, change: Change) {
        self.rows += 1;
        add_one(&mut self.sorts, sort);
        add_one(&mut self.changes, change);
    }

    pub fn verdict(&self) -> ExitCode {
        let mut missed = self.tally.missed(&CALLS);
        missed.extend(self.seen.missed());
        missed.extend(print_counts(&self.sorts, &SORTS));
        missed.extend(print_counts(&self.changes, &changes()));
        print!("{}{}", self.seen.text(), self.tally.text());
        if !missed.is_empty() {
            println!("FAILED: never reached: {}", missed.join(", "));
            return ExitCode::FAILURE;
        }
        let Progress { tally, rows, long, .. } = self;
        println!("{long} rows that differences alone lead to the end of 32 bits and beyond");
        println!("no difference in {rows} rows, {} calls", tally.calls());
        ExitCode::SUCCESS
    }
}

fn add_one<T: PartialEq>(counts: &mut Vec<(T, u64)>, kind: T) {
    match counts.iter_mut().find(|(seen, _)| *seen == kind) {
        Some((_, count)) => *count += 1,
        None => counts.push((kind, 1)),
    }
}

/// Gives the kinds that were never met.
fn print_counts<T: PartialEq + Debug>(counts: &[(T, u64)], kinds: &[T]) -> Vec<String> {
    let mut missed = Vec::new();
    for kind in kinds {
        let count = counts.iter().find(|(seen, _)| seen == kind).map_or(0, |seen| seen.1);
        println!("{count:>9}  {kind:?}");
        if count == 0 {
            missed.push(format!("{kind:?}"));
        }
    }
    missed
}

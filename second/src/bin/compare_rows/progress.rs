//! What has been compared so far.

use std::process::ExitCode;

use crate::seen::Seen;
use second::tally::Tally;

/// The calls compared, every number of which must be reached.
const CALLS: [&str; 5] = ["pack", "unpack", "room", "open", "next"];

#[derive(Default)]
pub struct Progress {
    pub tally: Tally,
    pub tables: u64,
    pub rows: u64,
    pub runs: u64,
    /// The rows and runs that were read an item a call as well.
    pub walks: u64,
    /// What the packing rule tells apart.
    pub seen: Seen,
}

impl Progress {
    pub fn verdict(&self) -> ExitCode {
        print!("{}", self.tally.text());
        let mut missed = self.tally.missed(&CALLS);
        missed.extend(self.seen.missed());
        if !missed.is_empty() {
            println!("FAILED: never reached: {}", missed.join(", "));
            return ExitCode::FAILURE;
        }
        let Progress { rows, runs, walks, tables, .. } = self;
        println!("{walks} of them read an item a call");
        print!("{}", self.seen.text());
        println!("no difference in {rows} rows and {runs} runs of words, {tables} tables");
        ExitCode::SUCCESS
    }
}

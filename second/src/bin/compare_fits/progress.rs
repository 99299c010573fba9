//! What has been compared so far.

use std::process::ExitCode;

use second::generate::scans::flaws::{changes, Change};
use second::tally::Tally;

/// The calls compared, every number of which must be reached.
const CALLS: [&str; 2] = ["fits_header", "fits_row"];

#[derive(Default)]
pub struct Progress {
    pub tally: Tally,
    pub scans: u64,
    /// Sheets that were read back, and their rows.
    pub sheets: u64,
    pub rows: u64,
    changed: Vec<(Change, u64)>,
}

impl Progress {
    pub fn add_change(&mut self, change: Change) {
        self.scans += 1;
        match self.changed.iter_mut().find(|(seen, _)| *seen == change) {
            Some((_, count)) => *count += 1,
            None => self.changed.push((change, 1)),
        }
    }

    pub fn verdict(&self) -> ExitCode {
        let mut missed = self.tally.missed(&CALLS);
        for change in changes() {
            let count = self.changed.iter().find(|(seen, _)| *seen == change);
            let count = count.map_or(0, |seen| seen.1);
            println!("{count:>9}  {change:?}");
            if count == 0 {
                missed.push(format!("{change:?}"));
            }
        }
        print!("{}", self.tally.text());
        if !missed.is_empty() {
            println!("FAILED: never reached: {}", missed.join(", "));
            return ExitCode::FAILURE;
        }
        let Progress { tally, scans, sheets, rows, .. } = self;
        let calls = tally.calls();
        println!(
            "no difference in {scans} scans, {calls} calls; {sheets} sheets, {rows} rows read back"
        );
        ExitCode::SUCCESS
    }
}

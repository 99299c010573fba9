//! What has been compared so far.

use std::process::ExitCode;

use second::generate::flaws::{flaws, Flaw};
use second::tally::Tally;

/// The calls compared, every number of which must be reached.
const CALLS: [&str; 7] = [
    "read_signed",
    "read_unsigned",
    "write_signed",
    "write_unsigned",
    "judge_record",
    "read_record",
    "write_record",
];

#[derive(Default)]
pub struct Progress {
    pub tally: Tally,
    pub numbers: u64,
    pub sheets: u64,
    /// Rows written with a number above 65535.
    pub past_rows: u64,
    /// Tables and lines written with one.
    pub rows_not_looked_at: u64,
    spoiled: Vec<(Flaw, u64)>,
}

impl Progress {
    pub fn add_flaw(&mut self, flaw: Flaw) {
        self.sheets += 1;
        match self.spoiled.iter_mut().find(|(seen, _)| *seen == flaw) {
            Some((_, count)) => *count += 1,
            None => self.spoiled.push((flaw, 1)),
        }
    }

    pub fn verdict(&self) -> ExitCode {
        let count = |flaw| self.spoiled.iter().find(|(seen, _)| *seen == flaw);
        let counts = flaws().into_iter().map(|flaw| (flaw, count(flaw).map_or(0, |seen| seen.1)));
        let mut missed = self.tally.missed(&CALLS);
        for (flaw, count) in counts {
            println!("{count:>9}  {flaw:?}");
            if count == 0 {
                missed.push(format!("{flaw:?}"));
            }
        }
        for (count, what) in [
            (self.past_rows, "rows above 65535 written"),
            (self.rows_not_looked_at, "row numbers above 65535 not looked at"),
        ] {
            println!("{count:>9}  {what}");
            if count == 0 {
                missed.push(what.into());
            }
        }
        print!("{}", self.tally.text());
        if !missed.is_empty() {
            println!("FAILED: never reached: {}", missed.join(", "));
            return ExitCode::FAILURE;
        }
        let calls = self.tally.calls();
        println!(
            "no difference in {} numbers, {} sheets, {calls} calls",
            self.numbers, self.sheets
        );
        ExitCode::SUCCESS
    }
}

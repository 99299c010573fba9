//! What has been compared so far.

use std::process::ExitCode;

use crate::seen::Seen;
use second::generate::shelves::spoils::{Spoil, SPOILS};
use second::tally::Tally;

/// The calls compared, every number of which must be reached.
const CALLS: [&str; 12] = [
    "shelf_open",
    "shelf_put",
    "shelf_remove",
    "shelf_pack",
    "shelf_unpack",
    "shelf_room",
    "shelf_open short",
    "shelf_put short",
    "shelf_remove short",
    "shelf_pack short",
    "shelf_unpack short",
    "shelf_room short",
];

#[derive(Default)]
pub struct Progress {
    pub tally: Tally,
    pub scripts: u64,
    pub seen: Seen,
    /// Uses that were held against the row call under the same table.
    pub uses: u64,
    /// Calls of one party that were made again beside others of the other.
    pub again: u64,
    /// The calls of the other between them.
    pub others: u64,
    spoils: [u64; SPOILS.len()],
}

impl Progress {
    pub fn add_spoil(&mut self, spoil: Spoil) {
        self.spoils[spoil as usize] += 1;
    }

    pub fn verdict(&self) -> ExitCode {
        let mut missed = self.tally.missed(&CALLS);
        missed.extend(self.seen.missed());
        for (spoil, count) in SPOILS.iter().zip(self.spoils) {
            println!("{count:>9}  places spoilt: {spoil:?}");
            if count == 0 {
                missed.push(format!("{spoil:?}"));
            }
        }
        print!("{}{}", self.seen.text(), self.tally.text());
        if !missed.is_empty() {
            println!("FAILED: never reached: {}", missed.join(", "));
            return ExitCode::FAILURE;
        }
        let Progress { tally, scripts, uses, again, others, .. } = self;
        println!("{uses} uses held against the row call under the same table");
        println!("{again} calls of one party made again between {others} others of the other");
        println!("no difference in {scripts} scripts, {} calls", tally.calls());
        ExitCode::SUCCESS
    }
}

//! Compares the proved library's adaptive numbers and records with the second
//! program's, over random numbers and sheets, sound and spoiled in each way.

mod numbers;
mod progress;
mod reading;
mod spoiled;
mod states;
mod trial;
mod writing;

use std::process::ExitCode;

use progress::Progress;
use second::command::{count_and_seed, report};
use second::compared::Outcome;
use second::generate::sheets::{sheet, Size};
use second::generate::tables::{table, Shape};
use second::known::{memo_table, plain_table, Labels};
use second::random::Random;
use second::table::MAX_ENTRIES;
use trial::Trial;

fn main() -> ExitCode {
    let (count, seed) = count_and_seed(200_000, 3);
    println!("compare_sheets: {count} sheets, seed {seed}");
    let mut progress = Progress::default();
    match compare(count, &mut Random::new(seed), &mut progress) {
        Ok(()) => progress.verdict(),
        Err(what) => report("compare_sheets", &format!("{what}seed {seed}\n")),
    }
}

fn compare(count: u64, random: &mut Random, progress: &mut Progress) -> Outcome<()> {
    numbers::compare_ends(random, progress)?;
    let largest = table(random, Shape::Full, MAX_ENTRIES as usize).bytes();
    let known = [
        plain_table(),
        memo_table(Labels::Version11),
        memo_table(Labels::Version01a),
        // Its record is as long as a record may be.
        largest,
    ];
    let mut known = known.into_iter();
    while progress.sheets < count {
        let trial = match known.next() {
            Some(table) => Trial::new(random, &table),
            None => Trial::any(random),
        };
        for _ in 0..trial.sheets {
            compare_sheet(random, &trial, progress)?;
            for _ in 0..4 {
                numbers::compare(random, progress)?;
            }
        }
    }
    // Last, as the papers leave them to a reading of their own.
    for _ in 0..100 + count / 50 {
        states::compare(random, progress)?;
    }
    Ok(())
}

/// One sheet, written and read, and then spoiled in some ways.
fn compare_sheet(random: &mut Random, trial: &Trial, progress: &mut Progress) -> Outcome<()> {
    let size = Size::small(random);
    let entries = sheet(random, trial.table.bytes(), trial.model(), size);
    let mut records = writing::write_sheet(random, trial, &entries, progress)?;
    if random.one_in(2) {
        let foreign = |random: &mut Random, index: usize| {
            entries[index].foreign_record(random, trial.model())
        };
        records = (0..entries.len()).map(|index| foreign(random, index)).collect();
    }
    reading::read_sound(random, trial, &records, &entries, progress)?;
    for _ in 0..3 {
        spoiled::compare(random, trial, &records, progress)?;
    }
    Ok(())
}

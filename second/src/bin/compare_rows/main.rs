//! Compares the proved library's packing, unpacking, room question and item
//! reader with the second program's, over random rows and runs of words.

mod first;
mod former;
mod items;
mod packing;
mod progress;
mod repacking;
mod room;
mod seen;
mod trial;
mod unpacking;

use std::process::ExitCode;

use progress::Progress;
use second::command::{count_and_seed, report};
use second::known::{memo_table, plain_table, Labels};
use second::random::Random;
use trial::Trial;

fn main() -> ExitCode {
    let (count, seed) = count_and_seed(1_000_000, 2);
    println!("compare_rows: {count} rows and runs of words, seed {seed}");
    let mut random = Random::new(seed);
    let mut progress = Progress::default();
    let written_out =
        [plain_table(), memo_table(Labels::Version11), memo_table(Labels::Version01a)];
    let mut written_out = written_out.into_iter();
    while progress.rows + progress.runs < count {
        let trial = match written_out.next() {
            Some(table) => Trial::new(&mut random, &table, 2000),
            None => Trial::any(&mut random),
        };
        if let Err(what) = try_table(&mut random, &trial, &mut progress) {
            return report("compare_rows", &format!("{what}seed {seed}\n"));
        }
        progress.tables += 1;
    }
    progress.verdict()
}

fn try_table(random: &mut Random, trial: &Trial, progress: &mut Progress) -> Result<(), String> {
    room::compare(random, trial, progress)?;
    for _ in 0..trial.cases {
        if random.one_in(2) {
            packing::compare(random, trial, progress)?;
        } else {
            unpacking::compare(random, trial, progress)?;
        }
    }
    trial.check_unwritten()
}

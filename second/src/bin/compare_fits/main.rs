//! Compares the proved library's FITS headers and rows with the second
//! program's, over random scans, sound and changed in each way, and over
//! random arguments of the row call.

mod images;
mod progress;
mod rows;
mod written;

use std::process::ExitCode;

use progress::Progress;
use second::command::{count_and_seed, report};
use second::compared::Outcome;
use second::fits::{Converter, MAX_AXIS};
use second::generate::scans::flaws::{change, changes, Change};
use second::generate::scans::{scan, Size};
use second::random::Random;

fn main() -> ExitCode {
    let (count, seed) = count_and_seed(200_000, 6);
    println!("compare_fits: {count} scans, seed {seed}");
    let mut progress = Progress::default();
    match compare(count, &mut Random::new(seed), &mut progress) {
        Ok(()) => progress.verdict(),
        Err(what) => report("compare_fits", &format!("{what}seed {seed}\n")),
    }
}

fn compare(count: u64, random: &mut Random, progress: &mut Progress) -> Outcome<()> {
    let converter = Converter::default();
    // The smallest, and as much as a scan may be.
    for (width, rows) in [(1, 1), (MAX_AXIS, 1), (1, MAX_AXIS), (MAX_AXIS, 300)] {
        let size = Size { width, rows, others: 0 };
        compare_scan(random, &converter, size, Change::Nothing, progress)?;
    }
    let changes = changes();
    while progress.scans < count {
        let size = Size::any(random);
        // One in three as it is.
        let any = random.pick(&changes);
        let change = random.pick(&[Change::Nothing, any, any]);
        compare_scan(random, &converter, size, change, progress)?;
        for _ in 0..4 {
            rows::compare(random, &converter, progress)?;
        }
    }
    Ok(())
}

/// One scan, its header and its rows up to a refusal.
fn compare_scan(
    random: &mut Random,
    converter: &Converter,
    size: Size,
    kind: Change,
    progress: &mut Progress,
) -> Outcome<()> {
    let mut scan = scan(random, &converter.codec().table, size);
    let (bytes, wanted) = change(random, &mut scan, kind);
    let case = images::Case { converter, scan: &scan, bytes: &bytes, wanted };
    case.compare(random, progress).map_err(|what| format!("{what}a scan changed by {kind:?}\n"))?;
    progress.add_change(kind);
    Ok(())
}

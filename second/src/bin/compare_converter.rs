//! Compares the sheets and verdicts of the program that converts scans, run
//! with each on its standard input, with the second program's.

use std::env;
use std::ffi::OsString;
use std::path::Path;
use std::process::ExitCode;

use second::child::{run, Feed};
use second::command::{hex, numbers_given, report};
use second::fits::{Converter, MAX_AXIS};
use second::generate::scans::flaws::{change, changes, Change};
use second::generate::scans::{scan, Size};
use second::random::Random;

const USAGE: &str = "FITS_TO_SHEET [count] [seed]";
/// Those that a conversion can end with; it has room enough.
const NUMBERS: [u32; 5] = [0, 4, 11, 17, 18];

fn main() -> ExitCode {
    let Some(program) = env::args_os().nth(1) else {
        eprintln!("arguments: {USAGE}");
        return ExitCode::from(2);
    };
    let [count, seed] = numbers_given(USAGE, 1, [2000, 8]);
    println!("compare_converter: {count} scans, seed {seed}");
    let (mut random, mut counts) = (Random::new(seed), [0; NUMBERS.len()]);
    match compare(&program, count as usize, &mut random, &mut counts) {
        Ok(()) => verdict(&counts),
        Err(what) => report("compare_converter", &format!("{what}seed {seed}\n")),
    }
}

/// Every change in turn, sound scans between them, and some large ones.
fn compare(
    program: &OsString,
    count: usize,
    random: &mut Random,
    counts: &mut [u64],
) -> Result<(), String> {
    let (converter, changes) = (Converter::default(), changes());
    for index in 0..count {
        let (size, kind) = match index {
            0 => (Size { width: 1, rows: 1, others: 0 }, Change::Nothing),
            1 => (Size { width: MAX_AXIS, rows: 700, others: 354 }, Change::Nothing),
            2 => (Size { width: 3, rows: MAX_AXIS, others: 31 }, Change::Nothing),
            _ if random.one_in(3) => (Size::any(random), Change::Nothing),
            _ => (Size::any(random), changes[index % changes.len()]),
        };
        let mut scan = scan(random, &converter.codec().table, size);
        let (bytes, _) = change(random, &mut scan, kind);
        let number =
            compare_scan(program.as_ref(), &converter, random, &bytes).map_err(|what| {
                format!("{what}\n{kind:?}, a scan of {} bytes\n{}", bytes.len(), hex(&bytes))
            })?;
        let place = NUMBERS.iter().position(|&known| known == number);
        counts[place.ok_or(format!("both end with {number}\n"))?] += 1;
    }
    Ok(())
}

/// Gives the number that the conversion ends with.
fn compare_scan(
    program: &Path,
    converter: &Converter,
    random: &mut Random,
    bytes: &[u8],
) -> Result<u32, String> {
    let (sheet, verdict) = converter.sheet(bytes);
    let printed = run(program, bytes, Feed::any(random, bytes.len()))?;
    let said = String::from_utf8_lossy(&printed.complaints);
    if said != verdict.line() {
        return Err(format!("it ends with {said:?}, wanted {:?}", verdict.line()));
    }
    if printed.out != sheet {
        let same = printed.out.iter().zip(&sheet).take_while(|(a, b)| a == b).count();
        let (given, wanted) = (printed.out.len(), sheet.len());
        return Err(format!("{given} bytes, wanted {wanted}, which differ at byte {same}"));
    }
    Ok(verdict.number())
}

fn verdict(counts: &[u64]) -> ExitCode {
    let text = NUMBERS.iter().zip(counts).map(|(number, count)| format!(" {number}: {count}"));
    println!("scans {};{}", counts.iter().sum::<u64>(), text.collect::<String>());
    if counts.contains(&0) {
        println!("FAILED: a number was never reached");
        return ExitCode::FAILURE;
    }
    println!("no difference in any sheet or verdict");
    ExitCode::SUCCESS
}

#[cfg(test)]
mod tests {
    use super::*;

    /// Neither a copy nor silence is a sheet.
    #[test]
    fn other_programs_are_found_out() {
        let (converter, mut random) = (Converter::default(), Random::new(61));
        let size = Size { width: 3, rows: 2, others: 0 };
        let sound = scan(&mut random, &converter.codec().table, size).bytes();
        for program in ["cat", "true", "no-such-program"] {
            for bytes in [&sound[..], &[]] {
                let compared = compare_scan(program.as_ref(), &converter, &mut random, bytes);
                assert!(compared.is_err(), "{program}");
            }
        }
    }
}

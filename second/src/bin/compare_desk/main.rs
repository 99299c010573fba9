//! Compares what the desk's programs print, run on random sheets and pictures
//! with random options, with what the second program makes of them.

mod draw;
mod outcomes;
mod pictures;
mod rows;
mod sheets;
mod trial;

use std::env;
use std::path::Path;
use std::process::ExitCode;

use outcomes::Outcomes;
use second::command::{numbers_given, report};
use second::random::Random;
use trial::Desk;

const USAGE: &str = "FOLDER [count] [seed]";

fn main() -> ExitCode {
    let Some(folder) = env::args_os().nth(1) else {
        eprintln!("arguments: {USAGE}");
        return ExitCode::from(2);
    };
    let [count, seed] = numbers_given(USAGE, 1, [2000, 9]);
    println!("compare_desk: {count} sheets and {count} pictures, seed {seed}");
    let mut outcomes = Outcomes::default();
    match compare(folder.as_ref(), count as usize, &mut Random::new(seed), &mut outcomes) {
        Ok(()) => outcomes.verdict(),
        Err(what) => report("compare_desk", &format!("{what}seed {seed}\n")),
    }
}

/// Each sheet is drawn, and written as a picture and as text; each picture
/// becomes a sheet.
fn compare(
    folder: &Path,
    count: usize,
    random: &mut Random,
    outcomes: &mut Outcomes,
) -> Result<(), String> {
    let desk = Desk::new(folder)?;
    for index in 0..count {
        let sheet = sheets::any(random, index);
        draw::compare(&desk, random, &sheet, outcomes)?;
        rows::compare_pgm(&desk, random, &sheet, outcomes)?;
        rows::compare_text(&desk, random, &sheet, outcomes)?;
        pictures::compare(&desk, random, index, outcomes)?;
    }
    Ok(())
}

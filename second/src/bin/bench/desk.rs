//! The desk's programs, each run as a process on a whole sheet or picture,
//! beside the listing of the same sheet.

use std::ffi::OsString;
use std::fs::{self, File};
use std::path::{Path, PathBuf};
use std::process::{self, Command, Stdio};
use std::{env, io};

use crate::heights::{row, SIGMA};
use crate::timing::best_of_turns;
use second::child::{run_with, Printed, Source};
use second::conversion::Conversion;
use second::desk::sheet_to_pgm;
use second::generate::rows::pixel_bytes;
use second::known::plain_table;
use second::random::Random;

/// Width, rows, and how often each program is run.
type Size = (usize, usize, u32);

/// The largest square and the sample's size.
const SIZES: [Size; 2] = [(4096, 4096, 5), (160, 320, 200)];
/// So many rows differ, then they come again.
const DIFFERENT: usize = 64;

/// Each by the proved programs and by the second one.
const RUNS: [(&str, bool); 10] = [
    ("list_sheet", true),
    ("list_sheet", false),
    ("draw_sheet", true),
    ("draw_sheet", false),
    ("sheet_to_pgm", true),
    ("sheet_to_pgm", false),
    ("sheet_to_text", true),
    ("sheet_to_text", false),
    ("pgm_to_sheet", true),
    ("pgm_to_sheet", false),
];

pub fn print(folder: &Path) {
    println!("The desk, nanoseconds a sample; whole programs, from a file to nowhere;");
    println!("packed rows under the plain table, differences of sigma {SIGMA}");
    println!("  p/l  a proved program divided by the proved list_sheet of the same heights");
    println!(
        "{:<14} {:>11} {:>8} {:>8} {:>7}  {:>7}",
        "program", "samples", "proved", "second", "p/s", "p/l"
    );
    let files = env::temp_dir().join(format!("bench-{}.files", process::id()));
    let all = fs::create_dir_all(&files).map_err(|error| error.to_string());
    let all =
        all.and_then(|()| SIZES.iter().try_for_each(|&size| print_size(folder, &files, size)));
    let _ = fs::remove_dir_all(&files);
    if let Err(what) = all {
        println!("not timed: {what}");
    }
    println!();
}

fn print_size(folder: &Path, files: &Path, size: Size) -> Result<(), String> {
    let (width, rows, turns) = size;
    write_inputs(files, width, rows).map_err(|error| error.to_string())?;
    let runs = RUNS.map(|(program, proved)| Run::new(folder, files, program, proved));
    for pair in runs.chunks_exact(2) {
        // Both must print alike, or the times would mean nothing.
        if pair[0].printed()? != pair[1].printed()? {
            return Err(format!("{} differs from second's", pair[0].path.display()));
        }
    }
    let mut calls = runs.map(|run| move || run.once());
    let times = best_of_turns(turns, calls.each_mut().map(|call| call as &mut dyn FnMut()));
    let times = times.map(|time| 1e9 * time / (width * rows) as f64);
    for (index, (program, _)) in RUNS.iter().enumerate().step_by(2) {
        let [proved, second] = [times[index], times[index + 1]];
        let (samples, ratio) = (format!("{width} x {rows}"), proved / second);
        let beside = proved / times[0];
        println!(
            "{program:<14} {samples:>11} {proved:>8.2} {second:>8.2} {ratio:>7.3}  {beside:>7.3}"
        );
    }
    Ok(())
}

/// A sheet, and its picture.
fn write_inputs(files: &Path, width: usize, rows: usize) -> io::Result<()> {
    let mut random = Random::new(9);
    let different: Vec<_> = (0..DIFFERENT).map(|_| pixel_bytes(&row(&mut random, width))).collect();
    let conversion = Conversion::new(&plain_table()).expect("the plain table is accepted");
    let (sheet, _) = conversion.sheet((0..rows).map(|row| Ok(different[row % DIFFERENT].clone())));
    fs::write(files.join("pgm"), sheet_to_pgm("", &sheet, None).out)?;
    fs::write(files.join("sheet"), sheet)
}

/// A program to be run on an input.
struct Run {
    path: PathBuf,
    words: Vec<OsString>,
    input: PathBuf,
}

impl Run {
    fn new(folder: &Path, files: &Path, program: &str, proved: bool) -> Run {
        let input = files.join(if program == "pgm_to_sheet" { "pgm" } else { "sheet" });
        if proved {
            return Run { path: folder.join(program), words: Vec::new(), input };
        }
        let this = env::current_exe().expect("this program has a path");
        Run { path: this.with_file_name("desk"), words: vec![program.into()], input }
    }

    fn printed(&self) -> Result<Printed, String> {
        let printed = run_with(&self.path, &self.words, Source::File(&self.input));
        printed.map_err(|what| format!("{}: {what}", self.path.display()))
    }

    fn once(&self) {
        let input = File::open(&self.input).expect("it was written");
        let mut command = Command::new(&self.path);
        command.args(&self.words).stdin(input).stdout(Stdio::null()).stderr(Stdio::null());
        assert!(command.status().is_ok_and(|status| status.success()), "it ran before");
    }
}

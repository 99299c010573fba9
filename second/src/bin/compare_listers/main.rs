//! Compares the text of a sheet lister and of a table lister, run as
//! programs, with the second program's listings.

mod sheets;
mod tables;
mod verdict;

use std::env;
use std::ffi::OsString;
use std::path::Path;
use std::process::ExitCode;

use second::child::{self, Feed};
use second::command::{hex, numbers_given, report};
use second::listing::{list_sheet, list_table};
use second::random::Random;
use verdict::Numbers;

const USAGE: &str = "LIST_SHEET LIST_TABLE [count] [seed]";

/// An input, and in a word what it is.
pub struct Case {
    pub name: String,
    pub bytes: Vec<u8>,
}

fn main() -> ExitCode {
    let programs: Vec<OsString> = env::args_os().skip(1).take(2).collect();
    let [sheet_lister, table_lister] = &programs[..] else {
        eprintln!("arguments: {USAGE}");
        return ExitCode::from(2);
    };
    let [count, seed] = numbers_given(USAGE, 2, [2000, 5]);
    println!("compare_listers: {count} sheets and {count} tables, seed {seed}");
    let mut random = Random::new(seed);
    let (mut of_sheets, mut of_tables) = (Numbers::default(), Numbers::default());
    let result = (0..count).try_for_each(|index| {
        let sheet = sheets::any(&mut random, index as usize);
        compare(sheet_lister.as_ref(), &mut random, &sheet, list_sheet, &mut of_sheets)?;
        let table = tables::any(&mut random, index as usize);
        compare(table_lister.as_ref(), &mut random, &table, list_table, &mut of_tables)
    });
    match result {
        Ok(()) => verdict::verdict(&of_sheets, &of_tables),
        Err(what) => report("compare_listers", &format!("{what}seed {seed}\n")),
    }
}

/// Lists one input by the program and here.
fn compare(
    program: &Path,
    random: &mut Random,
    case: &Case,
    list: fn(&[u8]) -> String,
    numbers: &mut Numbers,
) -> Result<(), String> {
    let wanted = list(&case.bytes);
    let given = child::run(program, &case.bytes, Feed::any(random, case.bytes.len()));
    let difference = match given.map(|printed| printed.out) {
        Ok(given) if given == wanted.as_bytes() => {
            numbers.add(&wanted);
            return Ok(());
        }
        Ok(given) => difference(&given, &wanted),
        Err(what) => what,
    };
    let name = program.display();
    let Case { name: kind, bytes } = case;
    Err(format!("{name}: {difference}\n{kind}, {} bytes of input\n{}", bytes.len(), hex(bytes)))
}

/// The first line that differs, then all of both texts.
fn difference(given: &[u8], wanted: &str) -> String {
    let given = String::from_utf8_lossy(given);
    let line = given.split('\n').zip(wanted.split('\n')).take_while(|(a, b)| a == b).count();
    let at = |text: &str| text.split('\n').nth(line).unwrap_or_default().to_string();
    let first = format!("line {}: {:?}, wanted {:?}", line + 1, at(&given), at(wanted));
    format!("{first}\nlisted\n{given}\nwanted\n{wanted}")
}

#[cfg(test)]
mod tests {
    use super::*;

    #[test]
    fn first_difference() {
        let line = |given: &str, wanted: &str| {
            difference(given.as_bytes(), wanted).lines().next().unwrap().to_string()
        };
        assert_eq!(line("a\nb\n", "a\nc\n"), "line 2: \"b\", wanted \"c\"");
        assert_eq!(line("a\n", "a\nc\n"), "line 2: \"\", wanted \"c\"");
        assert_eq!(line("a\nc", "a\nc\n"), "line 3: \"\", wanted \"\"");
    }

    #[test]
    fn a_lister_that_copies_is_found_out() {
        let (mut random, mut numbers) = (Random::new(1), Numbers::default());
        let mut copied = |list: fn(&[u8]) -> String, bytes: &[u8]| {
            let case = Case { name: "text".to_string(), bytes: bytes.to_vec() };
            compare(Path::new("cat"), &mut random, &case, list, &mut numbers)
        };
        assert!(copied(list_table, b"refused 1\n").is_ok());
        assert!(copied(list_table, b"refused 1").is_err());
        assert!(copied(list_sheet, b"refused 14 at record 0\n").is_ok());
        assert!(copied(list_sheet, b"").is_err());
    }
}

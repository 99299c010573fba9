//! The second program in the place of one of the desk's, so that both can be
//! timed as processes: from standard input to standard output, no options.

use std::env;
use std::io::{self, Read, Write};

use second::child::Printed;
use second::desk::{draw_sheet, pgm_to_sheet, sheet_to_pgm, sheet_to_text, DrawOptions};
use second::listing::list_sheet;

fn main() -> io::Result<()> {
    let (mut input, name) = (Vec::new(), "standard input");
    let program = env::args().nth(1).unwrap_or_default();
    io::stdin().read_to_end(&mut input)?;
    let printed = match &program[..] {
        "list_sheet" => Printed { out: list_sheet(&input).into_bytes(), complaints: Vec::new() },
        "draw_sheet" => draw_sheet(&input, &DrawOptions::default()),
        "sheet_to_pgm" => sheet_to_pgm(name, &input, None),
        "sheet_to_text" => sheet_to_text(&input, None),
        "pgm_to_sheet" => pgm_to_sheet(name, &input, None),
        _ => return Err(io::Error::other("argument: the name of a program")),
    };
    io::stderr().write_all(&printed.complaints)?;
    io::stdout().write_all(&printed.out)
}

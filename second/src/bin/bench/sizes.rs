//! What the same heights take, packed and in the hands of programs that know
//! nothing of heights.

use std::io::Write;
use std::process::{Command, Stdio};
use std::thread;

use crate::heights::{tables, SIGMA, WIDTHS};
use crate::rows::{packed_row, Row};
use second::random::Random;
use second::reader::Codec;

/// Of all rows of a width together, nearly.
const PIXELS: usize = 1 << 16;
/// Length, kind, row number and count of a packed row's record.
const ROW_FIELDS: usize = 10;
/// Length and kind of a table's record.
const TABLE_FIELDS: usize = 6;

const COMPRESSORS: [(&str, &str); 3] = [("gzip", "-9"), ("xz", "-9"), ("zstd", "-19")];

pub fn print() {
    println!("Sizes, bits a pixel, of about {PIXELS} pixels; differences of sigma {SIGMA}");
    println!("  words  the words of the packed rows, each of which can be read alone");
    println!("  sheet  the same as a sheet, with the table and the fields of the records");
    println!(
        "The other programs are given all rows at once, 2 little-endian bytes a pixel (16 bits)"
    );
    print!("{:<12}", "");
    WIDTHS.iter().for_each(|width| print!("  {:>15}", format!("{width} a row")));
    print!("\n{:<12}", "");
    WIDTHS.iter().for_each(|_| print!("  {:>7} {:>7}", "words", "sheet"));
    println!();
    for (name, table) in tables() {
        print_packed(name, &table);
    }
    for (program, level) in COMPRESSORS {
        print_compressed(program, level);
    }
}

fn rows(table: &[u8], width: usize) -> Vec<Row> {
    let codec = Codec::open(table).expect("the table is accepted");
    let mut random = Random::new(6);
    (0..PIXELS / width).map(|_| packed_row(&mut random, &codec, width)).collect()
}

fn print_packed(name: &str, table: &[u8]) {
    print!("{name:<12}");
    for width in WIDTHS {
        let rows = rows(table, width);
        let words: usize = rows.iter().map(|row| row.words.len()).sum();
        let sheet = TABLE_FIELDS + table.len() + ROW_FIELDS * rows.len() + words;
        let bits_a_pixel = |bytes: usize| 8.0 * bytes as f64 / (rows.len() * width) as f64;
        print!("  {:>7.2} {:>7.2}", bits_a_pixel(words), bits_a_pixel(sheet));
    }
    println!();
}

fn print_compressed(program: &str, level: &str) {
    let (_, table) = &tables()[0];
    print!("{:<12}", format!("{program} {level}"));
    for width in WIDTHS {
        let heights: Vec<u8> = rows(table, width).into_iter().flat_map(|row| row.pixels).collect();
        match compressed(program, level, &heights) {
            Some(bytes) => print!("  {:>15.2}", 16.0 * bytes as f64 / heights.len() as f64),
            None => print!("  {:>15}", "not at hand"),
        }
    }
    println!();
}

/// The bytes that a program makes of its input; nothing where it cannot be run.
fn compressed(program: &str, level: &str, input: &[u8]) -> Option<usize> {
    let mut child = Command::new(program)
        .args([level, "-c"])
        .stdin(Stdio::piped())
        .stdout(Stdio::piped())
        .stderr(Stdio::null())
        .spawn()
        .ok()?;
    let mut to_child = child.stdin.take()?;
    // Written beside the reading, or both could wait for ever.
    let output = thread::scope(|scope| {
        scope.spawn(move || to_child.write_all(input));
        child.wait_with_output()
    });
    let output = output.ok()?;
    output.status.success().then_some(output.stdout.len())
}

#[cfg(test)]
mod tests {
    use super::*;

    #[test]
    fn what_is_not_at_hand_has_no_size() {
        assert_eq!(compressed("no-such-program", "-9", b"heights"), None);
    }

    #[test]
    fn what_goes_through_is_counted() {
        assert_eq!(compressed("wc", "-c", &[7; 300_000]), Some("300000\n".len()));
    }
}

//! A scan through the row call, beside the packing of the same rows.

use std::hint::black_box;

use crate::heights::{row, SIGMA};
use crate::timing::best_by_turns;
use second::ffi;
use second::fits::{Converter, MAX_AXIS};
use second::generate::rows::pixel_bytes;
use second::known::plain_table;
use second::random::Random;
use second::row::pack_under;

const WIDTH: usize = MAX_AXIS;
const ROWS: usize = 1024;
/// More than the record of any row.
const ROOM: usize = 8000;

/// A row as a scan has it, and as packing is given it.
struct Row {
    big_endian: Vec<u8>,
    pixels: Vec<u8>,
}

pub fn print() {
    println!("Scans, nanoseconds a pixel; {WIDTH} x {ROWS} pixels, differences of sigma {SIGMA}");
    println!(
        "  row   the row call of FITS images, which writes the row's record and knows its table"
    );
    println!(
        "  pack  the packing of the same rows under the plain table, which the proved call checks"
    );
    println!("        each time and second/ has checked before; \"pack alone\" is without that \"check\"");
    println!("{:<11} {:>8} {:>8} {:>7}", "call", "proved", "second", "p/s");
    let [row, second_row, pack, second_pack, check] =
        times().map(|time| 1e9 * time / (WIDTH * ROWS) as f64);
    let line = |call: &str, [proved, second]: [f64; 2]| {
        println!("{call:<11} {proved:>8.2} {second:>8.2} {:>7.3}", proved / second);
    };
    line("row", [row, second_row]);
    line("pack", [pack, second_pack]);
    println!("{:<11} {check:>8.2}", "check");
    let alone = pack - check;
    line("pack alone", [alone, second_pack]);
    println!("{:<11} {:>8.2} {:>8.2}", "row - alone", row - alone, second_row - second_pack);
    println!("{:<11} {:>8.3} {:>8.3}", "row / alone", row / alone, second_row / second_pack);
    println!();
}

/// Seconds for the whole image: the row call and packing, each proved and
/// second, and as many checks as it has rows.
fn times() -> [f64; 5] {
    let (converter, plain, rows) = (Converter::default(), plain_table(), rows());
    let table = &converter.codec().table;
    assert_alike(&converter, &rows);
    let width = WIDTH as u64;
    let proved_row =
        |place, row: &Row, out: &mut [u8]| ffi::fits_row(width, place, &row.big_endian, out).pair();
    let second_row =
        |place, row: &Row, out: &mut [u8]| converter.row(width, place, &row.big_endian, out).pair();
    let times = best_by_turns([
        &mut each(&rows, proved_row),
        &mut each(&rows, second_row),
        &mut each(&rows, |_, row, out| ffi::pack(&plain, &row.pixels, out)),
        &mut each(&rows, |_, row, out| pack_under(table, &row.pixels, out)),
        &mut each(&rows, |_, _, _| ffi::check(black_box(&plain))),
    ]);
    times
}

/// Makes a call for each row.
fn each<'a>(
    rows: &'a [Row],
    mut call: impl FnMut(u64, &Row, &mut [u8]) -> (u32, u32) + 'a,
) -> impl FnMut() + 'a {
    let mut out = vec![0; ROOM];
    move || {
        for (place, row) in (0..).zip(rows) {
            black_box(call(place, row, &mut out));
        }
    }
}

fn rows() -> Vec<Row> {
    let mut random = Random::new(7);
    let mut one = || {
        let row = row(&mut random, WIDTH);
        let big_endian = row.iter().flat_map(|pixel| pixel.to_be_bytes()).collect();
        Row { big_endian, pixels: pixel_bytes(&row) }
    };
    (0..ROWS).map(|_| one()).collect()
}

/// Both sides must write the same, or the times would mean nothing.
fn assert_alike(converter: &Converter, rows: &[Row]) {
    let (mut by_proved, mut by_second) = (vec![0; ROOM], vec![0; ROOM]);
    for (place, row) in (0..).zip(rows) {
        let proved = ffi::fits_row(WIDTH as u64, place, &row.big_endian, &mut by_proved);
        let second = converter.row(WIDTH as u64, place, &row.big_endian, &mut by_second);
        assert_eq!((proved.number, proved), (0, second));
        assert_eq!(by_proved, by_second);
    }
}

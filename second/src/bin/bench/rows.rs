//! Packing, unpacking and checking at each call, on rows of several widths.

use std::hint::black_box;

use crate::heights::{row, tables, SIGMA, WIDTHS};
use crate::timing::best;
use second::answers::Unpacked;
use second::ffi;
use second::generate::rows::pixel_bytes;
use second::random::Random;
use second::reader::{unpack, unpack_under, Codec};
use second::row::{pack, pack_under};
use second::table::check;

/// Several rows, so that no call meets the one it has just seen.
const ROWS: usize = 8;
const MOST_WORDS: usize = 3456;

/// Seconds for all rows: proved, second, second with the table checked once.
type Times = [f64; 3];

/// Packs or unpacks from the first slice to the second.
type Call<'a, T> = &'a mut dyn FnMut(&[u8], &mut [u8]) -> T;

/// A row's pixels, its packed words and its bits.
pub struct Row {
    pub pixels: Vec<u8>,
    pub words: Vec<u8>,
    pub bits: u32,
}

pub fn print() {
    println!("Rows, nanoseconds a pixel; differences of sigma {SIGMA}");
    println!(
        "The table is checked at each call; in the column \"once\" second/ has checked it before,"
    );
    println!(
        "and p/o is proved divided by once. \"check\" is the check alone, by the row's pixels"
    );
    println!(
        "{:<11} {:>6} {:<7} {:>8} {:>8} {:>7}  {:>8} {:>7}",
        "table", "pixels", "call", "proved", "second", "p/s", "once", "p/o"
    );
    for (name, table) in tables() {
        for width in WIDTHS {
            print_width(name, &table, width);
        }
    }
    println!();
}

fn print_width(name: &str, table: &[u8], width: usize) {
    let mut random = Random::new(4);
    let codec = Codec::open(table).expect("the table is accepted");
    let rows: Vec<Row> = (0..ROWS).map(|_| packed_row(&mut random, &codec, width)).collect();
    let line = |call: &str, times: Times| {
        let [proved, second, once] = times.map(|time| 1e9 * time / (ROWS * width) as f64);
        let ratio = proved / second;
        print!("{name:<11} {width:>6} {call:<7} {proved:>8.2} {second:>8.2} {ratio:>7.3}");
        if once.is_nan() {
            println!();
        } else {
            println!("  {once:>8.2} {:>7.3}", proved / once);
        }
    };
    line("pack", pack_times(table, &codec, &rows));
    line("unpack", unpack_times(table, &codec, &rows));
    line("check", check_times(table));
}

/// Packed by the second program; both must pack it alike, or the times would
/// mean nothing.
pub fn packed_row(random: &mut Random, codec: &Codec, width: usize) -> Row {
    let pixels = pixel_bytes(&row(random, width));
    let mut words = vec![0; 4 * MOST_WORDS];
    let (number, bits) = pack_under(&codec.table, &pixels, &mut words);
    assert_eq!(number, 0);
    words.truncate(4 * bits.div_ceil(32) as usize);
    Row { pixels, words, bits }
}

fn pack_times(table: &[u8], codec: &Codec, rows: &[Row]) -> Times {
    let mut memory = vec![0; 4 * MOST_WORDS];
    for row in rows {
        assert_eq!(ffi::pack(table, &row.pixels, &mut memory), (0, row.bits));
        assert_eq!(memory[..row.words.len()], row.words);
    }
    let mut all = |call: Call<(u32, u32)>| {
        best(|| {
            for row in rows {
                black_box(call(&row.pixels, &mut memory));
            }
        })
    };
    [
        all(&mut |pixels, words| ffi::pack(table, pixels, words)),
        all(&mut |pixels, words| pack(table, pixels, words)),
        all(&mut |pixels, words| pack_under(&codec.table, pixels, words)),
    ]
}

fn unpack_times(table: &[u8], codec: &Codec, rows: &[Row]) -> Times {
    let mut memory = vec![0; rows[0].pixels.len()];
    let n = (memory.len() / 2) as u64;
    for row in rows {
        assert_eq!(ffi::unpack(table, &row.words, n, &mut memory), Unpacked::done(row.bits));
        assert_eq!(memory, row.pixels);
    }
    let mut all = |call: Call<Unpacked>| {
        best(|| {
            for row in rows {
                black_box(call(&row.words, &mut memory));
            }
        })
    };
    [
        all(&mut |words, pixels| ffi::unpack(table, words, n, pixels)),
        all(&mut |words, pixels| unpack(table, words, n, pixels)),
        all(&mut |words, pixels| unpack_under(codec, words, n, pixels)),
    ]
}

/// As many checks as there are rows; there is no check without a check.
fn check_times(table: &[u8]) -> Times {
    let proved = best(|| {
        black_box(ffi::check(black_box(table)));
    });
    let second = best(|| {
        black_box(check(black_box(table)));
    });
    [proved, second, f64::NAN].map(|time| time * ROWS as f64)
}

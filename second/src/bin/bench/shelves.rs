//! A shelf of tables: its uses beside the row calls under the same table, and
//! what opening, putting and removing take.

use std::hint::black_box;

use crate::heights::tables;
use crate::rows::{packed_row, Row};
use crate::timing::best;
use second::answers::{Answer, Changed, Unpacked};
use second::ffi;
use second::random::Random;
use second::reader::Codec;
use second::shelf::{self, bytes_of, SHELF_BYTES, SIZE};

const WIDTH: usize = 1024;
/// Several rows, so that no call meets the one it has just seen.
const ROWS: usize = 8;
/// Her first place, where the table is.
const PLACE: u32 = 4;
const CHANGED: Changed = Changed { number: 0, place: PLACE };

/// Seconds of the two that a line compares.
type Times = [f64; 2];

type Open = fn([&[u8]; 4], &mut [u8]) -> Answer;
type Put = fn(&mut [u8], u32, &[u8]) -> Changed;
type Remove = fn(&mut [u8], u32, u32) -> Changed;

const OPEN: [Open; 2] = [ffi::shelf_open, shelf::open];
const PUT: [Put; 2] = [ffi::shelf_put, shelf::put];
const REMOVE: [Remove; 2] = [ffi::shelf_remove, shelf::remove];

pub fn print() {
    println!("Uses of a shelf, proved library, nanoseconds a pixel; rows of {WIDTH} pixels");
    println!("  s/r  under a place of the shelf divided by the row call under the same table");
    println!("{:<11} {:<7} {:>8} {:>8} {:>7}", "table", "call", "shelf", "row", "s/r");
    for (name, table) in tables() {
        print_uses(name, &table);
    }
    println!();
    println!("Changes of a shelf, microseconds a call");
    println!("{:<11} {:<7} {:>8} {:>8} {:>7}", "table", "call", "proved", "second", "p/s");
    for (name, table) in tables() {
        print_changes(name, &table);
    }
    println!();
}

fn print_line(name: &str, call: &str, [first, second]: Times) {
    println!("{name:<11} {call:<7} {first:>8.2} {second:>8.2} {:>7.3}", first / second);
}

fn print_uses(name: &str, table: &[u8]) {
    let mut random = Random::new(9);
    let codec = Codec::open(table).expect("the table is accepted");
    let rows: Vec<Row> = (0..ROWS).map(|_| packed_row(&mut random, &codec, WIDTH)).collect();
    let shelf = shelf_with(table);
    let a_pixel = |times: Times| times.map(|time| 1e9 * time / (ROWS * WIDTH) as f64);
    print_line(name, "pack", a_pixel(pack_times(&shelf, table, &rows)));
    print_line(name, "unpack", a_pixel(unpack_times(&shelf, table, &rows)));
}

/// Four common tables, and the same in her first place.
fn shelf_with(table: &[u8]) -> Vec<u8> {
    let mut shelf = vec![0; SHELF_BYTES];
    assert_eq!(ffi::shelf_open([table; 4], &mut shelf).number, 0);
    assert_eq!(ffi::shelf_put(&mut shelf, 0, table), CHANGED);
    shelf
}

fn pack_times(shelf: &[u8], table: &[u8], rows: &[Row]) -> Times {
    let mut memory = vec![0; 4 * WIDTH];
    for Row { pixels, words, bits } in rows {
        let answer = ffi::shelf_pack(shelf, 0, PLACE, pixels, &mut memory);
        assert_eq!((answer.pair(), &memory[..words.len()]), ((0, *bits), &words[..]));
    }
    let on_shelf = best(|| {
        for row in rows {
            black_box(ffi::shelf_pack(shelf, 0, PLACE, &row.pixels, &mut memory));
        }
    });
    let by_row = best(|| {
        for row in rows {
            black_box(ffi::pack(table, &row.pixels, &mut memory));
        }
    });
    [on_shelf, by_row]
}

fn unpack_times(shelf: &[u8], table: &[u8], rows: &[Row]) -> Times {
    let (mut memory, n) = (vec![0; 2 * WIDTH], WIDTH as u64);
    for Row { pixels, words, bits } in rows {
        let answer = ffi::shelf_unpack(shelf, 0, PLACE, words, n, &mut memory);
        assert_eq!((answer, &memory), (Unpacked::done(*bits), pixels));
    }
    let on_shelf = best(|| {
        for row in rows {
            black_box(ffi::shelf_unpack(shelf, 0, PLACE, &row.words, n, &mut memory));
        }
    });
    let by_row = best(|| {
        for row in rows {
            black_box(ffi::unpack(table, &row.words, n, &mut memory));
        }
    });
    [on_shelf, by_row]
}

fn print_changes(name: &str, table: &[u8]) {
    let shelf = &mut shelf_with(table)[..];
    let line = |call: &str, times: [f64; 2]| print_line(name, call, times.map(|time| 1e6 * time));
    line("open", OPEN.map(|open| best(|| assert_eq!(open([table; 4], shelf).number, 0))));
    let size = bytes_of(PLACE as usize).start + SIZE.start;
    line(
        "put",
        PUT.map(|put| {
            best(|| {
                // Free again, by its tableSize alone.
                shelf[size..size + 4].fill(0);
                assert_eq!(put(shelf, 0, black_box(table)), CHANGED);
            })
        }),
    );
    line(
        "remove",
        REMOVE.map(|remove| {
            best(|| {
                shelf[size] = 1;
                assert_eq!(remove(shelf, 0, PLACE), CHANGED);
            })
        }),
    );
}

//! Rows of DELTA arrays, read.

use std::hint::black_box;
use std::iter::repeat_n;

use crate::timing::best;
use second::answers::LongAnswer;
use second::delta::{read, write, Arrays, First};
use second::ffi;
use second::random::Random;

/// Several rows, so that no call meets the one it has just seen.
const ROWS: usize = 4;
const LENGTHS: [usize; 2] = [4096, 1_000_000];
/// Of VALUE.
const VALUE_BITS: u32 = 32;
/// The bits of DATA, and the sigma of values whose differences they hold.
const NOISE: [(u32, f64); 3] = [(8, 20.0), (16, 5000.0), (32, 3e8)];
const RUN_BITS: u32 = 16;
const LONGEST_RUN: usize = 60;

type Read = fn(u64, &Arrays, &mut [u8], &mut [u8]) -> LongAnswer;

/// The arrays of a row, and what both must make of them.
struct Row {
    arrays: [Vec<u8>; 3],
    values: Vec<u8>,
    marks: Vec<u8>,
}

pub fn print() {
    println!("Rows of DELTA arrays, nanoseconds an element; VALUE has {VALUE_BITS} bits");
    println!("  noise  values of sigma 20, 5000 and 3e8 by the bits of DATA: hardly anything else");
    println!("         than differences");
    println!("  runs   of 1 to {LONGEST_RUN} elements, one in four bad");
    println!("  bits   of all three arrays, by the row's elements");
    println!(
        "{:<6} {:>4} {:>8} {:>6} {:>8} {:>8} {:>7}",
        "row", "DATA", "elements", "bits", "proved", "second", "p/s"
    );
    for (bits, sigma) in NOISE {
        for length in LENGTHS {
            print_rows("noise", bits, length, |random| noise(random, length, sigma));
        }
    }
    for length in LENGTHS {
        print_rows("runs", RUN_BITS, length, |random| runs(random, length));
    }
    println!();
}

fn print_rows(
    name: &str,
    data_bits: u32,
    length: usize,
    row: impl Fn(&mut Random) -> Vec<Option<i32>>,
) {
    let mut random = Random::new(10);
    let rows: Vec<Row> = (0..ROWS).map(|_| stored(&row(&mut random), data_bits)).collect();
    let all = (ROWS * length) as f64;
    let bytes: usize = rows.iter().flat_map(|row| &row.arrays).map(|array| array.len()).sum();
    let bits = 8.0 * bytes as f64 / all;
    let [proved, second] = times(data_bits, length, &rows).map(|time| 1e9 * time / all);
    let ratio = proved / second;
    println!(
        "{name:<6} {data_bits:>4} {length:>8} {bits:>6.2} {proved:>8.2} {second:>8.2} {ratio:>7.3}"
    );
}

fn noise(random: &mut Random, length: usize, sigma: f64) -> Vec<Option<i32>> {
    let value = |random: &mut Random| random.gaussian(sigma).clamp(-1e9, 1e9) as i32;
    (0..length).map(|_| Some(value(random))).collect()
}

fn runs(random: &mut Random, length: usize) -> Vec<Option<i32>> {
    let mut row = Vec::with_capacity(length + LONGEST_RUN);
    while row.len() < length {
        let value = if random.one_in(4) { None } else { Some(random.below(4096) as i32) };
        row.extend(repeat_n(value, random.within(1..=LONGEST_RUN)));
    }
    row.truncate(length);
    row
}

fn stored(row: &[Option<i32>], data_bits: u32) -> Row {
    let value = |element: &Option<i32>| element.unwrap_or(0).to_le_bytes();
    Row {
        arrays: write(row, data_bits).bytes(data_bits, VALUE_BITS),
        values: row.iter().flat_map(value).collect(),
        marks: row.iter().map(|element| u8::from(element.is_none())).collect(),
    }
}

fn arrays(row: &Row, data_bits: u32) -> Arrays<'_> {
    let [data, value, repeat] = &row.arrays;
    Arrays { data_bits, data, value_bits: VALUE_BITS, value, repeat, first: First::default() }
}

/// Seconds for all rows, proved and second.
fn times(data_bits: u32, length: usize, rows: &[Row]) -> [f64; 2] {
    let (mut values, mut marks) = (vec![0; 4 * length], vec![0; length]);
    let (n, calls) = (length as u64, [ffi::delta_row as Read, read]);
    // Both must read alike, or the times would mean nothing.
    for row in rows {
        for call in calls {
            let answer = call(n, &arrays(row, data_bits), &mut values, &mut marks);
            assert_eq!(answer.pair(), (0, n));
            assert!(values == row.values && marks == row.marks);
        }
    }
    calls.map(|call| {
        best(|| {
            for row in rows {
                black_box(call(n, black_box(&arrays(row, data_bits)), &mut values, &mut marks));
            }
        })
    })
}

//! The reader that gives one item a call: what an item takes, and what a check
//! of the table takes.

use std::hint::black_box;
use std::mem::{align_of, size_of};

use crate::heights::tables;
use crate::rows::{packed_row, Row};
use crate::timing::best;
use second::answers::{ItemRead, ReaderPlace};
use second::ffi;
use second::random::Random;
use second::reader::Codec;

const WIDTH: usize = 160;

pub fn print() {
    println!("Items one a call, proved library, nanoseconds; a row of {WIDTH} pixels");
    println!("{:<11} {:>9} {:>11}", "table", "an item", "table check");
    for (name, table) in tables() {
        let codec = Codec::open(&table).expect("the table is accepted");
        let row = packed_row(&mut Random::new(5), &codec, WIDTH);
        let item = best(|| read_items(&table, &row)) / WIDTH as f64;
        let check = best(|| {
            black_box(ffi::check(black_box(&table)));
        });
        println!("{name:<11} {:>9.1} {:>11.1}", 1e9 * item, 1e9 * check);
    }
    println!();
}

fn read_items(table: &[u8], row: &Row) {
    let mut memory = vec![0; size_of::<ItemRead>() + align_of::<ItemRead>()];
    let start = memory.as_ptr().align_offset(align_of::<ItemRead>());
    let answer = &mut memory[start..start + size_of::<ItemRead>()];
    let mut place = ReaderPlace::default();
    for _ in 0..WIDTH {
        let item = ffi::next_item(table, &row.words, place, answer);
        assert_eq!(item.number, 0);
        place = black_box(item.place);
    }
}

//! The table check, at two sizes and several shapes.

use std::hint::black_box;

use crate::timing::best;
use second::ffi;
use second::generate::tables::{table, Draft, SHAPES};
use second::random::Random;
use second::table::check;

const ENTRIES: [usize; 2] = [512, 8187];

/// Microseconds of the proved check and of the second program's.
type Pair = (f64, f64);

pub fn print() {
    println!("Table check, microseconds, and how they grow from 515 strings to 8190");
    println!("{:<18} {:^27}  {:^27}  {:^17}", "", "515 strings", "8190 strings", "8190 by 515");
    println!(
        "{:<18} {:>9} {:>9} {:>7}  {:>9} {:>9} {:>7}  {:>8} {:>8}",
        "shape and order", "proved", "second", "p/s", "proved", "second", "p/s", "proved", "second"
    );
    let mut random = Random::new(3);
    for shape in SHAPES {
        for ordered in [false, true] {
            let order = if ordered { "ordered" } else { "mixed" };
            let times = ENTRIES.map(|entries| {
                let mut draft = table(&mut random, shape, entries);
                arrange(&mut random, &mut draft, ordered);
                time(&draft.bytes())
            });
            print_line(&format!("{shape:?} {order}"), times);
        }
    }
    println!();
}

/// Puts the entries in tree order or in none.
fn arrange(random: &mut Random, draft: &mut Draft, ordered: bool) {
    let entries = &mut draft.words[6..];
    random.shuffle(entries);
    if ordered {
        entries.sort_by_key(|word| (word >> 5).reverse_bits());
    }
}

fn time(table: &[u8]) -> Pair {
    assert_eq!((ffi::check(table).0, check(table).0), (0, 0), "both must accept the table");
    let proved = best(|| {
        black_box(ffi::check(black_box(table)));
    });
    let second = best(|| {
        black_box(check(black_box(table)));
    });
    (1e6 * proved, 1e6 * second)
}

fn print_line(name: &str, [small, large]: [Pair; 2]) {
    println!(
        "{name:<18} {:>9.1} {:>9.1} {:>7.3}  {:>9.1} {:>9.1} {:>7.3}  {:>8.1} {:>8.1}",
        small.0,
        small.1,
        small.0 / small.1,
        large.0,
        large.1,
        large.0 / large.1,
        large.0 / small.0,
        large.1 / small.1
    );
}

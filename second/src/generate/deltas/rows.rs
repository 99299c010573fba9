//! Rows of good and bad elements.

use std::iter::repeat_n;

use super::{any_of_width, within_bits, Sort, Widths};
use crate::delta::{largest, least};
use crate::random::Random;

/// How a row goes from one good element to the next.
const COURSES: [Sort; 4] = [Sort::Walk, Sort::Edges, Sort::Jumps, Sort::Ends];

/// A row whose values all have the bits of VALUE.
pub fn row(random: &mut Random, widths: Widths, sort: Sort, length: usize) -> Vec<Option<i32>> {
    let mut row = Vec::with_capacity(length);
    let mut previous = any_of_width(random, widths.value);
    if sort == Sort::OneRun {
        let value = random.one_in(2).then_some(previous);
        return vec![value; length];
    }
    // One part in so many is bad, and of the good ones one in so many is a run.
    let (bad, run) = match sort {
        Sort::Runs => (20, 2),
        Sort::Spots => (2, 20),
        Sort::Mixed => (6, 6),
        _ => (random.pick(&[50, 1000]), 1000),
    };
    while row.len() < length {
        let count = run_length(random).min(length - row.len());
        if random.one_in(bad) {
            row.extend(repeat_n(None, count));
            continue;
        }
        let course = if COURSES.contains(&sort) { sort } else { random.pick(&COURSES) };
        previous = next(random, widths, course, previous);
        let count = if random.one_in(run) { count } else { 1 };
        row.extend(repeat_n(Some(previous), count));
    }
    row
}

/// On either side of where runs begin; at times long.
fn run_length(random: &mut Random) -> usize {
    let long = random.pick(&[20, 20, 300]);
    let long = random.within(1..=long);
    random.pick(&[1, 1, 2, 3, 4, 5, long])
}

fn next(random: &mut Random, widths: Widths, course: Sort, previous: i32) -> i32 {
    let (low, high) = (least(widths.value), largest(widths.value));
    let difference = match course {
        Sort::Walk => random.below(15) as i64 - 7,
        Sort::Edges => edge(random, widths),
        Sort::Jumps => return any_of_width(random, widths.value),
        _ => return random.pick(&[low, low + 1, high - 1, high]),
    };
    within_bits(i64::from(previous) + difference, widths.value)
}

/// Near the least or the largest difference, or a flag.
fn edge(random: &mut Random, widths: Widths) -> i64 {
    let max = i64::from(widths.max());
    let near = random.below(9) as i64;
    random.pick(&[max - 7 + near, 3 - max - near])
}

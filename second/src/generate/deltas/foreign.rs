//! Rows in arrays that are made element by element of DATA, whatever a writer
//! would choose.

use std::iter::repeat_n;

use super::{any_of_width, Widths};
use crate::delta::{least, Flag, Written, FLAGS};
use crate::random::Random;

pub fn row(random: &mut Random, widths: Widths, length: usize) -> (Vec<Option<i32>>, Written) {
    let mut draft = Draft { widths, length, row: Vec::new(), written: Written::default() };
    let steps = random.pick(&[2, 2, 10]);
    while draft.row.len() < length {
        let previous = draft.row.last().copied().flatten();
        match previous {
            Some(previous) if !random.one_in(steps) => draft.put_step(random, previous),
            _ => {
                let flag = random.pick(&FLAGS);
                draft.put_flag(random, flag);
            }
        }
    }
    (draft.row, draft.written)
}

struct Draft {
    widths: Widths,
    length: usize,
    row: Vec<Option<i32>>,
    written: Written,
}

impl Draft {
    fn put_step(&mut self, random: &mut Random, previous: i32) {
        let (low, most) = (least(self.widths.data), self.widths.most());
        let small = random.below(15) as i32 - 7;
        let any = any_of_width(random, self.widths.data);
        let wanted = random.pick(&[small, any, low, most, i32::MIN, i32::MAX]);
        // As far towards it as both DATA and the sum allow.
        let lowest = i64::from(low).max(i64::from(i32::MIN) - i64::from(previous));
        let highest = i64::from(most).min(i64::from(i32::MAX) - i64::from(previous));
        let step = i64::from(wanted).clamp(lowest, highest) as i32;
        self.written.data.push(step);
        self.row.push(Some(previous + step));
    }

    fn put_flag(&mut self, random: &mut Random, flag: Flag) {
        let left = self.length - self.row.len();
        let few = random.within(1..=left.min(6));
        let any = random.within(1..=left);
        let count = if flag.has_count() { random.pick(&[1, few, few, any, left]) } else { 1 };
        self.written.data.push(flag.element(self.widths.max()));
        if flag.has_count() {
            self.written.counts.push(count as i32);
        }
        if flag.is_bad() {
            self.row.extend(repeat_n(None, count));
            if count < left {
                self.put_values(random, 1, 1);
            }
        } else if flag == Flag::Fulls {
            self.put_values(random, count, 1);
        } else {
            self.put_values(random, 1, count);
        }
    }

    /// So many values, each for so many elements.
    fn put_values(&mut self, random: &mut Random, values: usize, elements: usize) {
        for _ in 0..values {
            let value = any_of_width(random, self.widths.value);
            self.written.values.push(value);
            self.row.extend(repeat_n(Some(value), elements));
        }
    }
}

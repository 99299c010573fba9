//! The reader of a row, over the widths of DATA and VALUE.

use super::{Arrays, First, Flag};
use crate::refusal::{DELTA_COUNT, DELTA_PLACE, DELTA_START, DELTA_SUM, RECORD};

/// A row that was read.
#[derive(Debug)]
pub struct Row {
    /// 0 for a bad element.
    pub values: Vec<i32>,
    /// 1 for a bad element, else 0.
    pub marks: Vec<u8>,
    /// The elements of each array that it was read from.
    pub used: First,
}

type ReadRow = fn(&Arrays, usize) -> Result<Row, u32>;

/// The reader of arrays of these widths.
pub fn reader(arrays: &Arrays) -> Result<ReadRow, u32> {
    match (arrays.data_bits, arrays.value_bits) {
        (8, 8) => Ok(Reader::<1, 1>::read_row),
        (8, 16) => Ok(Reader::<1, 2>::read_row),
        (8, 32) => Ok(Reader::<1, 4>::read_row),
        (16, 8) => Ok(Reader::<2, 1>::read_row),
        (16, 16) => Ok(Reader::<2, 2>::read_row),
        (16, 32) => Ok(Reader::<2, 4>::read_row),
        (32, 8) => Ok(Reader::<4, 1>::read_row),
        (32, 16) => Ok(Reader::<4, 2>::read_row),
        (32, 32) => Ok(Reader::<4, 4>::read_row),
        _ => Err(RECORD),
    }
}

/// The bytes of a signed number.
trait Element: Copy {
    const MAX: i32;

    fn number(self) -> i32;
}

macro_rules! element {
    ($($bytes:literal $number:ty),*) => {
        $(impl Element for [u8; $bytes] {
            const MAX: i32 = <$number>::MAX as i32;

            fn number(self) -> i32 {
                <$number>::from_le_bytes(self).into()
            }
        })*
    };
}

element!(1 i8, 2 i16, 4 i32);

/// What is left of an array of elements of N bytes.
struct Rest<'a, const N: usize>(&'a [[u8; N]]);

impl<'a, const N: usize> Rest<'a, N>
where
    [u8; N]: Element,
{
    /// From a place on. One outside the array leaves nothing, which is faulty
    /// only where an element is taken.
    fn from(bytes: &'a [u8], first: u64) -> Rest<'a, N> {
        let elements = bytes.as_chunks().0;
        let first = usize::try_from(first).unwrap_or(usize::MAX);
        Rest(elements.get(first..).unwrap_or_default())
    }

    /// The next element, which stays.
    fn next(&self) -> Result<i32, u32> {
        self.0.first().map(|element| element.number()).ok_or(DELTA_PLACE)
    }

    fn take(&mut self) -> Result<i32, u32> {
        let next = self.next()?;
        self.0 = &self.0[1..];
        Ok(next)
    }

    fn take_several(&mut self, count: usize) -> Result<impl Iterator<Item = i32> + 'a, u32> {
        let (elements, rest) = self.0.split_at_checked(count).ok_or(DELTA_PLACE)?;
        self.0 = rest;
        Ok(elements.iter().map(|element| element.number()))
    }
}

struct Reader<'a, const D: usize, const V: usize> {
    data: Rest<'a, D>,
    values: Rest<'a, V>,
    counts: Rest<'a, 4>,
    /// The whole row, zeros behind the elements read so far. The last of these is
    /// good unless the row ends there.
    row: Vec<i32>,
    marks: Vec<u8>,
    /// How many are read.
    at: usize,
}

impl<const D: usize, const V: usize> Reader<'_, D, V>
where
    [u8; D]: Element,
    [u8; V]: Element,
{
    const LEAST_FLAG: i32 = <[u8; D]>::MAX - 4;

    fn read_row(arrays: &Arrays, n: usize) -> Result<Row, u32> {
        let Arrays { data, value, repeat, first, .. } = *arrays;
        let mut reader = Reader::<D, V> {
            data: Rest::from(data, first.data),
            values: Rest::from(value, first.value),
            counts: Rest::from(repeat, first.repeat),
            row: vec![0; n],
            marks: vec![0; n],
            at: 0,
        };
        let before = reader.left_in_arrays();
        reader.read_elements()?;
        let after = reader.left_in_arrays();
        let [data, value, repeat] = [0, 1, 2].map(|array| (before[array] - after[array]) as u64);
        let used = First { data, value, repeat };
        Ok(Row { values: reader.row, marks: reader.marks, used })
    }

    fn left_in_arrays(&self) -> [usize; 3] {
        [self.data.0.len(), self.values.0.len(), self.counts.0.len()]
    }

    /// The elements that the row still lacks.
    fn left(&self) -> usize {
        self.row.len() - self.at
    }

    fn read_elements(&mut self) -> Result<(), u32> {
        while self.left() > 0 {
            if self.data.next()? < Self::LEAST_FLAG {
                self.read_differences()?;
            } else {
                self.read_flagged()?;
            }
        }
        Ok(())
    }

    /// Differences up to a flag, or to the end of the row or of DATA.
    fn read_differences(&mut self) -> Result<(), u32> {
        let (before, rest) = self.row.split_at_mut(self.at);
        let mut sum = *before.last().ok_or(DELTA_START)?;
        let mut count = 0;
        for (element, difference) in rest.iter_mut().zip(self.data.0) {
            let difference = difference.number();
            if difference >= Self::LEAST_FLAG {
                break;
            }
            sum = sum.checked_add(difference).ok_or(DELTA_SUM)?;
            *element = sum;
            count += 1;
        }
        self.data.0 = &self.data.0[count..];
        self.at += count;
        Ok(())
    }

    fn read_flagged(&mut self) -> Result<(), u32> {
        let element = self.data.take()?;
        match Flag::of(element, <[u8; D]>::MAX).expect("at least the least flag") {
            Flag::Full => {
                let value = self.values.take()?;
                self.put(value, 1);
            }
            Flag::Alike => {
                let count = self.take_count()?;
                let value = self.values.take()?;
                self.put(value, at_least_one(count)?);
            }
            Flag::BadRun => {
                let count = self.take_count()?;
                self.read_bad(count)?;
            }
            Flag::OneBad => self.read_bad(1)?,
            Flag::Fulls => {
                let count = at_least_one(self.take_count()?)?;
                let values = self.values.take_several(count)?;
                self.row[self.at..].iter_mut().zip(values).for_each(|(element, v)| *element = v);
                self.at += count;
            }
        }
        Ok(())
    }

    /// A count, which may be below 1 but is not above what is left.
    fn take_count(&mut self) -> Result<i32, u32> {
        let count = self.counts.take()?;
        let is_above = usize::try_from(count).is_ok_and(|count| count > self.left());
        if is_above {
            Err(DELTA_PLACE)
        } else {
            Ok(count)
        }
    }

    fn put(&mut self, value: i32, count: usize) {
        self.row[self.at..][..count].fill(value);
        self.at += count;
    }

    /// Bad elements, and unless they end the row the good one after them.
    fn read_bad(&mut self, count: i32) -> Result<(), u32> {
        let ends_row = usize::try_from(count) == Ok(self.left());
        let good = if ends_row { None } else { Some(self.values.take()?) };
        let count = at_least_one(count)?;
        self.marks[self.at..][..count].fill(1);
        self.at += count;
        if let Some(value) = good {
            self.put(value, 1);
        }
        Ok(())
    }
}

fn at_least_one(count: i32) -> Result<usize, u32> {
    match usize::try_from(count) {
        Ok(count) if count > 0 => Ok(count),
        _ => Err(DELTA_COUNT),
    }
}

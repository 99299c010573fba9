//! What stood in the rows that were read, and the cases that the rules tell
//! apart: how often each was seen.

use second::delta::{largest, least, read_row, Flag, Row, FLAGS};
use second::generate::deltas::flaws::{Change, Reading};
use second::generate::deltas::Widths;
use second::refusal::{DELTA_COUNT, DELTA_PLACE, DELTA_SUM, DONE, ROOM};

#[derive(Clone, Copy)]
enum Case {
    Ended(Flag),
    EndedByStep,
    NoValueLeft(Flag),
    ValueLeft(Flag),
    NoElements,
    NoRepeat,
    Incomplete,
    BeyondValue,
    Largest,
    Least,
    Above,
    Below,
    CountAndValue,
    CountAlone,
    Huge,
}

use Case::*;

/// Every case must be reached.
const CASES: [(Case, &str); 21] = [
    (Ended(Flag::Full), "rows that end in MAX"),
    (Ended(Flag::Alike), "rows that end in MAX - 1"),
    (Ended(Flag::BadRun), "rows that end in MAX - 2, with the good element after it or without"),
    (Ended(Flag::OneBad), "rows that end in MAX - 3, likewise"),
    (Ended(Flag::Fulls), "rows that end in MAX - 4"),
    (EndedByStep, "rows that end in a difference"),
    (NoValueLeft(Flag::BadRun), "rows that a bad run ends where VALUE has no more"),
    (NoValueLeft(Flag::OneBad), "rows that a single bad element ends there"),
    (ValueLeft(Flag::BadRun), "rows that a bad run ends, with a value left that is not taken"),
    (ValueLeft(Flag::OneBad), "rows that a single bad element ends, likewise"),
    (NoElements, "rows of no elements with a place outside its array"),
    (NoRepeat, "rows without REPEAT"),
    (Incomplete, "rows with an incomplete element at the end of an array"),
    (BeyondValue, "rows with an element that VALUE's bits do not hold"),
    (Largest, "rows with 2147483647 as a sum"),
    (Least, "rows with -2147483648 as a sum"),
    (Above, "rows refused 28 for a sum above"),
    (Below, "rows refused 28 for a sum below"),
    (CountAndValue, "rows refused 25 for a value, with a count below 1"),
    (CountAlone, "rows refused 26 with MAX - 4 where VALUE has no more"),
    (Huge, "lengths of more than 32 bits refused 5"),
];

/// The flags, the differences, and the least element among these.
const KINDS: usize = FLAGS.len() + 2;
const KIND_NAMES: [&str; KINDS] =
    ["MAX", "MAX - 1", "MAX - 2", "MAX - 3", "MAX - 4", "differences", "least"];

#[derive(Default)]
pub struct Seen {
    cases: [u64; CASES.len()],
    /// The elements of DATA in rows that were done, by widths.
    elements: [[u64; KINDS]; 9],
}

impl Seen {
    pub fn add(&mut self, made: &Made) {
        let row = (made.number == DONE).then(|| Done::new(made.reading));
        for (&(case, _), count) in CASES.iter().zip(&mut self.cases) {
            let shows = match &row {
                Some(done) => done.shows(case),
                None => made.shows(case),
            };
            *count += u64::from(shows);
        }
        if let Some(done) = row {
            let widths = made.reading.widths;
            let index =
                Widths::all().position(|known| known == widths).expect("widths of the nine");
            done.count_elements(&mut self.elements[index]);
        }
    }

    pub fn text(&self) -> String {
        let case = |(&(_, name), count): (&(Case, &str), &u64)| format!("{count:>9}  {name}\n");
        let widths = |(Widths { data, value }, counts): (Widths, &[u64; KINDS])| {
            let kinds =
                KIND_NAMES.iter().zip(counts).map(|(name, count)| format!("{name}: {count}"));
            let kinds = kinds.collect::<Vec<_>>().join(", ");
            format!("elements of {data} bits in rows done, values of {value}: {kinds}\n")
        };
        let cases: String = CASES.iter().zip(&self.cases).map(case).collect();
        cases + &Widths::all().zip(&self.elements).map(widths).collect::<String>()
    }

    /// What was never seen.
    pub fn missed(&self) -> Vec<String> {
        let never = CASES.iter().zip(&self.cases).filter(|(_, &count)| count == 0);
        let mut missed: Vec<String> = never.map(|((_, name), _)| name.to_string()).collect();
        for (widths, counts) in Widths::all().zip(&self.elements) {
            let never = KIND_NAMES.iter().zip(counts).filter(|(_, &count)| count == 0);
            missed.extend(never.map(|(name, _)| format!("{name} at {widths:?}")));
        }
        missed
    }
}

/// A call that was made.
pub struct Made<'a> {
    pub reading: &'a Reading,
    pub kind: Change,
    pub number: u32,
}

impl Made<'_> {
    /// A row that is refused.
    fn shows(&self, case: Case) -> bool {
        let Made { reading, kind, number } = *self;
        match case {
            Above => (kind, number) == (Change::SumAbove, DELTA_SUM),
            Below => (kind, number) == (Change::SumBelow, DELTA_SUM),
            CountAndValue => (kind, number) == (Change::CountBelowNoValue, DELTA_PLACE),
            CountAlone => (kind, number) == (Change::CountBelowNoValue, DELTA_COUNT),
            Huge => number == ROOM && reading.n > u64::from(u32::MAX),
            _ => false,
        }
    }
}

/// A row that is done.
struct Done<'a> {
    reading: &'a Reading,
    row: Row,
    /// The elements of DATA that it was read from.
    data: Vec<i32>,
    /// The values that were not taken.
    values_left: u64,
}

impl<'a> Done<'a> {
    fn new(reading: &'a Reading) -> Done<'a> {
        let Reading { n, widths, first, .. } = *reading;
        let row = read_row(&reading.arrays(), n as usize).expect("a row that was done");
        let data = numbers(&reading.data, widths.data);
        let data = data.skip(first.data as usize).take(row.used.data as usize).collect();
        let values = numbers(&reading.value, widths.value).count() as u64;
        let values_left = values.saturating_sub(first.value).saturating_sub(row.used.value);
        Done { reading, row, data, values_left }
    }

    fn shows(&self, case: Case) -> bool {
        let Reading { n, widths, .. } = *self.reading;
        let last = self.data.last().map(|&element| Flag::of(element, largest(widths.data)));
        let ends_bad = |flag| last == Some(Some(flag)) && self.row.marks.ends_with(&[1]);
        let values = &self.row.values;
        let is_beyond =
            |value: &i32| !(least(widths.value)..=largest(widths.value)).contains(value);
        match case {
            Ended(flag) => last == Some(Some(flag)),
            EndedByStep => last == Some(None),
            NoValueLeft(flag) => ends_bad(flag) && self.values_left == 0,
            ValueLeft(flag) => ends_bad(flag) && self.values_left > 0,
            NoElements => n == 0 && self.has_place_outside(),
            NoRepeat => n > 0 && self.reading.repeat.is_empty(),
            Incomplete => n > 0 && self.arrays().any(|(array, _, bytes)| array.len() % bytes != 0),
            BeyondValue => values.iter().any(is_beyond),
            // VALUE itself cannot have it.
            Largest => widths.value < 32 && values.contains(&i32::MAX),
            Least => widths.value < 32 && values.contains(&i32::MIN),
            _ => false,
        }
    }

    /// Each array with its place and the bytes of an element.
    fn arrays(&self) -> impl Iterator<Item = (&[u8], u64, usize)> {
        let Reading { data, value, repeat, first, widths, .. } = self.reading;
        [
            (&data[..], first.data, widths.data as usize / 8),
            (&value[..], first.value, widths.value as usize / 8),
            (&repeat[..], first.repeat, 4),
        ]
        .into_iter()
    }

    fn has_place_outside(&self) -> bool {
        self.arrays().any(|(array, place, bytes)| place >= (array.len() / bytes) as u64)
    }

    fn count_elements(&self, counts: &mut [u64; KINDS]) {
        let bits = self.reading.widths.data;
        for &element in &self.data {
            let kind = Flag::of(element, largest(bits)).map_or(FLAGS.len(), |flag| flag as usize);
            counts[kind] += 1;
            counts[KINDS - 1] += u64::from(element == least(bits));
        }
    }
}

/// The whole numbers of so many bits.
fn numbers(bytes: &[u8], bits: u32) -> impl Iterator<Item = i32> + '_ {
    bytes.chunks_exact(bits as usize / 8).map(move |chunk| {
        let number = chunk.iter().rfold(0, |number, &byte| number << 8 | u32::from(byte));
        (number << (32 - bits)) as i32 >> (32 - bits)
    })
}

#[cfg(test)]
mod tests {
    use super::*;

    #[test]
    fn numbers_of_each_width() {
        let bytes = [1, 0, 0, 128, 255, 255, 255, 127, 9];
        let read = |bits| numbers(&bytes, bits).collect::<Vec<_>>();
        assert_eq!(read(8), [1, 0, 0, -128, -1, -1, -1, 127, 9]);
        assert_eq!(read(16), [1, -32768, -1, 32767]);
        assert_eq!(read(32), [i32::MIN + 1, i32::MAX]);
    }

    #[test]
    fn all_is_to_be_seen() {
        let seen = Seen::default();
        assert_eq!(seen.missed().len(), CASES.len() + 9 * KINDS);
        assert_eq!(seen.text().lines().count(), CASES.len() + 9);
    }
}

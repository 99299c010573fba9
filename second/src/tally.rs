//! How often each call of the library gave each number.

use crate::refusal::{has_place, DELTA_SUM};

const NUMBERS: usize = DELTA_SUM as usize + 1;

/// The calls, and for each the numbers that it can give. Those on maps are
/// counted by their group size: the numbers must be reached at each. Those on a
/// shelf that is too short are counted apart. Those on rows of DELTA arrays are
/// counted by the bits of DATA and of VALUE; where these give no 28, a sum leaves
/// 32 bits only in rows that are longer than any that is counted.
const CALLS: [(&str, &[usize]); 44] = [
    ("check", &[0, 1, 2, 3]),
    ("plain_table", &[0, 5]),
    ("pack", &[0, 1, 2, 3, 4, 5, 11]),
    ("unpack", &[0, 1, 2, 3, 5, 6, 7, 8, 9, 10, 11]),
    ("room", &[0, 1, 2, 3, 11]),
    ("open", &[0, 1, 2, 3]),
    ("next", &[0, 1, 2, 3, 6, 7, 8, 9, 11]),
    ("read_signed", &[0, 12, 13]),
    ("read_unsigned", &[0, 12, 13]),
    ("write_signed", &[0, 5]),
    ("write_unsigned", &[0, 5]),
    ("judge_record", &[0, 1, 2, 3, 4, 6, 7, 8, 9, 10, 11, 12, 13, 14, 15, 16]),
    ("read_record", &[0, 1, 2, 3, 4, 5, 6, 7, 8, 9, 10, 11, 12, 13, 14, 15, 16]),
    ("write_record", &[0, 1, 2, 3, 4, 5, 11, 15, 16]),
    ("fits_header", &[0, 5, 11, 17]),
    ("fits_row", &[0, 4, 5, 11, 17, 18]),
    ("read_map 4", &[0, 5, 19, 20, 21]),
    ("read_map 16", &[0, 5, 19, 20, 21]),
    ("read_map other", &[14]),
    ("write_map 4", &[0, 5, 14]),
    ("write_map 16", &[0, 5, 14]),
    ("write_map other", &[14]),
    ("shelf_open", &[0, 1, 2, 3]),
    ("shelf_put", &[0, 1, 2, 3, 22, 24]),
    ("shelf_remove", &[0, 23, 24]),
    ("shelf_pack", &[0, 1, 2, 3, 4, 5, 11, 23, 24]),
    ("shelf_unpack", &[0, 1, 2, 3, 5, 6, 7, 8, 9, 10, 11, 23, 24]),
    ("shelf_room", &[0, 1, 2, 3, 11, 23, 24]),
    ("shelf_open short", &[1, 2, 3, 5]),
    ("shelf_put short", &[5]),
    ("shelf_remove short", &[5]),
    ("shelf_pack short", &[5]),
    ("shelf_unpack short", &[5]),
    ("shelf_room short", &[5]),
    ("delta_row 8 8", &[0, 5, 25, 26, 27]),
    ("delta_row 8 16", &[0, 5, 25, 26, 27]),
    ("delta_row 8 32", &[0, 5, 25, 26, 27, 28]),
    ("delta_row 16 8", &[0, 5, 25, 26, 27]),
    ("delta_row 16 16", &[0, 5, 25, 26, 27]),
    ("delta_row 16 32", &[0, 5, 25, 26, 27, 28]),
    ("delta_row 32 8", &[0, 5, 25, 26, 27, 28]),
    ("delta_row 32 16", &[0, 5, 25, 26, 27, 28]),
    ("delta_row 32 32", &[0, 5, 25, 26, 27, 28]),
    ("delta_row other", &[14]),
];

/// The calls that say where the reading of a row stopped.
const PLACED: [&str; 4] = ["unpack", "judge_record", "read_record", "shelf_unpack"];

/// The numbers with which this call gives a place.
fn with_place(call: usize) -> impl Iterator<Item = usize> {
    let placed = PLACED.contains(&CALLS[call].0);
    let numbers = CALLS[call].1.iter().copied();
    numbers.filter(move |&number| placed && has_place(number as u32))
}

fn index_of(call: &str) -> usize {
    let index = CALLS.iter().position(|(name, _)| *name == call);
    index.unwrap_or_else(|| panic!("{call} is not in the list"))
}

type Counts = [[u64; NUMBERS]; CALLS.len()];

pub struct Tally {
    counts: Counts,
    /// Of these, the refusals with a place above 0.
    above: Counts,
}

impl Default for Tally {
    fn default() -> Tally {
        let none = [[0; NUMBERS]; CALLS.len()];
        Tally { counts: none, above: none }
    }
}

impl Tally {
    /// Counts a call. Its number must be one that it can give, and its place
    /// 0 where that number has none.
    pub fn add(&mut self, call: &str, number: u32, at: u32) {
        let (index, number) = (index_of(call), number as usize);
        assert!(CALLS[index].1.contains(&number), "{call} gave {number}");
        self.counts[index][number] += 1;
        if at > 0 {
            assert!(with_place(index).any(|n| n == number), "{call} gave {number} at {at}");
            self.above[index][number] += 1;
        }
    }

    pub fn calls(&self) -> u64 {
        self.counts.iter().flatten().sum()
    }

    /// Whether some call with this name has been counted.
    fn is_used(&self, call: usize) -> bool {
        self.counts[call].iter().any(|&count| count > 0)
    }

    /// A line for each call that was made.
    pub fn text(&self) -> String {
        let line = |call: usize| {
            let given = CALLS[call].1.iter().map(|&n| format!(" {n}: {}", self.counts[call][n]));
            let given: String = given.collect();
            let above = with_place(call).map(|n| format!(" {n}: {}", self.above[call][n]));
            let above: String = above.collect();
            let places = if above.is_empty() { "" } else { "; with a place above 0" };
            let total: u64 = self.counts[call].iter().sum();
            format!("{:<18} {total:>9} calls;{given}{places}{above}\n", CALLS[call].0)
        };
        (0..CALLS.len()).filter(|&call| self.is_used(call)).map(line).collect()
    }

    /// The numbers never reached, or never with a place above 0 where they
    /// have one, of the calls named.
    pub fn missed(&self, calls: &[&str]) -> Vec<String> {
        let of_call = |call: usize| {
            let name = CALLS[call].0;
            let never = move |&&n: &&usize| self.counts[call][n] == 0;
            let numbers = CALLS[call].1.iter().filter(never).map(move |n| format!("{name} {n}"));
            let places = with_place(call).filter(move |&n| self.above[call][n] == 0);
            numbers.chain(places.map(move |n| format!("{name} {n} with a place above 0")))
        };
        calls.iter().map(|call| index_of(call)).flat_map(of_call).collect()
    }

    /// The same of every call.
    pub fn missed_of_all(&self) -> Vec<String> {
        self.missed(&CALLS.map(|(name, _)| name))
    }
}

#[cfg(test)]
mod tests {
    use super::*;

    #[test]
    fn counts_and_misses() {
        let mut tally = Tally::default();
        assert!(tally.text().is_empty());
        assert_eq!(tally.missed(&["plain_table"]), ["plain_table 0", "plain_table 5"]);
        tally.add("read_signed", 12, 0);
        tally.add("read_signed", 12, 0);
        tally.add("write_signed", 0, 0);
        assert_eq!(tally.calls(), 3);
        let missed = tally.missed(&["read_signed", "write_signed"]);
        assert_eq!(missed, ["read_signed 0", "read_signed 13", "write_signed 5"]);
        let all: usize = CALLS.iter().map(|(_, numbers)| numbers.len()).sum();
        // 6 to 10 of four calls are to be reached with a place too.
        assert_eq!(tally.missed_of_all().len(), all + 20 - 2);
        assert!(tally.text().contains("2 calls; 0: 0 12: 2 13: 0\n"));
    }

    #[test]
    fn places_are_counted_apart() {
        let mut tally = Tally::default();
        for number in [0, 1, 2, 3, 5, 6, 7, 8, 9, 10, 11] {
            tally.add("unpack", number, 0);
        }
        let never = |n| format!("unpack {n} with a place above 0");
        assert_eq!(tally.missed(&["unpack"]), [6, 7, 8, 9, 10].map(never));
        for number in [6, 7, 9, 10] {
            tally.add("unpack", number, 1);
        }
        assert_eq!(tally.missed(&["unpack"]), [never(8)]);
        let places = "8: 1 9: 2 10: 2 11: 1; with a place above 0 6: 1 7: 1 8: 0 9: 1 10: 1\n";
        assert!(tally.text().ends_with(places), "{}", tally.text());
    }

    #[test]
    #[should_panic(expected = "read_record gave 11 at 3")]
    fn places_of_other_numbers_are_not_counted() {
        Tally::default().add("read_record", 11, 3);
    }

    #[test]
    #[should_panic(expected = "judge_record gave 5")]
    fn impossible_numbers_are_not_counted() {
        Tally::default().add("judge_record", 5, 0);
    }
}

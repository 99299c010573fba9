//! How often the listings ended with each number.

use std::process::ExitCode;

use second::refusal::has_place;

/// Counts by number, 0 being a listing that was not refused.
#[derive(Default)]
pub struct Numbers {
    counts: [u64; 17],
    /// Of these, the refusals with a bit above 0.
    above: [u64; 17],
}

const OF_SHEETS: &[usize] = &[0, 1, 2, 3, 4, 6, 7, 8, 9, 10, 11, 12, 13, 14, 15, 16];
const OF_TABLES: &[usize] = &[0, 1, 2, 3];

impl Numbers {
    /// Counts a listing by its last line.
    pub fn add(&mut self, text: &str) {
        let last = text.lines().last().unwrap_or_default();
        let refused = last.strip_prefix("refused ").and_then(|rest| rest.split(' ').next());
        let number = refused.map_or(0, |number| number.parse().expect("a number"));
        let count: &mut u64 = &mut self.counts[number];
        *count += 1;
        let bit = last.split_once(" bit ").map_or(0, |(_, bit)| bit.parse().expect("a bit"));
        self.above[number] += u64::from(bit > 0);
    }

    /// Prints the counts; whether none of these numbers is missing, and 6 to 10
    /// have had bits above 0.
    fn print(&self, name: &str, numbers: &[usize]) -> bool {
        let with_bit = |number: &&usize| has_place(**number as u32);
        let counts = numbers.iter().map(|&n| format!(" {n}: {}", self.counts[n]));
        let above = numbers.iter().filter(with_bit).map(|&n| format!(" {n}: {}", self.above[n]));
        let (counts, above): (String, String) = (counts.collect(), above.collect());
        let bits = if above.is_empty() { "" } else { "; with a bit above 0" };
        println!("{name} {};{counts}{bits}{above}", self.counts.iter().sum::<u64>());
        let counted = numbers.iter().all(|&number| self.counts[number] > 0);
        counted && numbers.iter().filter(with_bit).all(|&number| self.above[number] > 0)
    }
}

pub fn verdict(sheets: &Numbers, tables: &Numbers) -> ExitCode {
    let all_of_sheets = sheets.print("sheets", OF_SHEETS);
    let all_of_tables = tables.print("tables", OF_TABLES);
    if !all_of_sheets || !all_of_tables {
        println!("FAILED: a number, or one with a bit above 0, was never reached");
        return ExitCode::FAILURE;
    }
    println!("no difference in any listing");
    ExitCode::SUCCESS
}

#[cfg(test)]
mod tests {
    use super::*;

    #[test]
    fn last_lines() {
        let mut numbers = Numbers::default();
        numbers.add("table 1 low 2 size 3 worst 14\nrefused 16 at record 1\n");
        numbers.add("refused 3\n");
        numbers.add("done rows 2\n");
        numbers.add("0 0\nraw 10\n");
        assert_eq!((numbers.counts[16], numbers.counts[3], numbers.counts[0]), (1, 1, 2));
        assert!(!numbers.print("none", OF_TABLES));
    }

    #[test]
    fn last_lines_with_a_bit() {
        let mut numbers = Numbers::default();
        numbers.add("done rows 2\n");
        numbers.add("refused 6 at record 1 bit 0\n");
        numbers.add("refused 8 at record 1 bit 0\n");
        assert!(!numbers.print("6 at bit 0 only", &[0, 6]));
        numbers.add("row 3 pixels 2 plain\nrefused 6 at record 7 bit 35\n");
        assert!(numbers.print("6", &[0, 6]));
        assert!(!numbers.print("8 at bit 0 only", &[0, 6, 8]));
        assert_eq!((numbers.counts[6], numbers.above[6]), (2, 1));
    }
}

//! How often each program came to each of its ends.

use std::process::ExitCode;

/// The programs, and for each the ends that must be reached. Numbers are those
/// of refusals, 0 is none.
const ENDS: [(&str, &[&str]); 5] = [
    (
        "draw_sheet",
        &["0", "1", "2", "3", "4", "6", "7", "8", "9", "10", "11", "12", "13", "14", "15", "16"],
    ),
    ("map beside", &["none", "read", "14", "19", "20", "21"]),
    ("sheet_to_pgm", &["picture", "padded", "missing", "unequal", "no heights", "refused"]),
    ("sheet_to_text", &["all rows", "some rows", "refused"]),
    ("pgm_to_sheet", &["0", "0 and more bytes", "1", "2", "3", "4", "11", "17", "18"]),
];

#[derive(Default)]
pub struct Outcomes {
    counts: [[u64; 16]; ENDS.len()],
}

impl Outcomes {
    /// Counts an end, which must be a known one.
    pub fn add(&mut self, program: &str, end: &str) -> Result<(), String> {
        let index = ENDS.iter().position(|(name, _)| *name == program);
        let index = index.unwrap_or_else(|| panic!("{program} is not in the list"));
        let known = ENDS[index].1.iter().position(|known| *known == end);
        self.counts[index][known.ok_or(format!("{program}: both end with {end}\n"))?] += 1;
        Ok(())
    }

    pub fn verdict(&self) -> ExitCode {
        for ((program, ends), counts) in ENDS.iter().zip(&self.counts) {
            let line = ends.iter().zip(counts).map(|(end, count)| format!(" {end}: {count}"));
            let total: u64 = counts.iter().sum();
            println!("{program:<13} {total};{}", line.collect::<String>());
        }
        if !self.never().is_empty() {
            println!("FAILED: never reached: {}", self.never().join(", "));
            return ExitCode::FAILURE;
        }
        println!("no difference in anything printed");
        ExitCode::SUCCESS
    }

    fn never(&self) -> Vec<String> {
        let of_program = |((program, ends), counts): (&(&str, &[&str]), &[u64; 16])| {
            let never = ends.iter().zip(counts).filter(|(_, count)| **count == 0);
            never.map(|(end, _)| format!("{program} {end}")).collect::<Vec<_>>()
        };
        ENDS.iter().zip(&self.counts).flat_map(of_program).collect()
    }
}

/// The number of a verdict, `done rows ..` or `refused NUMBER ..`.
pub fn number_of(line: &str) -> &str {
    match line.strip_prefix("refused ") {
        Some(rest) => rest.split([' ', '\n']).next().unwrap_or_default(),
        None => "0",
    }
}

#[cfg(test)]
mod tests {
    use super::*;

    #[test]
    fn ends_are_counted() {
        let mut outcomes = Outcomes::default();
        let all: usize = ENDS.iter().map(|(_, ends)| ends.len()).sum();
        assert_eq!(outcomes.never().len(), all);
        assert!(outcomes.add("pgm_to_sheet", "17").is_ok());
        assert!(outcomes.add("pgm_to_sheet", "16").is_err());
        assert_eq!(outcomes.never().len(), all - 1);
    }

    #[test]
    fn numbers_of_verdicts() {
        let lines =
            ["done rows 3\n", "refused 17\n", "refused 4 at row 7\n", "refused 6 at record"];
        assert_eq!(lines.map(number_of), ["0", "17", "4", "6"]);
    }
}

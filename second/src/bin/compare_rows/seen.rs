//! The cases that the packing rule tells apart, and how often each was seen.

#[derive(Clone, Copy)]
pub enum Case {
    FirstPixel,
    AfterSpots,
    OnlySpots,
    StepFromZero,
    NoStepFromZero,
    Own,
    NeedlessRaw,
    FirstByStep,
    Both,
}

use Case::*;

const CASES: usize = Both as usize + 1;

/// The lines of the verdict; every case in them must be reached.
const LINES: [(&str, &[(Case, &str)]); 3] = [
    (
        "packed rows",
        &[
            (FirstPixel, "with the first pixel raw"),
            (AfterSpots, "with the first height raw after bad spots"),
            (OnlySpots, "of bad spots alone"),
        ],
    ),
    (
        "former words read as before",
        &[
            (StepFromZero, "with the step of the first height"),
            (NoStepFromZero, "the same as packed now"),
        ],
    ),
    (
        "runs packed again",
        &[
            (Own, "in the words read"),
            (NeedlessRaw, "in others for a needless raw height"),
            (FirstByStep, "in others for a first height by its step"),
            (Both, "in others for both"),
        ],
    ),
];

#[derive(Default)]
pub struct Seen {
    counts: [u64; CASES],
}

impl Seen {
    pub fn add(&mut self, case: Case) {
        self.counts[case as usize] += 1;
    }

    fn count(&self, case: Case) -> u64 {
        self.counts[case as usize]
    }

    pub fn text(&self) -> String {
        let line = |(of, cases): &(&str, &[(Case, &str)])| {
            let counts = cases.iter().map(|&(case, name)| format!("{} {name}", self.count(case)));
            format!("{of}: {}\n", counts.collect::<Vec<_>>().join(", "))
        };
        LINES.iter().map(line).collect()
    }

    /// The cases never seen.
    pub fn missed(&self) -> impl Iterator<Item = String> + '_ {
        LINES.iter().flat_map(move |(of, cases)| {
            let never = cases.iter().filter(move |(case, _)| self.count(*case) == 0);
            never.map(move |(_, name)| format!("{of}: {name}"))
        })
    }
}

#[cfg(test)]
mod tests {
    use super::*;

    #[test]
    fn every_case_is_to_be_reached() {
        let mut seen = Seen::default();
        assert_eq!(seen.missed().count(), CASES);
        for (_, cases) in LINES {
            cases.iter().for_each(|&(case, _)| seen.add(case));
        }
        assert_eq!(seen.missed().count(), 0);
        assert_eq!(seen.counts, [1; CASES]);
    }

    #[test]
    fn counts_stand_in_their_lines() {
        let mut seen = Seen::default();
        seen.add(OnlySpots);
        seen.add(OnlySpots);
        let text = seen.text();
        let line = text.lines().next().unwrap();
        assert!(line.starts_with("packed rows: 0 with the first pixel raw, 0 with"), "{line}");
        assert!(line.ends_with(", 2 of bad spots alone"), "{line}");
        assert_eq!(seen.missed().next(), Some("packed rows: with the first pixel raw".into()));
    }
}

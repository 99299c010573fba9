//! Compares the proved library's table check with the second program's over
//! random tables, sound and damaged in each way.

use std::process::ExitCode;

use second::command::{count_and_seed, hex, report};
use second::ffi;
use second::generate::damage::{damaged_table, damages};
use second::generate::tables::{entry_count, table, SHAPES};
use second::known::{memo_table, plain_table, Labels};
use second::random::Random;
use second::refusal::DONE;
use second::table::check;

/// A table with the kind it was made as, by its index among `kinds`.
struct Case {
    kind: usize,
    bytes: Vec<u8>,
    expected: Option<u32>,
}

struct Tally {
    numbers: [u64; 4],
    kinds: Vec<u64>,
}

fn main() -> ExitCode {
    let (count, seed) = count_and_seed(100_000, 1);
    let mut random = Random::new(seed);
    let mut tally = Tally { numbers: [0; 4], kinds: vec![0; kinds().len()] };
    println!("compare_tables: {count} random tables, seed {seed}");
    let random_cases = (0..count).map(|_| None);
    let cases = known_cases().into_iter().map(Some).chain(random_cases);
    for (index, known) in cases.enumerate() {
        let case = known.unwrap_or_else(|| any_case(&mut random));
        if let Err(what) = compare(&mut random, &case, &mut tally) {
            let kind = &kinds()[case.kind];
            let text = format!("{what}\ntable {index}, {kind}, seed {seed}\n{}", hex(&case.bytes));
            return report("compare_tables", &text);
        }
    }
    tally.verdict()
}

/// The names of all kinds: shapes of sound tables, written-out ones, damages.
fn kinds() -> Vec<String> {
    let shapes = SHAPES.iter().map(|shape| format!("sound {shape:?}"));
    let damages = damages().into_iter().map(|damage| format!("{damage:?}"));
    shapes.chain(["written out".to_string()]).chain(damages).collect()
}

fn known_cases() -> Vec<Case> {
    let tables = [plain_table(), memo_table(Labels::Version11), memo_table(Labels::Version01a)];
    let case = |bytes| Case { kind: SHAPES.len(), bytes, expected: Some(DONE) };
    tables.into_iter().map(case).collect()
}

fn any_case(random: &mut Random) -> Case {
    if random.one_in(2) {
        let (kind, entries) = (random.below(SHAPES.len()), entry_count(random));
        let bytes = table(random, SHAPES[kind], entries).bytes();
        Case { kind, bytes, expected: Some(DONE) }
    } else {
        let damages = damages();
        let index = random.below(damages.len());
        let bytes = damaged_table(random, damages[index]);
        Case { kind: SHAPES.len() + 1 + index, bytes, expected: damages[index].expected() }
    }
}

fn compare(random: &mut Random, case: &Case, tally: &mut Tally) -> Result<(), String> {
    // Lent at any address, between bytes that must stay as well.
    let start = random.within(8..=15);
    let mut memory = random.bytes(start + case.bytes.len() + 8);
    memory[start..start + case.bytes.len()].copy_from_slice(&case.bytes);
    let before = memory.clone();
    let proved = ffi::check(&memory[start..start + case.bytes.len()]);
    if memory != before {
        return Err("the check wrote to memory".to_string());
    }
    let second = check(&case.bytes);
    if proved != second {
        return Err(format!("number and M: proved {proved:?}, second {second:?}"));
    }
    if case.expected.is_some_and(|number| number != second.0) {
        return Err(format!("both answer {second:?}, made for {:?}", case.expected));
    }
    tally.numbers[second.0 as usize] += 1;
    tally.kinds[case.kind] += 1;
    Ok(())
}

impl Tally {
    fn verdict(&self) -> ExitCode {
        for (name, count) in kinds().iter().zip(&self.kinds) {
            println!("{count:>9}  {name}");
        }
        for (number, count) in self.numbers.iter().enumerate() {
            println!("{count:>9}  number {number}");
        }
        if self.numbers.contains(&0) || self.kinds.contains(&0) {
            println!("FAILED: a number or a kind was never reached");
            return ExitCode::FAILURE;
        }
        println!("no difference in {} tables", self.numbers.iter().sum::<u64>());
        ExitCode::SUCCESS
    }
}

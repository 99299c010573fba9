//! What the comparing programs share: arguments and reports.

use std::path::PathBuf;
use std::process::ExitCode;
use std::{env, fs, process};

/// Reads `[count] [seed]` from the command line.
pub fn count_and_seed(count: u64, seed: u64) -> (u64, u64) {
    let [count, seed] = numbers_given("[count] [seed]", 0, [count, seed]);
    (count, seed)
}

/// The numbers on the command line after so many other words; those that are
/// not given stay as they are here. Ends the program if anything else stands
/// there.
pub fn numbers_given<const N: usize>(usage: &str, after: usize, numbers: [u64; N]) -> [u64; N] {
    let words: Vec<String> = env::args().skip(1 + after).collect();
    parsed(&words, numbers).unwrap_or_else(|| {
        eprintln!("arguments: {usage}");
        process::exit(2);
    })
}

fn parsed<const N: usize>(words: &[String], mut numbers: [u64; N]) -> Option<[u64; N]> {
    if words.len() > N {
        return None;
    }
    for (number, word) in numbers.iter_mut().zip(words) {
        *number = word.parse().ok()?;
    }
    Some(numbers)
}

/// Bytes as hexadecimal text, 32 a line.
pub fn hex(bytes: &[u8]) -> String {
    let line = |chunk: &[u8]| chunk.iter().map(|byte| format!("{byte:02x}")).collect::<String>();
    bytes.chunks(32).map(|chunk| line(chunk) + "\n").collect()
}

/// Saves a report of a difference and says where; always a failure.
pub fn report(program: &str, text: &str) -> ExitCode {
    let name = format!("{program}-{}.txt", process::id());
    let path: PathBuf = env::temp_dir().join(name);
    let summary = text.lines().next().unwrap_or_default();
    println!("DIFFERENCE: {summary}");
    match fs::write(&path, text) {
        Ok(()) => println!("the case is in {}", path.display()),
        Err(error) => println!("{}: {error}\n{text}", path.display()),
    }
    ExitCode::FAILURE
}

#[cfg(test)]
mod tests {
    use super::*;

    #[test]
    fn numbers_replace_the_usual_ones() {
        let given = |words: &[&str]| {
            let words: Vec<String> = words.iter().map(|word| word.to_string()).collect();
            parsed(&words, [10, 20])
        };
        assert_eq!(given(&[]), Some([10, 20]));
        assert_eq!(given(&["7"]), Some([7, 20]));
        assert_eq!(given(&["7", "8"]), Some([7, 8]));
        for wrong in [&["x"][..], &["-1"], &["1", "2", "3"], &[""]] {
            assert_eq!(given(wrong), None);
        }
    }

    #[test]
    fn hex_lines() {
        assert_eq!(hex(&[]), "");
        assert_eq!(hex(&[0, 10, 255]), "000aff\n");
        assert_eq!(hex(&[1; 33]), "01".repeat(32) + "\n01\n");
    }
}

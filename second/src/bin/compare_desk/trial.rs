//! One program run on one input, and what it prints compared.

use std::ffi::OsString;
use std::fs;
use std::path::{Path, PathBuf};
use std::{env, process};

use second::child::{run_with, Feed, Printed, Source};
use second::command::hex;
use second::random::Random;

/// The files that options name.
const OPTION_FILES: [&str; 2] = ["map", "table"];

/// An input, and in a word what it is.
pub struct Case {
    pub name: String,
    pub bytes: Vec<u8>,
    /// Whether there are few of its size.
    pub big: bool,
}

/// The programs' folder, and a folder for files, which goes in the end.
pub struct Desk {
    programs: PathBuf,
    files: PathBuf,
}

impl Desk {
    pub fn new(programs: &Path) -> Result<Desk, String> {
        let files = env::temp_dir().join(format!("compare_desk-{}.files", process::id()));
        fs::create_dir_all(&files).map_err(|error| format!("{}: {error}\n", files.display()))?;
        Ok(Desk { programs: programs.to_path_buf(), files })
    }

    pub fn path(&self, name: &str) -> PathBuf {
        self.files.join(name)
    }

    /// Puts a file there, in the place of the last one of this name.
    pub fn file(&self, name: &str, bytes: &[u8]) -> Result<OsString, String> {
        let path = self.path(name);
        fs::write(&path, bytes).map_err(|error| format!("{}: {error}\n", path.display()))?;
        Ok(path.into_os_string())
    }

    /// Runs a program with these options on this input, which comes to it in
    /// any way. `wanted` is what it must print where the input has that name.
    pub fn compare(
        &self,
        random: &mut Random,
        program: &str,
        options: &[OsString],
        case: &Case,
        wanted: impl FnOnce(&str) -> Printed,
    ) -> Result<Printed, String> {
        let path = self.file("input", &case.bytes)?;
        let mut words = options.to_vec();
        let mut name = "standard input".to_string();
        let source = match random.below(4) {
            0 => Source::File(path.as_ref()),
            1 => {
                name = path.to_string_lossy().into_owned();
                add_file(random, &mut words, &path);
                Source::Pipe(&[], Feed::any(random, 0))
            }
            _ => {
                if random.one_in(4) {
                    add_file(random, &mut words, &"-".into());
                }
                Source::Pipe(&case.bytes, Feed::any(random, case.bytes.len()))
            }
        };
        let wanted = wanted(&name);
        let printed = run_with(&self.programs.join(program), &words, source);
        match printed.and_then(|printed| difference(&printed, &wanted)) {
            Ok(()) => Ok(wanted),
            Err(what) => Err(self.report(program, &words, case, &what)),
        }
    }

    /// The text of a report: what is wrong, and all bytes that were given.
    pub fn report(&self, program: &str, words: &[OsString], case: &Case, what: &str) -> String {
        let mut text = format!("{program} {words:?}: {what}\n");
        let mut add = |name: &str, bytes: &[u8]| {
            text.push_str(&format!("{name}, {} bytes\n{}", bytes.len(), hex(bytes)));
        };
        add(&case.name, &case.bytes);
        for name in OPTION_FILES {
            let is_given = words.iter().any(|word| *word == self.path(name));
            if let (true, Ok(bytes)) = (is_given, fs::read(self.path(name))) {
                add(name, &bytes);
            }
        }
        text
    }
}

impl Drop for Desk {
    fn drop(&mut self) {
        let _ = fs::remove_dir_all(&self.files);
    }
}

/// Before the options or after them, there at times after the word that ends
/// them.
fn add_file(random: &mut Random, words: &mut Vec<OsString>, file: &OsString) {
    match random.below(3) {
        0 => words.insert(0, file.clone()),
        1 => words.push(file.clone()),
        _ => words.extend(["--".into(), file.clone()]),
    }
}

fn difference(printed: &Printed, wanted: &Printed) -> Result<(), String> {
    if printed.complaints != wanted.complaints {
        let [said, wanted] =
            [printed, wanted].map(|printed| String::from_utf8_lossy(&printed.complaints));
        return Err(format!("it says {said:?}, wanted {wanted:?}"));
    }
    same_bytes(&printed.out, &wanted.out)
}

pub fn same_bytes(given: &[u8], wanted: &[u8]) -> Result<(), String> {
    if given == wanted {
        return Ok(());
    }
    let same = given.iter().zip(wanted).take_while(|(a, b)| a == b).count();
    let (given, wanted) = (given.len(), wanted.len());
    Err(format!("{given} bytes, wanted {wanted}, which differ at byte {same}"))
}

#[cfg(test)]
mod tests {
    use super::*;

    /// Neither a copy nor silence is what is wanted, and `cat` names no file.
    #[test]
    fn other_programs_are_found_out() {
        let (desk, mut random) = (Desk::new(Path::new("/bin")).unwrap(), Random::new(82));
        let case = Case { name: "text".to_string(), bytes: b"text".to_vec(), big: false };
        let mut compared = |program, out: &[u8], complaints: &[u8]| {
            let wanted = Printed { out: out.to_vec(), complaints: complaints.to_vec() };
            desk.compare(&mut random, program, &[], &case, |_| wanted)
        };
        for _ in 0..30 {
            assert!(compared("cat", b"text", b"").is_ok());
            assert!(compared("cat", b"texts", b"").is_err());
            assert!(compared("cat", b"text", b"done\n").is_err());
            assert!(compared("true", b"text", b"").is_err());
            assert!(compared("no-such-program", b"", b"").is_err());
        }
    }
}

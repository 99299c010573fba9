//! A program run with bytes on its standard input.

use std::ffi::OsString;
use std::fs::File;
use std::io::{self, Read, Write};
use std::path::Path;
use std::process::{Child, ChildStdin, Command, Stdio};
use std::sync::mpsc;
use std::thread;
use std::time::Duration;

use crate::random::Random;

/// Every program ends, and none takes nearly so long.
const LIMIT: Duration = Duration::from_secs(120);

/// How an input comes to a program.
#[derive(Clone, Copy)]
pub struct Feed {
    /// The most bytes written at once.
    pub piece: usize,
    /// The time between two pieces.
    pub pause: Duration,
}

impl Feed {
    /// A program must not care how its input comes to it: at times it waits
    /// for the second half.
    pub fn any(random: &mut Random, length: usize) -> Feed {
        if random.one_in(20) {
            return Feed { piece: length / 2 + 1, pause: Duration::from_millis(10) };
        }
        let piece = random.pick(&[1, 7, 1 << 12, 1 << 20]).max(length / 2000);
        Feed { piece, pause: Duration::ZERO }
    }
}

/// What a program printed on standard output and on standard error.
#[derive(PartialEq, Eq, Debug)]
pub struct Printed {
    pub out: Vec<u8>,
    pub complaints: Vec<u8>,
}

/// Where a program's standard input comes from.
#[derive(Clone, Copy)]
pub enum Source<'a> {
    Pipe(&'a [u8], Feed),
    File(&'a Path),
}

impl Source<'_> {
    fn stdin(self) -> io::Result<Stdio> {
        Ok(match self {
            Source::Pipe(..) => Stdio::piped(),
            Source::File(path) => File::open(path)?.into(),
        })
    }
}

/// Runs the program with the input, and gives what it printed.
pub fn run(program: &Path, input: &[u8], feed: Feed) -> Result<Printed, String> {
    run_with(program, &[], Source::Pipe(input, feed))
}

/// The same with words behind its name.
pub fn run_with(program: &Path, words: &[OsString], source: Source) -> Result<Printed, String> {
    let mut child = source
        .stdin()
        .and_then(|stdin| {
            let mut command = Command::new(program);
            command.args(words).stdin(stdin).stdout(Stdio::piped()).stderr(Stdio::piped()).spawn()
        })
        .map_err(|error| format!("cannot run: {error}"))?;
    let to_child = child.stdin.take();
    let mut out = child.stdout.take().expect("a pipe was asked for");
    let mut complaints = child.stderr.take().expect("a pipe was asked for");
    let (sender, receiver) = mpsc::channel();
    thread::scope(|scope| {
        scope.spawn(move || feed(to_child, source));
        let complaints = scope.spawn(move || all_of(&mut complaints));
        scope.spawn(move || sender.send(all_of(&mut out)));
        let out = receiver.recv_timeout(LIMIT);
        end(child, out.is_err())?;
        let wrong = |error| format!("its output: {error}");
        let complaints = complaints.join().expect("a reader does not panic").map_err(wrong)?;
        match out {
            Ok(out) => Ok(Printed { out: out.map_err(wrong)?, complaints }),
            Err(_) => Err(format!("still running after {LIMIT:?}")),
        }
    })
}

fn feed(to_child: Option<ChildStdin>, source: Source) {
    if let (Some(mut to_child), Source::Pipe(input, feed)) = (to_child, source) {
        // A refused input need not be read to its end.
        let _ = input.chunks(feed.piece).try_for_each(|piece| {
            let written = to_child.write_all(piece);
            thread::sleep(feed.pause);
            written
        });
    }
}

fn all_of(pipe: &mut impl Read) -> io::Result<Vec<u8>> {
    let mut bytes = Vec::new();
    pipe.read_to_end(&mut bytes).map(|_| bytes)
}

/// Waits for the program, which must not have crashed.
fn end(mut child: Child, late: bool) -> Result<(), String> {
    if late {
        let _ = child.kill();
    }
    let status = child.wait().map_err(|error| format!("its end: {error}"))?;
    match status.code() {
        None if !late => Err(format!("it crashed: {status}")),
        _ => Ok(()),
    }
}

#[cfg(test)]
mod tests {
    use super::*;

    fn printed(program: &str, input: &[u8], piece: usize, pause: u64) -> Result<Printed, String> {
        run(Path::new(program), input, Feed { piece, pause: Duration::from_millis(pause) })
    }

    fn only_output(out: &[u8]) -> Result<Printed, String> {
        Ok(Printed { out: out.to_vec(), complaints: Vec::new() })
    }

    #[test]
    fn input_goes_through() {
        let input: Vec<u8> = (0..300_000u32).map(|place| place as u8).collect();
        for (piece, pause) in [(300, 0), (1 << 20, 0), (150_000, 2)] {
            assert_eq!(printed("cat", &input, piece, pause), only_output(&input));
        }
        assert_eq!(printed("cat", &[], 1, 0), only_output(&[]));
    }

    #[test]
    fn input_left_unread_is_no_fault() {
        assert_eq!(printed("true", &[0; 300_000], 7, 0), only_output(&[]));
    }

    #[test]
    fn complaints_are_kept_apart() {
        let given = printed("sh", b"echo listed; echo complained >&2", 5, 0).unwrap();
        assert_eq!(
            (&given.out[..], &given.complaints[..]),
            (&b"listed\n"[..], &b"complained\n"[..])
        );
    }

    #[test]
    fn words_and_files() {
        let words = ["-c".into(), "read word; echo $1 $word".into(), "sh".into(), "given".into()];
        let path = std::env::temp_dir().join(format!("second-child-{}", std::process::id()));
        std::fs::write(&path, "read\n").unwrap();
        let printed = run_with(Path::new("sh"), &words, Source::File(&path));
        std::fs::remove_file(&path).unwrap();
        assert_eq!(printed, only_output(b"given read\n"));
        assert!(run_with(Path::new("sh"), &words, Source::File(&path)).is_err());
    }

    #[test]
    fn what_is_no_program_is_a_fault() {
        assert!(printed("no-such-program", &[], 1, 0).is_err());
    }
}

//! Unpacking sound and damaged runs of words.

use crate::progress::Progress;
use crate::repacking::Reading;
use crate::trial::Trial;
use crate::{items, repacking};
use second::answers::Unpacked;
use second::compared::check_stopped;
use second::ffi;
use second::generate::rows::{pixel_bytes, row, row_length};
use second::generate::runs::{flip, random_words, run, run_words, set_unused};
use second::generate::runs::{Expected, Fault, Run};
use second::memory::Lent;
use second::random::Random;
use second::reader::unpack_measured;
use second::refusal::{DONE, ROOM, TOO_MANY, UNUSED_BIT, WORDS_END};
use second::row::MAX_PIXELS;

/// A call's input and what the rules demand of it, where that is known.
struct Case {
    words: Vec<u8>,
    n: u64,
    pixels_lent: usize,
    expected: Expected,
}

pub fn compare(random: &mut Random, trial: &Trial, progress: &mut Progress) -> Result<(), String> {
    let mut case = any_case(random, trial);
    settle(random, trial, &mut case);
    let before = Lent::new(random, case.pixels_lent);
    let (answer, after) = compare_call(trial, &case, &before)?;
    progress.runs += 1;
    progress.tally.add("unpack", answer.number, answer.at);
    let checked = check_expected(&case, answer, &after)
        .and_then(|()| check_alike(random, trial, &case, &before, answer, &after))
        .and_then(|()| check_place(random, trial, &case, answer))
        .and_then(|()| check_repacked(random, trial, &case, answer, &after, progress));
    checked.map_err(|what| {
        let what = format!("{what}; n {}, answer {answer:?}", case.n);
        trial.difference(&what, &[("words", &case.words), ("after", after.bytes())])
    })?;
    items::compare(random, trial, &case.words, case.n.min(MAX_PIXELS as u64) as usize, progress)
}

/// A run with a known answer, or one damaged into an unknown.
fn any_case(random: &mut Random, trial: &Trial) -> Case {
    let length = row_length(random);
    let row = row(random, trial.model(), length);
    let fault = (length > 0 && random.one_in(6))
        .then(|| (random.below(length), random.pick(&[Fault::EscapedBad, Fault::Height])));
    let run = run(random, trial.model(), &row, fault);
    let (words, expected) = (run_words(&run.bits), run.expected.clone());
    let mut case = Case { words, n: length as u64, pixels_lent: 0, expected };
    damage(random, &mut case, &run);
    case
}

/// Leaves a sound run alone or damages it, and follows it with any words.
fn damage(random: &mut Random, case: &mut Case, run: &Run) {
    let bits = run.bits.len();
    let sound = matches!(case.expected, Expected::Pixels(..));
    let unknown = Expected::Unknown;
    match random.below(10) {
        0 if sound && set_unused(random, &mut case.words, bits) => {
            case.expected = Expected::Refused(UNUSED_BIT, bits);
        }
        1 => {
            flip(random, &mut case.words);
            case.expected = unknown;
        }
        2 if sound && !case.words.is_empty() => {
            // Whole items stand before the cut, and one is cut or gone.
            case.words.truncate(4 * random.below(case.words.len() / 4));
            case.expected = Expected::Refused(WORDS_END, run.cut_item(8 * case.words.len()));
            return;
        }
        3 => {
            let words = random.below(40);
            case.words = random_words(random, words);
            case.n = random.below(80) as u64;
            case.expected = unknown;
            return;
        }
        4 => {
            case.n += random.within(1..=5) as u64;
            case.expected = unknown;
        }
        5 => {
            case.n = random.below(case.n as usize + 1) as u64;
            case.expected = unknown;
        }
        _ => {}
    }
    if random.one_in(2) {
        let words = random.below(4);
        case.words.extend(random_words(random, words));
    }
}

/// Settles the end of the words, the count and the memory lent.
fn settle(random: &mut Random, trial: &Trial, case: &mut Case) {
    let odd = random.below(4);
    case.words.extend(random.bytes(odd));
    if random.one_in(60) {
        let few = random.below(100) as u64;
        case.n = random.pick(&[4097 + few, few + (1 << 32), u64::MAX - few]);
    }
    let many = case.n > MAX_PIXELS as u64;
    let exact = if many { random.below(50) } else { 2 * case.n as usize };
    case.pixels_lent = exact + random.pick(&[0, 0, 1, 2, 7]);
    if many {
        case.expected = Expected::Refused(TOO_MANY, 0);
    } else if exact > 0 && random.one_in(12) {
        let less = random.below(exact);
        case.pixels_lent = random.pick(&[exact - 1, exact - 2, less]);
        case.expected = Expected::Refused(ROOM, 0);
    }
    if let Err(number) = trial.codec() {
        case.expected = Expected::Refused(number, 0);
    }
}

/// Unpacks on both sides: same answer, same memory, input unwritten.
fn compare_call(trial: &Trial, case: &Case, before: &Lent) -> Result<(Unpacked, Lent), String> {
    let (mut by_proved, mut by_second) = (before.clone(), before.clone());
    let input = case.words.clone();
    let proved = ffi::unpack(trial.table(), &input, case.n, by_proved.bytes_mut());
    let (second, used) = match trial.codec() {
        Ok(codec) => unpack_measured(codec, &case.words, case.n, by_second.bytes_mut()),
        Err(number) => (Unpacked::refused(number), 0),
    };
    let written = if second.number == DONE { 2 * case.n as usize } else { 0 };
    let most = u128::from(case.n) * u128::from(trial.model().worst);
    let wrong = if proved != second {
        "answers"
    } else if by_proved != by_second {
        "memory"
    } else if !by_proved.same_after(before, written) {
        "memory after the pixels counted"
    } else if input != case.words {
        "words written to"
    } else if used as u128 > most {
        "more than n times M bits used"
    } else {
        return Ok((second, by_proved));
    };
    let what = format!("unpack {}, {wrong}: proved {proved:?}, second {second:?}", case.n);
    let parts = [
        ("words", &case.words[..]),
        ("memory before", before.bytes()),
        ("memory by proved", by_proved.bytes()),
        ("memory by second", by_second.bytes()),
    ];
    Err(trial.difference(&what, &parts))
}

/// The answer that the run was made for.
fn check_expected(case: &Case, answer: Unpacked, after: &Lent) -> Result<(), String> {
    let (wanted, pixels) = match &case.expected {
        Expected::Unknown => return Ok(()),
        Expected::Refused(number, at) => (Unpacked::stopped(*number, *at as u32), Vec::new()),
        Expected::Pixels(row, bits) => (Unpacked::done(*bits as u32), pixel_bytes(row)),
    };
    if answer == wanted && after.bytes()[..pixels.len()] == pixels {
        return Ok(());
    }
    Err(format!("unpack: the run was made for {wanted:?}"))
}

/// Words alike in the first n times M bits get the same answer.
fn check_alike(
    random: &mut Random,
    trial: &Trial,
    case: &Case,
    before: &Lent,
    answer: Unpacked,
    after: &Lent,
) -> Result<(), String> {
    let words = case.n.saturating_mul(u64::from(trial.model().worst)).div_ceil(32);
    let bytes = 4 * words.min(1 << 20) as usize;
    if trial.codec().is_err() || case.words.len() < bytes || !random.one_in(2) {
        return Ok(());
    }
    let mut other = case.words[..bytes].to_vec();
    let more = random.below(30);
    other.extend(random.bytes(more));
    let mut memory = before.clone();
    let again = ffi::unpack(trial.table(), &other, case.n, memory.bytes_mut());
    if again == answer && memory == *after {
        return Ok(());
    }
    Err(format!("unpack: {again:?} for words alike in the first {words}"))
}

/// The place where the reading stopped, against other rows of the same words.
fn check_place(
    random: &mut Random,
    trial: &Trial,
    case: &Case,
    answer: Unpacked,
) -> Result<(), String> {
    if !random.one_in(2) {
        return Ok(());
    }
    check_stopped(random, &trial.opened, &case.words, case.n, answer)
}

/// A row that was read, packed again.
fn check_repacked(
    random: &mut Random,
    trial: &Trial,
    case: &Case,
    answer: Unpacked,
    after: &Lent,
    progress: &mut Progress,
) -> Result<(), String> {
    if answer.number != DONE {
        return Ok(());
    }
    let words = &case.words[..4 * answer.count.div_ceil(32) as usize];
    let pixels = &after.bytes()[..2 * case.n as usize];
    let reading = Reading { pixels, words, bits: answer.count };
    repacking::check(random, trial, reading, &mut progress.seen)
}

//! The room question.

use crate::progress::Progress;
use crate::trial::Trial;
use second::ffi;
use second::random::Random;
use second::row::room_under;

pub fn compare(random: &mut Random, trial: &Trial, progress: &mut Progress) -> Result<(), String> {
    for n in counts(random) {
        let proved = ffi::room(trial.table(), n);
        let second = match trial.codec() {
            Ok(codec) => room_under(&codec.table, n),
            Err(number) => (number, 0),
        };
        if proved != second {
            let what = format!("room for {n}: proved {proved:?}, second {second:?}");
            return Err(trial.difference(&what, &[]));
        }
        progress.tally.add("room", second.0, 0);
    }
    Ok(())
}

fn counts(random: &mut Random) -> [u64; 6] {
    let few = random.below(4097) as u64;
    [0, few, 4096, 4097, few + (1 << 32), random.next_u64() | 1 << 63]
}

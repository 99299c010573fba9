//! Changes valid inputs of every call of the proved library at random, for a
//! given time, and compares each answer and all memory with the second
//! program's.
//!
//! Inputs and the memory that is lent stand now on the heap, where the address
//! sanitizer or valgrind sees an access past them, now at the edge of pages,
//! where the processor stops it, though nothing was built into the library.
//! Inputs in pages are read-only.
//!
//! The same seed makes the same calls in the same order. Each scene, a table,
//! a sheet, a scan and a map, has a seed of its own, which is told now and then and in
//! every report: begun with it, the program comes to the case at once.

mod deltas;
mod fault;
mod items;
mod maps;
mod records;
mod rows;
mod scans;
mod scene;
mod shelves;
mod values;

use std::process::ExitCode;
use std::time::{Duration, Instant};

use scene::Scene;
use second::command::{numbers_given, report};
use second::compared::Outcome;
use second::random::Random;
use second::tally::Tally;

/// How often the seed is told, for the case that the library never answers.
const TELLING: Duration = Duration::from_secs(30);

fn main() -> ExitCode {
    let [seconds, seed] = numbers_given("[seconds] [seed]", 0, [600, 4]);
    println!("fuzz: {seconds} seconds, seed {seed}");
    fault::watch();
    let start = Instant::now();
    let mut tally = Tally::default();
    let end = start + Duration::from_secs(seconds);
    let result = fuzz(first_seed(seed), end, &mut tally);
    print!("{}", tally.text());
    if let Err(what) = result {
        return report("fuzz", &what);
    }
    let missed = tally.missed_of_all();
    if !missed.is_empty() {
        println!(
            "FAILED: never reached, for want of time or by the library: {}",
            missed.join(", ")
        );
        return ExitCode::FAILURE;
    }
    println!("no difference in {} calls, {:.0?}", tally.calls(), start.elapsed());
    ExitCode::SUCCESS
}

/// A small seed begins scenes that no other small one comes to; a large one
/// is a scene's own.
fn first_seed(seed: u64) -> u64 {
    if seed >> 32 == 0 {
        (seed + 1) << 32
    } else {
        seed
    }
}

fn fuzz(first: u64, end: Instant, tally: &mut Tally) -> Outcome<()> {
    let mut told = Instant::now();
    for seed in first.. {
        fault::at_scene(seed);
        let mut random = Random::new(seed);
        let scene = Scene::any(&mut random);
        for _ in 0..scene.calls {
            one_call(&mut random, &scene, tally).map_err(|what| format!("{what}seed {seed}\n"))?;
            if Instant::now() >= end {
                return Ok(());
            }
        }
        if told.elapsed() > TELLING {
            println!("at seed {seed}, {} calls", tally.calls());
            told = Instant::now();
        }
    }
    Ok(())
}

fn one_call(random: &mut Random, scene: &Scene, tally: &mut Tally) -> Outcome<()> {
    // Seldom: each call on a shelf compares all of its places.
    if random.one_in(100) {
        return shelves::calls(random, scene, tally);
    }
    match random.below(26) {
        0 => rows::check(random, scene, tally),
        1 => rows::plain_table(random, tally),
        2..=3 => rows::pack(random, scene, tally),
        4..=5 => rows::unpack(random, scene, tally),
        6 => rows::room(random, scene, tally),
        7 => values::read(random, scene, tally),
        8 => values::write(random, tally),
        9..=12 => records::read(random, scene, tally),
        13..=14 => items::read(random, scene, tally),
        15..=16 => scans::header(random, scene, tally),
        17..=18 => scans::row(random, scene, tally),
        19 => maps::read(random, scene, tally),
        20 => maps::write(random, scene, tally),
        21..=22 => deltas::read(random, scene, tally),
        _ => records::write(random, scene, tally),
    }
}

#[cfg(test)]
mod tests {
    use super::*;

    #[test]
    fn seeds_of_scenes_are_taken_as_they_are() {
        assert_ne!(first_seed(0), first_seed(1));
        for seed in [0, 1, 4] {
            let scene = first_seed(seed) + 1000;
            assert_eq!(first_seed(scene), scene);
        }
    }
}

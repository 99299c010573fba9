//! Pressure mat maps, read and written.

use std::hint::black_box;

use crate::timing::best;
use second::calls;
use second::ffi;
use second::generate::maps::{Sort, Sound};
use second::map::{most_bytes, COUNTS, GROUPS};
use second::random::Random;

/// Several maps, so that no call meets the one it has just seen.
const MAPS: usize = 8;
const SORTS: [Sort; 3] = [Sort::Sparse, Sort::Footprint, Sort::Dense];

/// Seconds for all maps, proved and second.
type Times = [f64; 2];

/// What both calls are given and must make.
struct Map {
    counts: Vec<u8>,
    bytes: Vec<u8>,
    bits: u32,
    photons: u64,
}

pub fn print() {
    println!("Maps, nanoseconds a count; {MAPS} maps of 128 x 128 counts, their mean bits a count");
    println!("  sparse     up to 2000 photons anywhere");
    println!("  footprint  counts to 200 in three parts of the map, hardly any around them");
    println!("  dense      counts of 0 to 39 everywhere");
    println!(
        "{:<10} {:>5} {:>6} {:<6} {:>8} {:>8} {:>7}",
        "map", "group", "bits", "call", "proved", "second", "p/s"
    );
    for sort in SORTS {
        for group in GROUPS {
            print_maps(sort, group);
        }
    }
    println!();
}

fn print_maps(sort: Sort, group: u32) {
    // The same maps for both group sizes.
    let mut random = Random::new(8);
    let maps: Vec<Map> = (0..MAPS).map(|_| map(&mut random, sort, group)).collect();
    let all = (MAPS * COUNTS) as f64;
    let bits = maps.iter().map(|map| f64::from(map.bits)).sum::<f64>() / all;
    let line = |call: &str, times: Times| {
        let [proved, second] = times.map(|time| 1e9 * time / all);
        let (sort, ratio) = (format!("{sort:?}").to_lowercase(), proved / second);
        println!(
            "{sort:<10} {group:>5} {bits:>6.2} {call:<6} {proved:>8.2} {second:>8.2} {ratio:>7.3}"
        );
    };
    line("read", read_times(group, &maps));
    line("write", write_times(group, &maps));
}

fn map(random: &mut Random, sort: Sort, group: u32) -> Map {
    let sound = Sound::new(random, group, sort);
    let (bits, photons) = (sound.form.bits() as u32, sound.photons());
    Map { counts: sound.count_bytes(), bytes: sound.bytes, bits, photons }
}

fn read_times(group: u32, maps: &[Map]) -> Times {
    let mut memory = vec![0; 2 * COUNTS];
    // Both must read alike, or the times would mean nothing.
    for map in maps {
        for call in [ffi::read_map, calls::read_map] {
            let answer = call(group, &map.bytes, map.photons, &mut memory);
            assert_eq!(answer.pair(), (0, map.bits));
            assert!(memory == map.counts);
        }
    }
    let proved = best(|| {
        for Map { bytes, photons, .. } in maps {
            black_box(ffi::read_map(group, black_box(bytes), *photons, &mut memory));
        }
    });
    let second = best(|| {
        for Map { bytes, photons, .. } in maps {
            black_box(calls::read_map(group, black_box(bytes), *photons, &mut memory));
        }
    });
    [proved, second]
}

fn write_times(group: u32, maps: &[Map]) -> Times {
    let mut memory = vec![0; most_bytes(group)];
    for map in maps {
        for call in [ffi::write_map, calls::write_map] {
            let answer = call(group, &map.counts, &mut memory);
            assert_eq!(answer.pair(), (0, map.bytes.len() as u32));
            assert!(memory[..map.bytes.len()] == map.bytes);
        }
    }
    let proved = best(|| {
        for map in maps {
            black_box(ffi::write_map(group, black_box(&map.counts), &mut memory));
        }
    });
    let second = best(|| {
        for map in maps {
            black_box(calls::write_map(group, black_box(&map.counts), &mut memory));
        }
    });
    [proved, second]
}

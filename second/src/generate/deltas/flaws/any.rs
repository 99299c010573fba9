//! Changes of which both readers must say what they come to.

use super::draft::{any_element, Draft, Ends};
use super::{Change, Change::*, Reading, Wanted};
use crate::delta::{First, Flag, Written, FLAGS, WIDTHS};
use crate::generate::deltas::{Sound, Widths};
use crate::generate::mutations::mutate;
use crate::random::Random;

pub fn any(random: &mut Random, sound: &Sound, change: Change) -> Reading {
    let mut draft = match change {
        RandomElements => random_elements(random, sound.widths),
        _ => Draft::new(sound),
    };
    draft.wanted = Wanted::Unknown;
    match change {
        FlagChanged => change_flag(random, &mut draft),
        ElementChanged => change_elements(random, &mut draft),
        CountChanged => change_counts(random, &mut draft),
        _ => {}
    }
    let mut reading = draft.among(random);
    match change {
        PlacesExchanged => exchange(random, &mut reading.first),
        OtherOfNine => {
            let Widths { data, value } = reading.widths;
            let other = random.pick(&WIDTHS);
            let widths = [Widths { data: other, value }, Widths { data, value: other }];
            reading.widths = random.pick(&widths);
        }
        BytesMixed => mix(random, &mut reading),
        RandomBytes => {
            for array in [&mut reading.data, &mut reading.value, &mut reading.repeat] {
                random.fill(array);
            }
        }
        _ => {}
    }
    reading
}

/// A flag in the place of a flag or of any element.
fn change_flag(random: &mut Random, draft: &mut Draft) {
    let max = draft.widths.max();
    let data = &mut draft.written.data;
    let is_flag = |&place: &usize| Flag::of(data[place], max).is_some();
    let flags: Vec<usize> = (0..data.len()).filter(is_flag).collect();
    let (flag, any) = (random.pick(&flags), random.below(data.len()));
    let place = random.pick(&[flag, flag, any]);
    data[place] = random.pick(&FLAGS).element(max);
}

/// Some elements of DATA and VALUE are others, exchanged, given twice or gone.
fn change_elements(random: &mut Random, draft: &mut Draft) {
    for _ in 0..random.within(1..=3) {
        let Widths { data, value } = draft.widths;
        let written = &mut draft.written;
        let arrays = [(&mut written.data, data), (&mut written.values, value)];
        for (array, bits) in arrays.into_iter().filter(|(array, _)| !array.is_empty()) {
            let (place, other) = (random.below(array.len()), random.below(array.len()));
            match random.below(5) {
                0 => array[place] = any_element(random, bits),
                1 => array.swap(place, other),
                2 => array.insert(place, array[other]),
                3 if array.len() > 1 => drop(array.remove(place)),
                _ => {}
            }
        }
    }
}

/// A count is a little more or less, or any small one.
fn change_counts(random: &mut Random, draft: &mut Draft) {
    let counts = &mut draft.written.counts;
    if counts.is_empty() {
        return;
    }
    for _ in 0..random.within(1..=2) {
        let place = random.below(counts.len());
        let few = random.below(7) as i32;
        counts[place] = random.pick(&[counts[place] - 1, counts[place] + 1, few - 1]);
    }
}

/// Elements drawn each by itself; the first is mostly a flag.
fn random_elements(random: &mut Random, widths: Widths) -> Draft {
    let n = random.within(1..=12);
    let mut numbers = |bits| -> Vec<i32> {
        let count = random.within(1..=n + 2);
        (0..count).map(|_| any_element(random, bits)).collect()
    };
    let (data, values) = (numbers(widths.data), numbers(widths.value));
    let mut written = Written { data, values, counts: numbers(32) };
    // Other counts than small ones come to nothing else than a refusal.
    for count in &mut written.counts {
        *count = if random.one_in(10) { *count } else { *count & 7 };
    }
    if !random.one_in(8) {
        written.data[0] = random.pick(&FLAGS).element(widths.max());
    }
    Draft { widths, n, written, ends: Ends::default(), wanted: Wanted::Unknown }
}

/// Two places, or all three, stand for one another.
fn exchange(random: &mut Random, first: &mut First) {
    let First { data, value, repeat } = *first;
    *first = random.pick(&[
        First { data: value, value: data, repeat },
        First { data: repeat, value, repeat: data },
        First { data, value: repeat, repeat: value },
        First { data: value, value: repeat, repeat: data },
    ]);
}

/// Bytes changed anywhere in one array or in several.
fn mix(random: &mut Random, reading: &mut Reading) {
    let other = reading.data.clone();
    for array in [&mut reading.data, &mut reading.value, &mut reading.repeat] {
        if random.one_in(2) {
            mutate(random, array, &other);
        }
    }
}

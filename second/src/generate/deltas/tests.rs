use super::flaws::{change, changes, Change, Reading, Wanted};
use super::*;
use crate::delta::{read, FLAGS};
use crate::refusal::DONE;

/// What the reading gives: the number, and the row if it is done.
fn answered(reading: &Reading) -> (u32, Vec<Option<i32>>) {
    let (mut row, mut marks) = (vec![7; reading.row_room], vec![7; reading.marks_room]);
    let (number, count) = read(reading.n, &reading.arrays(), &mut row, &mut marks).pair();
    let values = row.as_chunks().0.iter().map(|&value| i32::from_le_bytes(value));
    let element = |(value, mark): (i32, &u8)| (*mark == 0).then_some(value);
    (number, values.zip(&marks).map(element).take(count as usize).collect())
}

#[test]
fn rows_read_back_at_all_widths() {
    let mut random = Random::new(75);
    for (widths, sort) in Widths::all().flat_map(|widths| SORTS.map(|sort| (widths, sort))) {
        for _ in 0..20 {
            let sound = Sound::new(&mut random, widths, sort);
            let (number, row) = answered(&change(&mut random, &sound, Change::Alone));
            assert!(number == DONE && row == sound.row, "{widths:?} {sort:?}");
        }
    }
}

#[test]
fn changes_come_to_their_answers() {
    let mut random = Random::new(76);
    for kind in changes() {
        for _ in 0..300 {
            let (widths, sort) = (Widths::any(&mut random), random.pick(&SORTS));
            let sound = Sound::new(&mut random, widths, sort);
            let reading = change(&mut random, &sound, kind);
            let (number, row) = answered(&reading);
            let came = match &reading.wanted {
                Wanted::Row(wanted) => number == DONE && row == *wanted,
                Wanted::Refused(wanted) => number == *wanted,
                Wanted::Unknown => true,
            };
            assert!(came, "{kind:?} of {sort:?}, {widths:?}: {number}, {:?}", reading.wanted);
        }
    }
}

/// What cannot be faulty stays as it is, but not often.
#[test]
fn faults_are_mostly_there() {
    let mut random = Random::new(77);
    let faults = [
        Change::StartNoFlag,
        Change::ValueCut,
        Change::CountCut,
        Change::RunTooLong,
        Change::CountBelow,
        Change::CountBelowNoValue,
        Change::SumAbove,
        Change::SumBelow,
        Change::ValueFar,
        Change::CountFar,
    ];
    for kind in faults {
        let mut is_refused = || {
            let (widths, sort) = (Widths::any(&mut random), random.pick(&SORTS));
            let sound = Sound::new(&mut random, widths, sort);
            matches!(change(&mut random, &sound, kind).wanted, Wanted::Refused(_))
        };
        let refused = (0..400).filter(|_| is_refused()).count();
        assert!(refused > 150, "{kind:?} {refused}");
    }
}

/// Numbers and flags, at each of the nine widths, in few rows.
#[test]
fn readings_reach_every_number_and_flag() {
    let (mut random, kinds) = (Random::new(78), changes());
    for widths in Widths::all() {
        let (mut numbers, mut flags) = ([0; 29], [0; FLAGS.len()]);
        for _ in 0..600 {
            let (sort, kind) = (random.pick(&SORTS), random.pick(&kinds));
            let sound = Sound::new(&mut random, widths, sort);
            sound
                .items
                .iter()
                .flat_map(|item| item.flag)
                .for_each(|flag| flags[flag as usize] += 1);
            numbers[answered(&change(&mut random, &sound, kind)).0 as usize] += 1;
        }
        assert!(flags.iter().all(|&count| count > 20), "{widths:?} {flags:?}");
        let wanted = [0, 14, 5, 25, 26, 27].iter().all(|&number| numbers[number] > 5);
        assert!(wanted && (numbers[28] > 5) == widths.leave_soon(), "{widths:?} {numbers:?}");
    }
}

//! Places, widths, lengths and lent memory that are wrong.

use super::draft::Draft;
use super::{change, Change, Change::*, Reading, Wanted, FAULTS};
use crate::delta::First;
use crate::generate::deltas::{Sound, Widths};
use crate::random::Random;
use crate::refusal::{DELTA_PLACE, RECORD, ROOM};

pub fn arguments(random: &mut Random, sound: &Sound, change: Change) -> Reading {
    let reading = match change {
        LittleRoomAndFault => {
            let fault = random.pick(&FAULTS);
            self::change(random, sound, fault)
        }
        _ => Draft::new(sound).among(random),
    };
    match change {
        NoElements => no_elements(random, reading),
        DataFar | ValueFar | CountFar => far_place(random, sound, change, reading),
        OtherWidth => other_width(random, reading),
        OtherWidthAndNoRoom => {
            let little = little_room(random, reading);
            other_width(random, little)
        }
        HugeLength => huge_length(random, reading),
        _ => little_room(random, reading),
    }
}

/// Done, wherever the places are and whatever stands there.
fn no_elements(random: &mut Random, reading: Reading) -> Reading {
    let mut reading = Reading { n: 0, wanted: Wanted::Row(Vec::new()), ..reading };
    for array in [&mut reading.data, &mut reading.value, &mut reading.repeat] {
        if random.one_in(2) {
            array.clear();
        }
    }
    if random.one_in(2) {
        let [data, value, repeat] = [(); 3].map(|()| far(random, 0, 0));
        reading.first = First { data, value, repeat };
    }
    reading.row_room = random.pick(&[reading.row_room, 0, 3]);
    reading.marks_room = random.pick(&[reading.marks_room, 0]);
    reading
}

/// A place that is outside its array; refused if it is used.
fn far_place(random: &mut Random, sound: &Sound, change: Change, mut reading: Reading) -> Reading {
    let (place, bytes, bits, is_used) = match change {
        DataFar => (&mut reading.first.data, &reading.data, sound.widths.data, true),
        ValueFar => {
            let is_used = !sound.written.values.is_empty();
            (&mut reading.first.value, &reading.value, sound.widths.value, is_used)
        }
        _ => (&mut reading.first.repeat, &reading.repeat, 32, !sound.written.counts.is_empty()),
    };
    *place = far(random, bytes.len() / (bits as usize / 8), *place);
    if is_used {
        reading.wanted = Wanted::Refused(DELTA_PLACE);
    }
    reading
}

/// Outside an array of this length. Some are right in their low bits, or where
/// a byte's place is taken in 64 bits alone.
fn far(random: &mut Random, length: usize, place: u64) -> u64 {
    let (length, few) = (length as u64, random.below(100) as u64);
    let high = random.pick(&[1 << 32, 1 << 61, 1 << 62, 3 << 62, 1 << 63]);
    let any = random.next_u64() | high;
    let last = u64::MAX;
    random.pick(&[length, length, length + 1, length + few, high | place, last, last - few, any])
}

const OTHER_WIDTHS: [u32; 18] = [
    0,
    1,
    2,
    4,
    7,
    9,
    15,
    17,
    24,
    31,
    33,
    64,
    128,
    256 + 8,
    1 << 16 | 16,
    1 << 31 | 8,
    1 << 31 | 32,
    u32::MAX,
];

fn other_width(random: &mut Random, reading: Reading) -> Reading {
    let any = random.next_u32() | 1;
    let [one, another] = [(); 2].map(|()| random.pick(&OTHER_WIDTHS));
    let other = random.pick(&[one, one, one, any]);
    let Widths { data, value } = reading.widths;
    let widths = random.pick(&[
        Widths { data: other, value },
        Widths { data, value: other },
        Widths { data: other, value: another },
    ]);
    let n = if random.one_in(8) { 0 } else { reading.n };
    Reading { n, widths, wanted: Wanted::Refused(RECORD), ..reading }
}

/// Less than the row has, in the values, in the marks or in both.
fn little_room(random: &mut Random, mut reading: Reading) -> Reading {
    let n = reading.n as usize;
    let kind = random.below(3);
    if kind != 0 {
        let any = random.below(4 * n);
        reading.row_room =
            random.pick(&[4 * n - 1, 4 * n - 1, 4 * n - 4, n.min(4 * n - 1), 0, any]);
    }
    if kind != 1 {
        let any = random.below(n);
        reading.marks_room = random.pick(&[n - 1, n - 1, 0, any]);
    }
    reading.wanted = Wanted::Refused(ROOM);
    reading
}

/// More than any memory holds, or at least than is lent.
fn huge_length(random: &mut Random, reading: Reading) -> Reading {
    let high = random.pick(&[1 << 32, 1 << 61, 1 << 62, 1 << 63, u64::MAX << 32]);
    let n = random.pick(&[high, high | reading.n, u64::MAX, u64::MAX - reading.n, 1 << 31]);
    Reading { n, wanted: Wanted::Refused(ROOM), ..reading }
}

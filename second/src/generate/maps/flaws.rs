//! Maps changed in each way that the rules speak of, with the answer that each
//! reading must give.

use super::forms::Form;
use super::Sound;
use crate::generate::mutations::mutate;
use crate::generate::runs::flip;
use crate::map::{read_any_total, COUNTS, GROUPS};
use crate::random::Random;
use crate::refusal::{MAP_END, MAP_PIXEL, MAP_TOTAL, RECORD, ROOM};

#[derive(Clone, Copy, PartialEq, Eq, Debug)]
pub enum Change {
    Nothing,
    HigherFirst,
    SpareBitsSet,
    MoreBytes,
    NoBytes,
    Cut,
    CutByOneByte,
    CutAndTotalOff,
    LongNotAbove,
    LongNotAboveCut,
    LongNotAboveAndTotalOff,
    FewPhotons,
    FewPhotonsCut,
    FewPhotonsAndTotalOff,
    TwoFaults,
    TotalOff,
    OtherGroup,
    OtherGroupAndNoRoom,
    LittleRoom,
    LittleRoomAndFault,
    GroupExchanged,
    BitsFlipped,
    FieldsMixed,
    BytesMixed,
    MostlyOnes,
    RandomBytes,
}

use Change::*;

const SAME: [Change; 4] = [Nothing, HigherFirst, SpareBitsSet, MoreBytes];
const CUTS: [Change; 4] = [NoBytes, Cut, CutByOneByte, CutAndTotalOff];
const FAULTS: [Change; 7] = [
    LongNotAbove,
    LongNotAboveCut,
    LongNotAboveAndTotalOff,
    FewPhotons,
    FewPhotonsCut,
    FewPhotonsAndTotalOff,
    TwoFaults,
];
const ARGUMENTS: [Change; 5] =
    [TotalOff, OtherGroup, OtherGroupAndNoRoom, LittleRoom, LittleRoomAndFault];
const ANY: [Change; 6] =
    [GroupExchanged, BitsFlipped, FieldsMixed, BytesMixed, MostlyOnes, RandomBytes];

pub fn changes() -> Vec<Change> {
    [&SAME[..], &CUTS, &FAULTS, &ARGUMENTS, &ANY].concat()
}

/// What a reading must answer.
#[derive(Clone, Copy, PartialEq, Eq, Debug)]
pub enum Wanted {
    /// The counts of the map that was changed.
    Same,
    Refused(u32),
    Unknown,
}

/// The arguments of a reading.
#[derive(Clone)]
pub struct Reading {
    pub group: u32,
    pub bytes: Vec<u8>,
    pub total: u64,
    /// The bytes lent.
    pub room: usize,
    pub wanted: Wanted,
}

/// Bytes that hold the counts of a map.
const ROOM_BYTES: usize = 2 * COUNTS;

const OTHER_GROUPS: [u32; 24] = [
    0,
    1,
    2,
    3,
    5,
    6,
    7,
    8,
    12,
    15,
    17,
    20,
    32,
    64,
    128,
    256,
    260,
    272,
    16_384,
    65_540,
    65_552,
    1 << 31,
    1 << 31 | 4,
    u32::MAX,
];

/// Neither 4 nor 16.
pub fn other_group(random: &mut Random) -> u32 {
    let any = random.next_u32() | 1;
    let other = random.pick(&OTHER_GROUPS);
    random.pick(&[other, other, other, any])
}

/// A reading of the map that is changed so.
pub fn change(random: &mut Random, sound: &Sound, change: Change) -> Reading {
    let room = ROOM_BYTES + random.pick(&[0, 0, 0, 1, 2, 77]);
    let reading = Reading {
        group: sound.group,
        bytes: Vec::new(),
        total: sound.photons(),
        room,
        wanted: Wanted::Same,
    };
    if SAME.contains(&change) {
        Reading { bytes: same(random, sound, change), ..reading }
    } else if CUTS.contains(&change) {
        cut(random, sound, change, reading)
    } else if FAULTS.contains(&change) {
        fault(random, sound, change, reading)
    } else if ARGUMENTS.contains(&change) {
        arguments(random, sound, change, reading)
    } else {
        any(random, sound, change, reading)
    }
}

/// Bytes of the same counts.
fn same(random: &mut Random, sound: &Sound, change: Change) -> Vec<u8> {
    if change == HigherFirst {
        return Form::exchanged(random, sound.group, &sound.counts).bytes();
    }
    let mut bytes = sound.bytes.clone();
    let spare = 8 * bytes.len() - sound.form.bits();
    if change != Nothing && spare > 0 {
        let any = random.next_u32() as u8 | 1;
        let set = random.pick(&[255, any]) & ((1 << spare) - 1);
        *bytes.last_mut().expect("a map has bytes") |= set;
    }
    if change == MoreBytes {
        let count = random.pick(&[1, 2, 8, 1000]);
        let more = random.bytes(count);
        let filled = vec![random.pick(&[0, 255]); count];
        bytes.extend(if random.one_in(2) { more } else { filled });
    }
    bytes
}

fn cut(random: &mut Random, sound: &Sound, change: Change, reading: Reading) -> Reading {
    let mut bytes = sound.bytes.clone();
    bytes.truncate(match change {
        NoBytes => 0,
        CutByOneByte => bytes.len() - 1,
        _ => cut_place(random, &sound.form),
    });
    let off = total_off(random, reading.total);
    let total = if change == CutAndTotalOff { off } else { reading.total };
    Reading { bytes, total, wanted: Wanted::Refused(MAP_END), ..reading }
}

/// Bytes fewer than the map has. Each kind of field is as likely to be met, at
/// its beginning or within it, as it can be.
fn cut_place(random: &mut Random, form: &Form) -> usize {
    let ends = form.ends();
    let mut kinds = Vec::new();
    for &(_, part, within) in &ends {
        if !kinds.contains(&(part, within)) {
            kinds.push((part, within));
        }
    }
    let kind = random.pick(&kinds);
    let alike = ends.iter().filter(|(_, part, within)| (*part, *within) == kind);
    let places: Vec<usize> = alike.map(|end| end.0).collect();
    random.pick(&places)
}

fn fault(random: &mut Random, sound: &Sound, change: Change, reading: Reading) -> Reading {
    let mut form = sound.form.clone();
    let any = random.below(form.groups());
    let index = random.pick(&[any, any, 0, form.groups() - 1]);
    let after = match change {
        FewPhotons | FewPhotonsCut | FewPhotonsAndTotalOff => few(random, sound, &mut form, index),
        _ => long(random, sound, &mut form, index),
    };
    if change == TwoFaults && index + 1 < form.groups() {
        // Later in the map, so that the first one stays where it is.
        let later = random.within(index + 1..=form.groups() - 1);
        few(random, sound, &mut form, later);
    }
    let mut bytes = form.bytes();
    let mut wanted = Wanted::Refused(MAP_PIXEL);
    if matches!(change, LongNotAboveCut | FewPhotonsCut) {
        // The fewest bytes with the fault in them, a byte less, or any.
        let (least, any) = (after.div_ceil(8), random.below(bytes.len()));
        bytes.truncate(random.pick(&[least, least - 1, least, least - 1, any]));
        if 8 * bytes.len() < after {
            wanted = Wanted::Refused(MAP_END);
        }
    }
    let off = total_off(random, reading.total);
    let is_off = matches!(change, LongNotAboveAndTotalOff | FewPhotonsAndTotalOff);
    Reading { bytes, total: if is_off { off } else { reading.total }, wanted, ..reading }
}

/// Code 000 with fewer than three photons; gives the bits up to its end.
fn few(random: &mut Random, sound: &Sound, form: &mut Form, index: usize) -> usize {
    let mut pixels = vec![0; sound.group as usize];
    for _ in 0..random.below(3) {
        pixels[random.below(sound.group as usize)] += 1;
    }
    form.put_many(index, &pixels)
}

/// A pixel of 16 bits that is not above 17; gives the bits up to its end.
fn long(random: &mut Random, sound: &Sound, form: &mut Form, index: usize) -> usize {
    let mut pixels = sound.pixels(index).to_vec();
    let any = random.below(pixels.len());
    let place = random.pick(&[any, 0, pixels.len() - 1]);
    let low = random.below(18) as u16;
    pixels[place] = random.pick(&[low, low, 17, 0]);
    form.put_many_and_long(index, &pixels, place)
}

/// Another total, in most cases one that is right in its low bits or as far as
/// a narrower sum goes.
fn total_off(random: &mut Random, total: u64) -> u64 {
    let step = random.pick(&[1, 2, 1 << 16, 1 << 31, 1 << 32, 1 << 48, 1 << 63]);
    let (plus, minus) = (total.wrapping_add(step), total.wrapping_sub(step));
    let narrow = total & random.pick(&[0xFFFF, 0xFF, 0]);
    let any = random.next_u64() >> random.below(64);
    let off = random.pick(&[plus, minus, narrow, any, u64::MAX]);
    if off == total {
        plus
    } else {
        off
    }
}

fn arguments(random: &mut Random, sound: &Sound, change: Change, reading: Reading) -> Reading {
    let less = random.below(ROOM_BYTES);
    let little = random.pick(&[ROOM_BYTES - 1, ROOM_BYTES - 2, ROOM_BYTES / 2, 0, 1, less]);
    let reading = Reading { bytes: sound.bytes.clone(), ..reading };
    let refused = Wanted::Refused;
    let total = total_off(random, reading.total);
    match change {
        TotalOff => Reading { total, wanted: refused(MAP_TOTAL), ..reading },
        OtherGroup => Reading { group: other_group(random), wanted: refused(RECORD), ..reading },
        OtherGroupAndNoRoom => {
            let group = other_group(random);
            Reading { group, room: little, wanted: refused(RECORD), ..reading }
        }
        LittleRoom => Reading { room: little, wanted: refused(ROOM), ..reading },
        _ => {
            let flaw = random.pick(&[NoBytes, Cut, LongNotAbove, FewPhotons, TotalOff]);
            let faulty = self::change(random, sound, flaw);
            Reading { room: little, wanted: refused(ROOM), ..faulty }
        }
    }
}

/// What comes of these is for both readers to say. The total is mostly the one
/// that it comes to.
fn any(random: &mut Random, sound: &Sound, change: Change, reading: Reading) -> Reading {
    let mut bytes = sound.bytes.clone();
    let mut group = reading.group;
    match change {
        GroupExchanged => group = GROUPS[usize::from(group == GROUPS[0])],
        BitsFlipped => flip(random, &mut bytes),
        FieldsMixed => bytes = fields_mixed(random, &sound.form).bytes(),
        BytesMixed => {
            let other = bytes.clone();
            mutate(random, &mut bytes, &other);
        }
        MostlyOnes => bytes = mostly_ones(random),
        _ => {
            let count = random.within(0..=2000);
            bytes = random.bytes(count);
        }
    }
    let found = read_any_total(group, &bytes).map_or(reading.total, |map| map.photons);
    let total = random.pick(&[found, found, reading.total]);
    Reading { group, bytes, total, wanted: Wanted::Unknown, ..reading }
}

/// Some fields less, twice, or exchanged.
fn fields_mixed(random: &mut Random, form: &Form) -> Form {
    let mut form = form.clone();
    let fields = &mut form.fields;
    for _ in 0..random.within(1..=3) {
        let (place, other) = (random.below(fields.len()), random.below(fields.len()));
        match random.below(3) {
            0 if fields.len() > 1 => drop(fields.remove(place)),
            1 => fields.insert(place, fields[other]),
            _ => fields.swap(place, other),
        }
    }
    form
}

/// Mostly groups of no photons, and long pixels.
fn mostly_ones(random: &mut Random) -> Vec<u8> {
    let count = random.within(100..=3000);
    let mut bytes = random.bytes(count);
    for _ in 0..random.within(1..=5) {
        let more = random.bytes(count);
        bytes.iter_mut().zip(more).for_each(|(byte, more)| *byte |= more);
    }
    bytes
}

#[cfg(test)]
mod tests {
    use super::super::SORTS;
    use super::*;
    use crate::map::read_map;
    use crate::refusal::DONE;

    #[test]
    fn changes_come_to_their_answers() {
        let mut random = Random::new(72);
        for kind in changes() {
            for round in 0..40 {
                let (group, sort) = (GROUPS[round % 2], random.pick(&SORTS));
                let sound = Sound::new(&mut random, group, sort);
                let reading = change(&mut random, &sound, kind);
                let Reading { group, ref bytes, total, room, wanted } = reading;
                let number = match read_map(group, bytes, total) {
                    Err(RECORD) => RECORD,
                    _ if room < ROOM_BYTES => ROOM,
                    Err(number) => number,
                    Ok(_) => DONE,
                };
                let came = match wanted {
                    Wanted::Same => number == DONE,
                    Wanted::Refused(wanted) => number == wanted,
                    Wanted::Unknown => true,
                };
                assert!(came, "{kind:?} of {sort:?}: {number}, {wanted:?}");
            }
        }
    }

    #[test]
    fn totals_are_off_and_groups_are_others() {
        let mut random = Random::new(73);
        for total in [0, 1, 65535, 65536, 1 << 30] {
            assert!((0..500).all(|_| total_off(&mut random, total) != total));
        }
        assert!((0..500).all(|_| !GROUPS.contains(&other_group(&mut random))));
    }
}

//! Rows of other lengths, and arrays with a fault.

use super::draft::Draft;
use super::{Change, Change::*, Wanted};
use crate::delta::{largest, least, Flag};
use crate::generate::deltas::{any_of_width, Item, Sound};
use crate::random::Random;
use crate::refusal::{DELTA_COUNT, DELTA_PLACE, DELTA_START, DELTA_SUM};

/// The same arrays, for as many elements or others.
pub fn length(random: &mut Random, sound: &Sound, change: Change) -> Draft {
    let mut draft = Draft::new(sound);
    match change {
        Shorter => shorten(random, sound, &mut draft),
        WithinRun => {
            let is_run = |item: &Item| item.has_count() && item.elements > 1;
            let Some((item, _)) = some_item(random, sound, is_run) else {
                shorten(random, sound, &mut draft);
                return draft;
            };
            draft.n = item.start + random.within(1..=item.elements - 1);
            draft.wanted = Wanted::Refused(DELTA_PLACE);
        }
        Longer => {
            draft.n += random.pick(&[1, 1, 2, 1000]);
            draft.wanted = Wanted::Refused(DELTA_PLACE);
            // The element that is missing is one of DATA, or a value after bad ones.
            let ends_bad = sound.row.ends_with(&[None]);
            draft.ends.data = !ends_bad;
            draft.ends.value = ends_bad;
        }
        _ => {}
    }
    draft
}

/// Ends the row before an element of DATA, or between bad elements and the good
/// one after them.
fn shorten(random: &mut Random, sound: &Sound, draft: &mut Draft) {
    let item = random.pick(&sound.items);
    let cut = if item.is_bad() { random.pick(&[0, item.elements]) } else { 0 };
    draft.n = item.start + cut;
    draft.wanted = Wanted::Row(sound.row[..draft.n].to_vec());
}

/// One item of some kind, the first or last of it or any, and its place.
fn some_item(
    random: &mut Random,
    sound: &Sound,
    is_wanted: impl Fn(&Item) -> bool,
) -> Option<(Item, usize)> {
    let places: Vec<usize> =
        (0..sound.items.len()).filter(|&place| is_wanted(&sound.items[place])).collect();
    let (first, last) = (*places.first()?, *places.last()?);
    let any = random.pick(&places);
    let place = random.pick(&[any, any, first, last]);
    Some((sound.items[place], place))
}

/// Where the row has nothing that can be faulty so, it stays as it is.
pub fn fault(random: &mut Random, sound: &Sound, change: Change) -> Draft {
    let draft = Draft::new(sound);
    let faulty = match change {
        StartNoFlag => Some(start(random, sound, draft)),
        DataCut => Some(cut_data(random, sound, draft)),
        ValueCut => cut_values(random, sound, draft),
        CountCut => cut_counts(random, sound, draft),
        RunTooLong => lengthen_run(random, sound, draft),
        CountBelow | CountBelowNoValue => lower_count(random, sound, change, draft),
        _ => leave(random, sound, change, draft),
    };
    faulty.unwrap_or_else(|| Draft::new(sound))
}

/// A difference first, whatever else is there.
fn start(random: &mut Random, sound: &Sound, mut draft: Draft) -> Draft {
    let (low, most) = (least(sound.widths.data), sound.widths.most());
    let any = any_of_width(random, sound.widths.data).min(most);
    draft.written.data[0] = random.pick(&[any, 0, 1, -1, low, most]);
    if random.one_in(2) {
        draft.written.values.clear();
        draft.written.counts.clear();
        (draft.ends.value, draft.ends.repeat) = (true, true);
    }
    draft.wanted = Wanted::Refused(DELTA_START);
    draft
}

fn cut_data(random: &mut Random, sound: &Sound, mut draft: Draft) -> Draft {
    let last = sound.items.len() - 1;
    let any = random.within(0..=last);
    draft.written.data.truncate(random.pick(&[any, last, 0]));
    draft.ends.data = true;
    draft.wanted = Wanted::Refused(DELTA_PLACE);
    draft
}

/// Before a value that is taken, one of several too.
fn cut_values(random: &mut Random, sound: &Sound, mut draft: Draft) -> Option<Draft> {
    let (item, _) = some_item(random, sound, |item| item.values > 0)?;
    let any = random.below(item.values);
    draft.written.values.truncate(item.value + random.pick(&[any, 0, item.values - 1]));
    draft.ends.value = true;
    draft.wanted = Wanted::Refused(DELTA_PLACE);
    Some(draft)
}

fn cut_counts(random: &mut Random, sound: &Sound, mut draft: Draft) -> Option<Draft> {
    let (item, _) = some_item(random, sound, Item::has_count)?;
    draft.written.counts.truncate(item.count);
    draft.ends.repeat = true;
    draft.wanted = Wanted::Refused(DELTA_PLACE);
    Some(draft)
}

/// A run that is longer than the rest of the row.
fn lengthen_run(random: &mut Random, sound: &Sound, mut draft: Draft) -> Option<Draft> {
    let (item, place) = some_item(random, sound, Item::has_count)?;
    let left = (sound.row.len() - item.start) as i32;
    let any = left + 1 + (random.next_u32() >> random.within(8..=31)) as i32;
    let count = random.pick(&[left + 1, left + 1, left + 2, any, i32::MAX, i32::MAX - 1]);
    draft.written.counts[item.count] = count;
    draft.wanted = Wanted::Refused(DELTA_PLACE);
    spoil_after(random, &mut draft, place);
    Some(draft)
}

/// A count below 1, with the values at hand that a right one takes, or none.
fn lower_count(
    random: &mut Random,
    sound: &Sound,
    change: Change,
    mut draft: Draft,
) -> Option<Draft> {
    let (item, place) = some_item(random, sound, Item::has_count)?;
    let any = random.next_u32() as i32 | i32::MIN;
    draft.written.counts[item.count] = random.pick(&[0, 0, -1, i32::MIN, any]);
    // A bad run that no longer ends the row takes a value too.
    draft.written.values.resize(draft.written.values.len().max(item.value + 1), 7);
    let mut number = DELTA_COUNT;
    if change == CountBelowNoValue {
        draft.written.values.truncate(item.value);
        draft.ends.value = true;
        if item.flag != Some(Flag::Fulls) {
            number = DELTA_PLACE;
        }
    }
    draft.wanted = Wanted::Refused(number);
    spoil_after(random, &mut draft, place);
    Some(draft)
}

/// Two elements before another: a value, and a difference that leads from it
/// out of 32 bits.
fn leave(random: &mut Random, sound: &Sound, change: Change, mut draft: Draft) -> Option<Draft> {
    let widths = sound.widths;
    if !widths.leave_soon() {
        return None;
    }
    let (item, place) = some_item(random, sound, |_| true)?;
    let (value, difference) = match change {
        SumAbove => {
            let least = i32::MAX - widths.most() + 1;
            let value = between(random, least, largest(widths.value));
            (value, between(random, i32::MAX - value + 1, widths.most()))
        }
        _ => {
            let low = least(widths.data);
            let value = between(random, least(widths.value), i32::MIN - low - 1);
            (value, between(random, low, i32::MIN - value - 1))
        }
    };
    draft.n += 2;
    draft.written.data.splice(place..place, [widths.max(), difference]);
    draft.written.values.insert(item.value, value);
    draft.wanted = Wanted::Refused(DELTA_SUM);
    spoil_after(random, &mut draft, place + 1);
    Some(draft)
}

/// Either of these, or any between them.
fn between(random: &mut Random, low: i32, high: i32) -> i32 {
    let any = low + random.below((i64::from(high) - i64::from(low) + 1) as usize) as i32;
    random.pick(&[any, low, high])
}

/// What follows a fault is not looked at: at times nothing does.
fn spoil_after(random: &mut Random, draft: &mut Draft, place: usize) {
    match random.below(4) {
        0 => {
            draft.written.data.truncate(place + 1);
            draft.ends.data = true;
        }
        1 => draft.written.data[place + 1..].fill(draft.widths.max()),
        _ => {}
    }
}

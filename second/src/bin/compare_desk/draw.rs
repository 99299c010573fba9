//! Sheets drawn.

use std::ffi::OsString;
use std::fs;

use crate::outcomes::{number_of, Outcomes};
use crate::trial::{same_bytes, Case, Desk};
use second::child::Printed;
use second::desk::{draw_sheet, DrawOptions, GivenMap};
use second::generate::maps::flaws::{change, changes, Reading};
use second::generate::maps::{Sound, SORTS};
use second::map::GROUPS;
use second::picture::{Picture, Range};
use second::random::Random;
use second::stored::Stored;

/// The most samples that a picture has, mostly and at times.
const MOST_SAMPLES: [usize; 2] = [1_000_000, 40_000_000];
const MOST_TIMES: usize = 15;

/// Draws a sheet; a big one as large as may be.
pub fn compare(
    desk: &Desk,
    random: &mut Random,
    case: &Case,
    outcomes: &mut Outcomes,
) -> Result<(), String> {
    let options = fitting(random, case);
    let mut words = words(desk, random, &options)?;
    let wanted = draw_sheet(&case.bytes, &options);
    let complaints = String::from_utf8_lossy(&wanted.complaints).into_owned();
    if random.one_in(8) {
        let out = desk.path("out.png");
        words.extend(["-o".into(), out.clone().into_os_string()]);
        let nothing = Printed { out: Vec::new(), ..wanted };
        desk.compare(random, "draw_sheet", &words, case, |_| nothing)?;
        let written = fs::read(&out).map_err(|error| error.to_string());
        written
            .and_then(|written| same_bytes(&written, &wanted.out))
            .map_err(|what| desk.report("draw_sheet", &words, case, &what))?;
    } else {
        desk.compare(random, "draw_sheet", &words, case, |_| wanted)?;
    }
    outcomes.add("draw_sheet", number_of(&complaints))?;
    let refused = complaints.split_once("map refused ").map(|(_, number)| number.trim_end());
    let read = if options.map.is_some() { "read" } else { "none" };
    outcomes.add("map beside", refused.unwrap_or(read))
}

/// Options with which the picture is not too large.
fn fitting(random: &mut Random, case: &Case) -> DrawOptions {
    let most = MOST_SAMPLES[usize::from(case.big || random.one_in(50))];
    let mut options = any(random);
    if case.big {
        options = DrawOptions { times: MOST_TIMES, map: Some(map(random)), ..options };
    }
    let stored = Stored::read(&case.bytes);
    let samples = |options: &DrawOptions| {
        let (look, _) = options.look();
        let picture = Picture::new(&look, &stored);
        picture.width() * picture.height()
    };
    while samples(&options) > most && options.times > 1 {
        options.times -= 1;
    }
    if samples(&options) > most {
        options.map = None;
    }
    options
}

fn any(random: &mut Random) -> DrawOptions {
    let any = random.within(1..=MOST_TIMES);
    let times = random.pick(&[1, 1, 1, 2, any]);
    let range = if random.one_in(2) { Range::WHOLE } else { range(random) };
    DrawOptions { times, range, map: random.one_in(2).then(|| map(random)) }
}

fn range(random: &mut Random) -> Range {
    let mut ends = [(); 2].map(|()| {
        let any = random.below(4094) as u16;
        random.pick(&[0, 1, any, any, 4093])
    });
    ends.sort_unstable();
    let high = random.pick(&[ends[1], ends[1], ends[0]]);
    Range { low: ends[0], high }
}

fn map(random: &mut Random) -> GivenMap {
    let (group, sort) = (random.pick(&GROUPS), random.pick(&SORTS));
    let sound = Sound::new(random, group, sort);
    let kinds = changes();
    let kind = if random.one_in(2) { kinds[0] } else { random.pick(&kinds) };
    let Reading { group, bytes, total, .. } = change(random, &sound, kind);
    GivenMap { bytes, group, total }
}

/// The options on a command line, in any order. What is usual need not be
/// there, and where one is given twice the last counts.
fn words(desk: &Desk, random: &mut Random, options: &DrawOptions) -> Result<Vec<OsString>, String> {
    let mut given: Vec<Vec<OsString>> = Vec::new();
    let times = |times: usize| vec!["--times".into(), times.to_string().into()];
    if options.times > 1 || random.one_in(4) {
        given.push(times(options.times));
    }
    let Range { low, high } = options.range;
    if options.range != Range::WHOLE || random.one_in(4) {
        given.push(vec!["--range".into(), low.to_string().into(), high.to_string().into()]);
    }
    if let Some(GivenMap { bytes, group, total }) = &options.map {
        given.push(vec!["--map".into(), desk.file("map", bytes)?]);
        given.push(vec!["--group".into(), group.to_string().into()]);
        given.push(vec!["--total".into(), total.to_string().into()]);
    }
    random.shuffle(&mut given);
    if options.times > 1 && random.one_in(4) {
        given.insert(0, times(random.within(1..=MOST_TIMES)));
    }
    Ok(given.concat())
}

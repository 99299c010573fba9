//! The heights of sheets as a picture and as text.

use crate::outcomes::Outcomes;
use crate::trial::{Case, Desk};
use second::desk::{sheet_to_pgm, sheet_to_text};
use second::random::Random;

pub fn compare_pgm(
    desk: &Desk,
    random: &mut Random,
    case: &Case,
    outcomes: &mut Outcomes,
) -> Result<(), String> {
    let any = random.below(4096) as u16;
    let pad = random.one_in(3).then(|| random.pick(&[0, any, 4094, 4095]));
    let options = pad.map_or(Vec::new(), |pad| vec!["--pad".into(), pad.to_string().into()]);
    let printed = desk.compare(random, "sheet_to_pgm", &options, case, |name| {
        sheet_to_pgm(name, &case.bytes, pad)
    })?;
    let said = String::from_utf8_lossy(&printed.complaints);
    let end = match said.split_once('\n').unwrap_or_default() {
        (verdict, _) if verdict.starts_with("refused ") => "refused",
        (_, "") if pad.is_some() => "padded",
        (_, "") => "picture",
        (_, fault) if fault.ends_with(" is missing\n") => "missing",
        (_, fault) if fault.ends_with(" no heights\n") => "no heights",
        _ => "unequal",
    };
    outcomes.add("sheet_to_pgm", end)
}

pub fn compare_text(
    desk: &Desk,
    random: &mut Random,
    case: &Case,
    outcomes: &mut Outcomes,
) -> Result<(), String> {
    let wanted = random.one_in(2).then(|| {
        let any = random.next_u32() as u16;
        let first = random.below(40) as u16;
        let first = random.pick(&[0, 1, first, first, any, u16::MAX]);
        let more = random.below(20) as u16;
        first..=first.saturating_add(random.pick(&[0, more, more, u16::MAX]))
    });
    let options = wanted.as_ref().map_or(Vec::new(), |wanted| {
        vec!["--rows".into(), format!("{}-{}", wanted.start(), wanted.end()).into()]
    });
    let some = wanted.is_some();
    let printed = desk
        .compare(random, "sheet_to_text", &options, case, |_| sheet_to_text(&case.bytes, wanted))?;
    let end = match () {
        () if printed.complaints.starts_with(b"refused ") => "refused",
        () if some => "some rows",
        () => "all rows",
    };
    outcomes.add("sheet_to_text", end)
}

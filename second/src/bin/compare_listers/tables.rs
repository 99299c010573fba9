//! Tables to list.

use crate::Case;
use second::generate::damage::{damaged_table, damages};
use second::generate::tables::{entry_count, table, SHAPES};
use second::known::{memo_table, plain_table, table_bytes, Labels};
use second::random::Random;

/// The table with this index: those that are written out, then sound and
/// damaged ones, every shape and damage in turn, and inputs that are too long.
pub fn any(random: &mut Random, index: usize) -> Case {
    let written_out = [
        table_bytes(&[7, 4093, 1, 34, 99, 227, 1]),
        plain_table(),
        memo_table(Labels::Version11),
        memo_table(Labels::Version01a),
        Vec::new(),
    ];
    if let Some(bytes) = written_out.into_iter().nth(index) {
        return Case { name: "written out".to_string(), bytes };
    }
    match random.below(10) {
        0..=4 => sound(random, index),
        5 => too_long(random),
        _ => {
            let damages = damages();
            let damage = damages[index % damages.len()];
            Case { name: format!("{damage:?}"), bytes: damaged_table(random, damage) }
        }
    }
}

fn sound(random: &mut Random, index: usize) -> Case {
    let shape = SHAPES[index % SHAPES.len()];
    let entries = entry_count(random);
    Case { name: format!("{shape:?} {entries}"), bytes: table(random, shape, entries).bytes() }
}

/// A sound table with more behind it, up to far more than any table has.
fn too_long(random: &mut Random) -> Case {
    let index = random.below(SHAPES.len());
    let mut case = sound(random, index);
    let more = random.pick(&[1, 4, 1 << 12, 1 << 16, 1 << 20]);
    case.bytes.extend(random.bytes(more));
    Case { name: format!("{} and {more} bytes", case.name), ..case }
}

#[cfg(test)]
mod tests {
    use super::*;
    use second::listing::list_table;

    #[test]
    fn tables_of_all_numbers() {
        let mut random = Random::new(51);
        assert!(list_table(&any(&mut random, 0).bytes).starts_with("0 0\nraw 10\n"));
        let texts: Vec<String> =
            (5..200).map(|index| list_table(&any(&mut random, index).bytes)).collect();
        for number in 1..=3 {
            assert!(texts.contains(&format!("refused {number}\n")));
        }
        assert!(texts.iter().any(|text| text.lines().count() > 60));
    }
}

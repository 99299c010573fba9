use super::*;
use crate::generate::sheets::{sheet, Size};
use crate::known::plain_table;
use crate::listing::{list_sheet, refused_line};
use crate::table::Table;

fn sound(random: &mut Random, table: &Table) -> Records {
    let size = Size { records: random.within(0..=9), longest: 40 };
    let entries = sheet(random, &plain_table(), table, size);
    entries.iter().map(|entry| entry.foreign_record(random, table)).collect()
}

/// The last line of the listing says where and why a sheet was refused.
#[test]
fn every_flaw_has_its_ending() {
    let mut random = Random::new(35);
    let table = Table::parse(&plain_table()).unwrap();
    for flaw in flaws() {
        let (mut seen, mut refused_at) = (0, 0);
        while seen < 100 {
            let records = sound(&mut random, &table);
            let Some((bytes, ending)) = spoil(&mut random, &table, &records, flaw) else {
                continue;
            };
            seen += 1;
            if let Ending::Refused { number, record, at } = ending {
                let text = list_sheet(&bytes);
                let last = refused_line(number, record, at as u32);
                assert_eq!(text.lines().last(), Some(last.trim_end()), "{flaw:?}");
                refused_at += 1;
            }
        }
        let certain = !matches!(
            flaw,
            NoBytes | LengthOff | KindChanged | AnyWords | BitsFlipped | RandomBytes
        );
        assert_eq!(refused_at > 0, certain, "{flaw:?}");
    }
}

#[test]
fn lengths_reach_the_limit() {
    let mut random = Random::new(36);
    let table = Table::parse(&plain_table()).unwrap();
    for (flaw, longest) in [(Longest, MAX_RECORD + 5), (ManyPixels, 32_778), (ManyNumbers, 32_778)]
    {
        let mut most = 0;
        for _ in 0..200 {
            let records = sound(&mut random, &table);
            let length = records.concat().len();
            if let Some((bytes, _)) = spoil(&mut random, &table, &records, flaw) {
                most = most.max(bytes.len().saturating_sub(length));
            }
        }
        assert!(most <= longest && most > longest - 200, "{flaw:?} {most}");
    }
}

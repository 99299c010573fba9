//! States that no call gives: any number but 0 says that there is a table, no
//! row number reaches 65536 or more, and a record changes no more of a state
//! than it must.

use crate::progress::Progress;
use second::compared::{Outcome, Place, Writing};
use second::generate::entries::Entry;
use second::generate::sheets::odd_state;
use second::known::plain_table;
use second::memory::{Given, Lent};
use second::opened::Opened;
use second::random::Random;
use second::sheet::{KIND_LINE, KIND_PACKED, KIND_PLAIN, KIND_TABLE};

pub fn compare(random: &mut Random, progress: &mut Progress) -> Outcome<()> {
    let table = Opened::new(random, &plain_table());
    let model = &table.codec().expect("the plain table is accepted").table;
    let kind = random.pick(&[KIND_TABLE, KIND_PACKED, KIND_PLAIN, KIND_LINE]);
    let row = random.next_u32() as u16;
    let entry = match kind {
        KIND_TABLE => Entry::of_table(table.bytes()),
        KIND_LINE => Entry::of_line(random, 2),
        _ => Entry::of_row(random, model, kind, row, 2),
    };
    let sheet = Given::new(random, &entry.own_record(model));
    let state = odd_state(random);
    let wrong = |what| format!("{what}a state outside its limits\n");
    let place = Place { table: &table, sheet: &sheet, start: 0, state };
    place.judge(&mut progress.tally).map_err(wrong)?;
    place.read(&mut progress.tally, &Lent::new(random, 8)).map_err(wrong)?;
    let content = Given::new(random, &entry.content);
    let (kind, row) = (kind.into(), row.into());
    let writing = Writing { kind, row, content: &content, table: &table, state };
    writing.write(&mut progress.tally, &Lent::new(random, 3000)).map_err(wrong)?;
    Ok(())
}

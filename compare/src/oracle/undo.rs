//! Document 01, 'The history': taking back.

use super::history::{self, Record};
use super::refusal::{Number, Refusal};
use super::table::Table;

/// Takes a history back. A table "ill formed is 6 at place 0". "Taking back
/// first checks the form front to back. It then goes back to front." Refused,
/// it "changes nothing".
pub fn undo(table: &mut Table, bytes: &[u8]) -> Result<(), Refusal> {
    if !table.is_well_formed() {
        return Err(Number::Link.at(0));
    }
    let records = history::read(bytes)?;
    let mut earlier = table.clone();
    for &(place, record) in records.iter().rev() {
        if !fits(&earlier, record) {
            return Err(Number::Link.at(place));
        }
        take_back(&mut earlier, record);
    }
    *table = earlier;
    Ok(())
}

fn fits(table: &Table, record: Record) -> bool {
    match record {
        // "A made row must be the last row, unmarked, and equal its record."
        Record::Made { number, row } => {
            let is_last = usize::from(number) + 1 == table.rows.len();
            is_last && !table.is_marked(number) && table.row(number) == Some(row)
        }
        // "A cut row must exist, have no parent and no mark, and its old
        // parent must be a lower element."
        Record::Cut { number, old } => {
            let is_cut = table.row(number).is_some_and(|row| row.parent().is_none());
            let lower_element = old.is_some_and(|old| table.is_lower_element(old, number));
            is_cut && !table.is_marked(number) && lower_element
        }
    }
}

/// What was before a record that fits.
fn take_back(table: &mut Table, record: Record) {
    match record {
        Record::Made { .. } => {
            table.rows.pop();
        }
        Record::Cut { number, old } => {
            let row = &mut table.rows[usize::from(number)];
            *row = row.with_parent(old);
        }
    }
}

//! Document 01, 'The scripts': the sweep.

use super::refusal::{Number, Refusal};
use super::table::Table;

/// Sweeps a table. "A table handed in ill formed is 6 at place 0."
pub fn sweep(table: &mut Table) -> Result<(), Refusal> {
    if !table.is_well_formed() {
        return Err(Number::Link.at(0));
    }
    *table = swept(table);
    Ok(())
}

/// "Sweep drops each row that is neither marked nor below a marked row. The
/// others are renumbered in rising order."
fn swept(table: &Table) -> Table {
    let kept: Vec<bool> = (0..table.rows.len() as u16)
        .map(|number| table.is_marked(number) || is_below_a_mark(table, number))
        .collect();
    // The new number of a row that is kept is how many are kept before it.
    let renumbered = |number: u16| {
        let before = &kept[..usize::from(number)];
        before.iter().filter(|kept| **kept).count() as u16
    };
    let rows = table.rows.iter().zip(&kept).filter(|(_, kept)| **kept);
    Table {
        rows: rows
            .map(|(row, _)| row.with_parent(row.parent().map(renumbered)))
            .collect(),
        marks: table.marks.map(|mark| mark.map(renumbered)),
    }
}

/// Does walking up from a row meet a marked one?
fn is_below_a_mark(table: &Table, number: u16) -> bool {
    table.above(number).any(|above| table.is_marked(above))
}

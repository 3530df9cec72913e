//! A table packed as the C interface passes it.
//!
//! A row is packed into one number: kind + 4 * link + 4096 * tag. Link 0 means no parent,
//! else it is the parent's number + 1. A mark is 0 for none, else the marked
//! row's number + 1. Rows at and past the count are 0.

use crate::oracle::limits::{DOCUMENTS, ROWS};
use crate::oracle::table::{Kind, Row, Table};

pub const ELEMENT: u32 = 1;
pub const LEAF: u32 = 2;
pub const LINK_UNIT: u32 = 4;
pub const LINK_VALUES: u32 = 1024;
pub const TAG_UNIT: u32 = LINK_UNIT * LINK_VALUES;

/// A table, packed, of any lengths and content.
#[derive(Clone, Debug, PartialEq, Eq)]
pub struct RawTable {
    pub count: usize,
    pub rows: Vec<u32>,
    pub marks: Vec<u16>,
}

impl RawTable {
    /// The packed rows of a table of at most 512 rows.
    pub fn of(table: &Table) -> RawTable {
        let mut raw = RawTable {
            count: table.rows.len(),
            rows: vec![0; ROWS],
            marks: vec![0; DOCUMENTS],
        };
        encode(table, &mut raw.rows, &mut raw.marks);
        raw
    }
}

/// The table that packed rows stand for, or none if it is ill formed. `rows` and
/// `marks` have the right lengths.
pub fn decode(count: usize, rows: &[u32], marks: &[u16]) -> Option<Table> {
    if count > ROWS {
        return None;
    }
    let (used, unused) = rows.split_at(count);
    if unused.iter().any(|&packed| packed != 0) {
        return None;
    }
    let mut table = Table {
        rows: used
            .iter()
            .map(|&packed| decode_row(packed))
            .collect::<Option<_>>()?,
        ..Table::default()
    };
    for (mark, &packed) in table.marks.iter_mut().zip(marks) {
        *mark = packed.checked_sub(1);
    }
    table.is_well_formed().then_some(table)
}

fn decode_row(packed: u32) -> Option<Row> {
    let kind = match packed % LINK_UNIT {
        ELEMENT => Kind::Element,
        LEAF => Kind::Leaf,
        _ => return None,
    };
    let link = (packed / LINK_UNIT % LINK_VALUES) as u16;
    let tag = u8::try_from(packed / TAG_UNIT).ok()?;
    Some(Row::new(kind, tag, link.checked_sub(1)))
}

/// Packs a table of at most 512 rows; numbers past its rows are 0.
pub fn encode(table: &Table, rows: &mut [u32], marks: &mut [u16]) {
    let (used, unused) = rows.split_at_mut(table.rows.len());
    for (packed, row) in used.iter_mut().zip(&table.rows) {
        *packed = encode_row(*row);
    }
    unused.fill(0);
    for (packed, mark) in marks.iter_mut().zip(&table.marks) {
        *packed = mark.map_or(0, |number| number + 1);
    }
}

pub fn encode_row(row: Row) -> u32 {
    let kind = match row.kind {
        Kind::Element => ELEMENT,
        Kind::Leaf => LEAF,
    };
    let link = row.parent().map_or(0, |parent| u32::from(parent) + 1);
    kind + LINK_UNIT * link + TAG_UNIT * u32::from(row.tag)
}

#[cfg(test)]
mod tests {
    use super::*;

    /// An element named 5, marked by document 2, with a leaf -1 below.
    fn sound() -> RawTable {
        let mut table = Table {
            rows: vec![Row::element(5, None), Row::leaf(-1, Some(0))],
            ..Table::default()
        };
        table.marks[2] = Some(0);
        RawTable::of(&table)
    }

    fn is_sound(raw: &RawTable) -> bool {
        decode(raw.count, &raw.rows, &raw.marks).is_some()
    }

    #[test]
    fn packed_rows_of_a_table() {
        let raw = sound();
        assert_eq!(raw.rows[..3], [0x5001, 0xFF006, 0]);
        assert_eq!(raw.marks, [0, 0, 1, 0, 0, 0, 0, 0]);
        let table = decode(raw.count, &raw.rows, &raw.marks).expect("well formed");
        assert_eq!(RawTable::of(&table), raw);
    }

    #[test]
    fn ill_formed_rows() {
        // No kind, kind 3, name 0, name 256, its own parent, no such parent.
        for packed in [0, 0x5003, 0x0001, 0x10_0001, 0x5005, 0x5009] {
            let mut raw = sound();
            raw.rows[0] = packed;
            assert!(!is_sound(&raw), "{packed:X}");
        }
        // A row past the count, in any field.
        for packed in [1, 4, 0x1000, 0x8000_0000] {
            let mut raw = sound();
            raw.rows[ROWS - 1] = packed;
            assert!(!is_sound(&raw), "{packed:X}");
        }
        for count in [0, 1, 3, 512, 513, usize::MAX] {
            let raw = RawTable { count, ..sound() };
            assert!(!is_sound(&raw), "{count}");
        }
        // A second mark of the row, a leaf, no such row.
        for mark in [1, 2, 3, u16::MAX] {
            let mut raw = sound();
            raw.marks[7] = mark;
            assert!(!is_sound(&raw), "{mark}");
        }
    }
}

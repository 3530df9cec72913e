//! Document 01, 'The history': its records and their bytes.

use super::limits::HISTORY_RECORDS;
use super::plan::{field_of_parent, parent_of_field};
use super::refusal::{Number, Refusal};
use super::table::{Kind, Row};

pub const ELEMENT_MADE: u8 = 0x41;
pub const LEAF_MADE: u8 = 0x42;
pub const LINK_CUT: u8 = 0x43;

/// Bytes of a record that tells of a new row, its kind byte included.
pub const MADE_BYTES: usize = 6;
/// Bytes of a record that tells of a cut link, its kind byte included.
pub const CUT_BYTES: usize = 5;

#[derive(Clone, Copy, Debug, PartialEq, Eq)]
pub enum Record {
    /// A row was made with this number.
    Made { number: u16, row: Row },
    /// The row lost this parent; none stands for the field 0xFFFF, which
    /// never fits.
    Cut { number: u16, old: Option<u16> },
}

impl Record {
    /// "0x41 element made (row 2, name 1, parent 2), 0x42 leaf made (row 2,
    /// value 1, parent 2), 0x43 link cut (row 2, old parent 2)."
    pub fn to_vec(self) -> Vec<u8> {
        match self {
            Record::Made { number, row } => {
                let kind = match row.kind {
                    Kind::Element => ELEMENT_MADE,
                    Kind::Leaf => LEAF_MADE,
                };
                let [low, high] = number.to_le_bytes();
                let [parent_low, parent_high] = field_of_parent(row.parent()).to_le_bytes();
                vec![kind, low, high, row.tag, parent_low, parent_high]
            }
            Record::Cut { number, old } => {
                let [low, high] = number.to_le_bytes();
                let [old_low, old_high] = field_of_parent(old).to_le_bytes();
                vec![LINK_CUT, low, high, old_low, old_high]
            }
        }
    }
}

/// The bytes of a history.
pub fn to_vec(history: &[Record]) -> Vec<u8> {
    history.iter().flat_map(|record| record.to_vec()).collect()
}

/// Reads a history: "first checks the form front to back". Each record comes
/// with its place; whether it fits a table is not asked here.
pub fn read(bytes: &[u8]) -> Result<Vec<(usize, Record)>, Refusal> {
    let mut records = Vec::new();
    let mut place = 0;
    while place < bytes.len() {
        let (record, length) =
            read_record(&bytes[place..], records.len()).map_err(|number| number.at(place))?;
        records.push((place, record));
        place += length;
    }
    Ok(records)
}

/// The record at the front, after so many others, and its length. "Per record:
/// 1, 5, 2, 4"; row and parent fields "have no range of their own".
fn read_record(bytes: &[u8], before: usize) -> Result<(Record, usize), Number> {
    // 1: "kind byte not of this form".
    let length = match bytes[0] {
        ELEMENT_MADE | LEAF_MADE => MADE_BYTES,
        LINK_CUT => CUT_BYTES,
        _ => return Err(Number::Kind),
    };
    // 5: "2,049th history record read".
    if before == HISTORY_RECORDS {
        return Err(Number::Size);
    }
    // 2: "a record [..] is cut off by the end".
    let bytes = bytes.get(..length).ok_or(Number::Short)?;
    let number = u16::from_le_bytes([bytes[1], bytes[2]]);
    let parent = parent_of_field(u16::from_le_bytes([bytes[length - 2], bytes[length - 1]]));
    // 4: "a body field out of its range": a name 0.
    let record = match (bytes[0], bytes[3]) {
        (LINK_CUT, _) => Record::Cut {
            number,
            old: parent,
        },
        (ELEMENT_MADE, 0) => return Err(Number::Field),
        (kind, tag) => {
            let made = if kind == ELEMENT_MADE {
                Kind::Element
            } else {
                Kind::Leaf
            };
            let row = Row::new(made, tag, parent);
            Record::Made { number, row }
        }
    };
    Ok((record, length))
}

/// The records of a history without their places.
pub fn records(bytes: &[u8]) -> Result<Vec<Record>, Refusal> {
    let records = read(bytes)?;
    Ok(records.into_iter().map(|(_, record)| record).collect())
}

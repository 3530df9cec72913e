//! Document 01, 'The table': stored plans, read and written.

use super::limits::{DOCUMENTS, NO_PARENT, PLAN_RECORD_BYTES, ROWS};
use super::refusal::{Number, Refusal};
use super::table::{Kind, Row, Table};

pub const ELEMENT: u8 = 0x11;
pub const LEAF: u8 = 0x12;
pub const MARK: u8 = 0x13;

/// Reads a stored plan. "No bytes is the plan without rows."
pub fn read(bytes: &[u8]) -> Result<Table, Refusal> {
    let mut table = Table::default();
    let mut place = 0;
    while place < bytes.len() {
        read_record(&bytes[place..], &mut table).map_err(|number| number.at(place))?;
        place += PLAN_RECORD_BYTES;
    }
    Ok(table)
}

/// "Then, per record: 1, 5, 2, 4, 6."
fn read_record(bytes: &[u8], table: &mut Table) -> Result<(), Number> {
    let kind = bytes[0];
    let is_row = kind == ELEMENT || kind == LEAF;
    // 1: "kind byte not of this form".
    if !is_row && kind != MARK {
        return Err(Number::Kind);
    }
    // 5: "513th row".
    if is_row && table.rows.len() == ROWS {
        return Err(Number::Size);
    }
    // 2: "a record [..] is cut off by the end".
    let Some(&[_, field, low, high]) = bytes.get(..PLAN_RECORD_BYTES) else {
        return Err(Number::Short);
    };
    let number = u16::from_le_bytes([low, high]);
    // 4 and 6 depend on the kind.
    match kind {
        ELEMENT => read_row(Kind::Element, field, parent_of_field(number), table),
        LEAF => read_row(Kind::Leaf, field, parent_of_field(number), table),
        _ => read_mark(usize::from(field), number, table),
    }
}

/// 4: a name is 1 to 255. 6: "Rows come in number order, then marks"; "every
/// parent is an element with a lower number than its child".
fn read_row(kind: Kind, tag: u8, parent: Option<u16>, table: &mut Table) -> Result<(), Number> {
    if kind == Kind::Element && tag == 0 {
        return Err(Number::Field);
    }
    let own = table.rows.len() as u16;
    let before_marks = table.marks.iter().all(Option::is_none);
    if !before_marks || !table.may_be_above(parent, own) {
        return Err(Number::Link);
    }
    table.rows.push(Row::new(kind, tag, parent));
    Ok(())
}

/// 4: documents are 0 to 7. 6: "marks with rising document"; each marks "an
/// element without parent that no other document marks".
fn read_mark(document: usize, number: u16, table: &mut Table) -> Result<(), Number> {
    if document >= DOCUMENTS {
        return Err(Number::Field);
    }
    let rising = table.marks[document..].iter().all(Option::is_none);
    if !rising || !table.takes_mark(number) {
        return Err(Number::Link);
    }
    table.marks[document] = Some(number);
    Ok(())
}

/// Bytes that the table takes when stored.
pub fn stored_length(table: &Table) -> usize {
    to_vec(table).len()
}

/// "The writer needs the plan's stored length, checks 6 before 11, and leaves
/// bytes past that length as they were." It answers that length.
pub fn write(table: &Table, out: &mut [u8]) -> Result<usize, Refusal> {
    if !table.is_well_formed() {
        return Err(Number::Link.at(0));
    }
    let bytes = to_vec(table);
    if out.len() < bytes.len() {
        return Err(Number::Lent.at(0));
    }
    out[..bytes.len()].copy_from_slice(&bytes);
    Ok(bytes.len())
}

/// The stored form: "rows come in number order, then marks with rising
/// document". Whether the table is well formed is not asked.
pub fn to_vec(table: &Table) -> Vec<u8> {
    let mut bytes = Vec::new();
    for row in &table.rows {
        let kind = match row.kind {
            Kind::Element => ELEMENT,
            Kind::Leaf => LEAF,
        };
        bytes.extend([kind, row.tag]);
        bytes.extend(field_of_parent(row.parent()).to_le_bytes());
    }
    for (document, mark) in (0u8..).zip(table.marks) {
        if let Some(number) = mark {
            bytes.extend([MARK, document]);
            bytes.extend(number.to_le_bytes());
        }
    }
    bytes
}

/// "Parent 0xFFFF means none."
pub fn parent_of_field(field: u16) -> Option<u16> {
    (field != NO_PARENT).then_some(field)
}

/// The stored field that means this parent.
pub fn field_of_parent(parent: Option<u16>) -> u16 {
    parent.unwrap_or(NO_PARENT)
}

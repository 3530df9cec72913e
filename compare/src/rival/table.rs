//! The table: each row is packed as the bytes of its stored record. So a plan
//! is read by checking its records, and written by copying them.

use crate::oracle::limits::{DOCUMENTS, NO_PARENT, PLAN_RECORD_BYTES, ROWS};
use crate::oracle::plan::{ELEMENT, LEAF, MARK};
use crate::oracle::refusal::{Number, Refusal};
use crate::raw;

/// An element with name 0, its parent not looked at.
const NAMELESS: u32 = ELEMENT as u32;
/// Rows checked at once.
const LANES: usize = 16;
/// The bits of a packed row that are the parent.
pub const PARENT: u32 = 0xFFFF_0000;

pub struct Table {
    /// Packed rows past the count mean nothing.
    pub rows: [u32; ROWS],
    pub count: usize,
    /// The row of each document, or [`NO_PARENT`].
    pub marks: [u16; DOCUMENTS],
}

pub fn pack(kind: u8, tag: u8, parent: u16) -> u32 {
    let [low, high] = parent.to_le_bytes();
    u32::from_le_bytes([kind, tag, low, high])
}

pub fn parent(packed: u32) -> u16 {
    (packed >> 16) as u16
}

pub fn is_element(packed: u32) -> bool {
    packed as u8 == ELEMENT
}

/// A row's number as a place in an array of all rows.
pub fn at(number: u16) -> usize {
    usize::from(number) % ROWS
}

/// Is this a packed row, whatever its parent?
fn is_row(packed: u32) -> bool {
    let is_kind = (packed & 0xFF).wrapping_sub(ELEMENT.into()) <= u32::from(LEAF - ELEMENT);
    is_kind & (packed & 0xFFFF != NAMELESS)
}

/// May the row with this number have this parent?
fn is_linked(rows: &[u32; ROWS], number: usize) -> bool {
    let parent = usize::from(parent(rows[number % ROWS]));
    let lower = is_element(rows[parent.min(number) % ROWS]);
    (parent < number) & lower | (parent == NO_PARENT.into())
}

/// How many of the first numbers are rows as they should be.
fn count_rows(rows: &[u32; ROWS], numbers: usize) -> usize {
    let mut number = 0;
    for chunk in rows[..numbers.min(ROWS)].chunks(LANES) {
        let all_rows = chunk.iter().fold(true, |all, &packed| all & is_row(packed));
        let numbers = number..number + chunk.len();
        let all_linked = numbers.fold(true, |all, number| all & is_linked(rows, number));
        if !(all_rows & all_linked) {
            break;
        }
        number += chunk.len();
    }
    let rest = number..numbers;
    let right = |&number: &usize| is_row(rows[number % ROWS]) && is_linked(rows, number);
    number + rest.take_while(right).count()
}

impl Default for Table {
    fn default() -> Table {
        Table {
            rows: [0; ROWS],
            count: 0,
            marks: [NO_PARENT; DOCUMENTS],
        }
    }
}

impl Table {
    pub fn is_marked(&self, number: u16) -> bool {
        self.marks
            .iter()
            .fold(false, |found, &mark| found | (mark == number))
    }

    /// May a document mark this row?
    fn takes_mark(&self, number: u16) -> bool {
        let root = pack(ELEMENT, 0, NO_PARENT);
        usize::from(number) < self.count
            && self.rows[at(number)] & (PARENT | 0xFF) == root
            && !self.is_marked(number)
    }

    /// Reads a stored plan into an empty table: all records are copied, and
    /// then it is found how many are rows.
    pub fn read(&mut self, bytes: &[u8]) -> Result<(), Refusal> {
        let records = bytes.chunks_exact(PLAN_RECORD_BYTES);
        for (row, record) in self.rows.iter_mut().zip(records) {
            *row = u32::from_le_bytes([record[0], record[1], record[2], record[3]]);
        }
        let numbers = bytes.len() / PLAN_RECORD_BYTES;
        self.count = count_rows(&self.rows, numbers.min(ROWS));
        self.read_marks(bytes)
    }

    /// Reads what follows the rows.
    fn read_marks(&mut self, bytes: &[u8]) -> Result<(), Refusal> {
        let mut place = PLAN_RECORD_BYTES * self.count;
        let mut least = 0;
        while let Some(rest) = bytes.get(place..).filter(|rest| !rest.is_empty()) {
            self.read_mark(rest, &mut least)
                .map_err(|number| number.at(place))?;
            place += PLAN_RECORD_BYTES;
        }
        Ok(())
    }

    /// Reads a mark; or says what is wrong with a row, which is not the next
    /// one, or stands after a mark.
    fn read_mark(&mut self, bytes: &[u8], least: &mut usize) -> Result<(), Number> {
        let is_row = match bytes[0] {
            ELEMENT | LEAF => true,
            MARK => false,
            _ => return Err(Number::Kind),
        };
        if is_row && self.count == ROWS {
            return Err(Number::Size);
        }
        let Some(&[kind, field, low, high]) = bytes.get(..PLAN_RECORD_BYTES) else {
            return Err(Number::Short);
        };
        let document = usize::from(field);
        if is_row && kind == ELEMENT && field == 0 || !is_row && document >= DOCUMENTS {
            return Err(Number::Field);
        }
        let number = u16::from_le_bytes([low, high]);
        if is_row || document < *least || !self.takes_mark(number) {
            return Err(Number::Link);
        }
        self.marks[document] = number;
        *least = document + 1;
        Ok(())
    }

    /// Writes the plan to the start of an area, and answers its length, or
    /// none if the area is too short.
    pub fn write(&self, out: &mut [u8]) -> Option<usize> {
        let marked = self.marks.iter().filter(|&&mark| mark != NO_PARENT).count();
        let length = PLAN_RECORD_BYTES * (self.count + marked);
        let (rows, marks) = out
            .get_mut(..length)?
            .split_at_mut(PLAN_RECORD_BYTES * self.count);
        for (record, packed) in rows.chunks_exact_mut(PLAN_RECORD_BYTES).zip(&self.rows) {
            record.copy_from_slice(&packed.to_le_bytes());
        }
        let stored = (0u8..).zip(self.marks).filter(|mark| mark.1 != NO_PARENT);
        for (record, (document, number)) in marks.chunks_exact_mut(PLAN_RECORD_BYTES).zip(stored) {
            record.copy_from_slice(&pack(MARK, document, number).to_le_bytes());
        }
        Some(length)
    }

    /// Reads the packed rows of the C interface into an empty table, and says
    /// whether it is well formed. `rows` and `marks` have the right lengths.
    pub fn read_packed(&mut self, count: usize, rows: &[u32], marks: &[u16]) -> bool {
        if count > ROWS {
            return false;
        }
        let (used, unused) = rows.split_at(count);
        if unused.iter().fold(0, |all, packed| all | packed) != 0 {
            return false;
        }
        let mut all_kinds = true;
        for (row, &raw) in self.rows.iter_mut().zip(used) {
            let kind = raw % raw::LINK_UNIT;
            let link = raw / raw::LINK_UNIT % raw::LINK_VALUES;
            let tag = raw / raw::TAG_UNIT;
            // Kinds 1 and 2 become 0x11 and 0x12, link 0 becomes 0xFFFF.
            let kind = kind + u32::from(ELEMENT) - raw::ELEMENT;
            *row = kind | (tag & 0xFF) << 8 | link.wrapping_sub(1) << 16;
            all_kinds &= tag <= 0xFF;
        }
        self.count = count;
        if !all_kinds || count_rows(&self.rows, count) != count {
            return false;
        }
        for (document, &mark) in marks.iter().enumerate() {
            if mark != 0 {
                if !self.takes_mark(mark - 1) {
                    return false;
                }
                self.marks[document] = mark - 1;
            }
        }
        true
    }

    /// Drops each row that is neither marked nor below a marked row, in one
    /// pass without branches: parents have lower numbers than their children.
    pub fn sweep(&mut self) {
        // The new number of each row, or none; the last is that of no parent.
        let mut renumbered = [NO_PARENT; ROWS + 1];
        let mut marked = [false; ROWS];
        for &mark in self.marks.iter().filter(|&&mark| mark != NO_PARENT) {
            marked[at(mark)] = true;
        }
        let mut kept = 0;
        for number in 0..self.count.min(ROWS) {
            let packed = self.rows[number];
            let parent = renumbered[usize::from(parent(packed)).min(ROWS)];
            let keep = marked[number] | (parent != NO_PARENT);
            renumbered[number] = if keep { kept as u16 } else { NO_PARENT };
            self.rows[kept % ROWS] = packed & !PARENT | u32::from(parent) << 16;
            kept += usize::from(keep);
        }
        self.count = kept;
        for mark in self.marks.iter_mut().filter(|mark| **mark != NO_PARENT) {
            *mark = renumbered[at(*mark)];
        }
    }
}

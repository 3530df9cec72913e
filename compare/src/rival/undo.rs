//! Undo: one pass to check the form, and one from the end to take back.

use super::refused;
use super::table::{at, is_element, parent, Table, PARENT};
use crate::oracle::history::{CUT_BYTES, ELEMENT_MADE, LEAF_MADE, LINK_CUT, MADE_BYTES};
use crate::oracle::limits::{HISTORY_RECORDS, NO_PARENT, ROWS};
use crate::oracle::plan::ELEMENT;
use crate::oracle::refusal::{Number, Refusal};

/// Takes a history back. A refusal leaves a table that nobody may use.
pub fn undo(table: &mut Table, bytes: &[u8]) -> Result<(), Refusal> {
    let records = read(bytes)?;
    let mut marked = [false; ROWS];
    for &mark in table.marks.iter().filter(|&&mark| mark != NO_PARENT) {
        marked[at(mark)] = true;
    }
    for (index, &record) in records.iter().enumerate().rev() {
        let (kind, number) = (record as u8, (record >> 8) as u16);
        let fits = if kind == LINK_CUT {
            take_back_cut(table, &marked, number, (record >> 24) as u16)
        } else {
            // The tag and the parent stand as in a packed row.
            let row = (record >> 16) as u32 & !0xFF | u32::from(kind - (ELEMENT_MADE - ELEMENT));
            take_back_made(table, &marked, number, row)
        };
        if !fits {
            let before = records[..index].iter();
            let place = before.map(|&record| length(record as u8)).sum();
            return Err(Number::Link.at(place));
        }
    }
    Ok(())
}

/// Bytes of a record of this kind.
fn length(kind: u8) -> usize {
    MADE_BYTES - usize::from(kind == LINK_CUT) * (MADE_BYTES - CUT_BYTES)
}

/// The records of a history, if their form is right: of each eight bytes from
/// its kind on, of which the last are not its own.
fn read(bytes: &[u8]) -> Result<Vec<u64>, Refusal> {
    let mut records = Vec::with_capacity((bytes.len() / CUT_BYTES + 1).min(HISTORY_RECORDS));
    let mut place = 0;
    while place < bytes.len() {
        let rest = &bytes[place..];
        let record = eight(rest);
        let (kind, tag) = (record as u8, (record >> 24) as u8);
        let has_room = records.len() < HISTORY_RECORDS;
        // A branch is foretold, and so the next place is known before these
        // bytes are.
        let (next, is_kind, is_named) = match kind {
            LINK_CUT => (place + CUT_BYTES, true, true),
            ELEMENT_MADE => (place + MADE_BYTES, true, tag != 0),
            _ => (place + MADE_BYTES, kind == LEAF_MADE, true),
        };
        if !(is_kind & has_room & (next <= bytes.len()) & is_named) {
            return Err(refused(is_kind, has_room, next <= bytes.len()).at(place));
        }
        records.push(record);
        place = next;
    }
    Ok(records)
}

/// The first eight bytes as a number, with zeros past the end.
fn eight(bytes: &[u8]) -> u64 {
    if let Some(bytes) = bytes.first_chunk() {
        return u64::from_le_bytes(*bytes);
    }
    let mut padded = [0; 8];
    padded[..bytes.len()].copy_from_slice(bytes);
    u64::from_le_bytes(padded)
}

fn take_back_made(table: &mut Table, marked: &[bool; ROWS], number: u16, made: u32) -> bool {
    let fits = usize::from(number) + 1 == table.count
        && table.rows[at(number)] == made
        && !marked[at(number)];
    if fits {
        table.count -= 1;
    }
    fits
}

fn take_back_cut(table: &mut Table, marked: &[bool; ROWS], number: u16, old: u16) -> bool {
    let row = table.rows[at(number)];
    let fits = usize::from(number) < table.count
        && parent(row) == NO_PARENT
        && old < number
        && is_element(table.rows[at(old)])
        && !marked[at(number)];
    if fits {
        table.rows[at(number)] = row & !PARENT | u32::from(old) << 16;
    }
    fits
}

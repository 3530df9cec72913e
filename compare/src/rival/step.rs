//! Steps: one pass over the rows, or less.

use super::table::{at, parent, Table};
use crate::oracle::limits::{NO_PARENT, ROWS};
use crate::oracle::plan::{ELEMENT, LEAF};

pub const CHILD: u8 = 0;
const DESCENDANT: u8 = 1;
const PARENT: u8 = 2;
/// Rows compared at once.
const LANES: usize = 16;

/// A test as bits of a packed row: those looked at, and what they must be.
#[derive(Clone, Copy)]
pub struct Bits {
    mask: u32,
    wanted: u32,
}

impl Bits {
    /// The test and the name of a step's record.
    pub fn of(test: u8, name: u8) -> Bits {
        let (mask, wanted) = match test {
            0 => (0, 0),
            1 => (0xFF, ELEMENT.into()),
            2 => (0xFF, LEAF.into()),
            _ => (0xFFFF, u32::from(name) << 8 | u32::from(ELEMENT)),
        };
        Bits { mask, wanted }
    }

    fn below(self, parent: u16) -> Bits {
        Bits {
            mask: self.mask | 0xFFFF_0000,
            wanted: self.wanted | u32::from(parent) << 16,
        }
    }

    fn accept(self, packed: u32) -> bool {
        packed & self.mask == self.wanted
    }
}

/// Rows found, in rising number. There is room for all.
struct Found<'a> {
    numbers: &'a mut [u16; ROWS],
    count: usize,
}

impl Found<'_> {
    /// Writes a number, which stays if it is one that is found.
    fn put(&mut self, number: usize, found: bool) {
        self.numbers[self.count % ROWS] = number as u16;
        self.count += usize::from(found);
    }
}

/// Replaces the value that begins an area of the stack by what a step reaches
/// from its items, and answers how many that are.
pub fn step(table: &Table, axis: u8, test: Bits, items: usize, stack: &mut [u16; ROWS]) -> usize {
    let value = &stack[..items];
    let Some(&least) = value.iter().min() else {
        return 0;
    };
    let first = value[0];
    let mut from = [false; ROWS + 1];
    let mut above = [0u64; ROWS / 64];
    match axis {
        CHILD if items == 1 => {}
        CHILD | DESCENDANT => value.iter().for_each(|&item| from[at(item)] = true),
        PARENT => {
            for &item in value {
                set(&mut above, parent(table.rows[at(item)]));
            }
        }
        _ => value
            .iter()
            .for_each(|&item| climb(table, item, &mut above)),
    }
    let mut found = Found {
        numbers: stack,
        count: 0,
    };
    let rows = &table.rows[..table.count.min(ROWS)];
    match axis {
        CHILD if items == 1 => children(rows, first, test, &mut found),
        CHILD => {
            for (number, &packed) in rows.iter().enumerate().skip(usize::from(least) + 1) {
                let reached = from[usize::from(parent(packed)).min(ROWS)];
                found.put(number, reached & test.accept(packed));
            }
        }
        DESCENDANT => {
            for (number, &packed) in rows.iter().enumerate().skip(usize::from(least) + 1) {
                if from[usize::from(parent(packed)).min(ROWS)] {
                    from[number] = true;
                    found.put(number, test.accept(packed));
                }
            }
        }
        _ => {
            for (number, mut bits) in (0..).step_by(64).zip(above) {
                while bits != 0 {
                    let row = number + bits.trailing_zeros() as usize;
                    found.put(row, test.accept(table.rows[row % ROWS]));
                    bits &= bits - 1;
                }
            }
        }
    }
    found.count
}

/// The children of one row: many rows are compared at once.
fn children(rows: &[u32], parent: u16, test: Bits, found: &mut Found<'_>) {
    let wanted = test.below(parent);
    let start = (usize::from(parent) + 1).min(rows.len());
    let mut number = start;
    let mut chunks = rows[start..].chunks_exact(LANES);
    for chunk in &mut chunks {
        let any = chunk
            .iter()
            .fold(false, |any, &packed| any | wanted.accept(packed));
        if any {
            for (lane, &packed) in chunk.iter().enumerate() {
                found.put(number + lane, wanted.accept(packed));
            }
        }
        number += LANES;
    }
    for (lane, &packed) in chunks.remainder().iter().enumerate() {
        found.put(number + lane, wanted.accept(packed));
    }
}

/// Adds a row to a set, unless it is none, and says whether it was new.
fn set(rows: &mut [u64; ROWS / 64], number: u16) -> bool {
    if number == NO_PARENT {
        return false;
    }
    let packed = &mut rows[at(number) / 64];
    let bit = 1 << (number % 64);
    let new = *packed & bit == 0;
    *packed |= bit;
    new
}

/// Adds the rows above a row, up to one that is there, with those above it.
fn climb(table: &Table, item: u16, above: &mut [u64; ROWS / 64]) {
    let mut number = parent(table.rows[at(item)]);
    while set(above, number) {
        number = parent(table.rows[at(number)]);
    }
}

//! Well-formed tables, and tables with one row too many.

use super::random::Random;
use super::values;
use crate::oracle::limits::{DOCUMENTS, ROWS};
use crate::oracle::table::{Row, Table};

const PERCENT: usize = 100;
/// How far back a near parent lies at most.
const NEAR: usize = 4;

/// How a random table looks, in percent.
#[derive(Clone, Copy, Debug)]
pub struct Shape {
    pub leaves: usize,
    /// Leaves that are not surveyed.
    pub unsurveyed: usize,
    /// Rows without parent.
    pub roots: usize,
    /// Parents among the last few elements, which makes trees deep.
    pub near: usize,
    /// Documents that mark a row, if there is one to mark.
    pub marked: usize,
    /// Names are 1 to this, or sometimes 255.
    pub names: u8,
}

impl Shape {
    pub fn random(random: &mut Random) -> Shape {
        Shape {
            leaves: random.choose(&[0, 10, 40, 70]),
            unsurveyed: values::UNSURVEYED,
            roots: random.choose(&[1, 5, 20, 60, PERCENT]),
            near: random.choose(&[0, 30, 90, PERCENT]),
            marked: random.choose(&[0, 30, 80, PERCENT]),
            names: random.choose(&[1, 3, u8::MAX]),
        }
    }
}

/// A table of exactly `count` rows, well formed if that is at most 512.
pub fn table(random: &mut Random, count: usize, shape: Shape) -> Table {
    let mut table = Table::default();
    let mut elements = Vec::new();
    for number in 0..count as u16 {
        let parent = if elements.is_empty() || random.chance(shape.roots) {
            None
        } else if random.chance(shape.near) {
            let back = random.below(elements.len().min(NEAR));
            Some(elements[elements.len() - 1 - back])
        } else {
            Some(random.choose(&elements))
        };
        table.rows.push(if random.chance(shape.leaves) {
            Row::leaf(values::leaf(random, shape.unsurveyed), parent)
        } else {
            elements.push(number);
            Row::element(name(random, shape.names), parent)
        });
    }
    set_marks(random, &mut table, shape.marked);
    table
}

fn name(random: &mut Random, names: u8) -> u8 {
    if random.chance(5) {
        u8::MAX
    } else {
        random.between(1, usize::from(names)) as u8
    }
}

/// Lets documents mark rows that may be marked.
fn set_marks(random: &mut Random, table: &mut Table, percent: usize) {
    let mut free: Vec<u16> = (0..table.rows.len() as u16)
        .filter(|&number| table.takes_mark(number))
        .collect();
    for mark in table.marks.iter_mut() {
        if !free.is_empty() && random.chance(percent) {
            let chosen = random.below(free.len());
            *mark = Some(free.swap_remove(chosen));
        }
    }
}

/// A count of rows, often near 0 or near the limit.
pub fn row_count(random: &mut Random) -> usize {
    match random.below(10) {
        0 => random.between(ROWS - 2, ROWS + 1),
        1 | 2 => random.between(0, ROWS + 1),
        3..=5 => random.between(0, 40),
        _ => random.between(0, 8),
    }
}

/// A random table, well formed unless it has 513 rows.
pub fn any_table(random: &mut Random) -> Table {
    let count = row_count(random);
    let shape = Shape::random(random);
    table(random, count, shape)
}

/// A full table: 512 rows and 8 marks. About half of the rows are below marks.
pub fn full_table(random: &mut Random) -> Table {
    let mut table = Table::default();
    let trees = 2 * DOCUMENTS;
    for number in 0..ROWS {
        let tree = number % trees;
        let name = random.between(1, usize::from(u8::MAX)) as u8;
        table.rows.push(if number < trees {
            Row::element(name, None)
        } else if number < 8 * trees {
            let parent = tree + trees * random.below(number / trees);
            Row::element(name, Some(parent as u16))
        } else {
            let parent = tree + trees * random.below(8);
            Row::leaf(random.byte() as i8, Some(parent as u16))
        });
    }
    for (document, mark) in table.marks.iter_mut().enumerate() {
        *mark = Some(2 * document as u16);
    }
    table
}

/// A root with leaves, of which row 1 has the value 1 and the others 0;
/// document 0 marks it.
pub fn star(rows: usize) -> Table {
    star_of((1..rows).map(|number| i8::from(number == 1)))
}

/// A root with leaves of these values; document 0 marks it.
pub fn star_of(values: impl Iterator<Item = i8>) -> Table {
    let mut table = Table::default();
    table.rows.push(Row::element(1, None));
    let leaves = values.map(|value| Row::leaf(value, Some(0)));
    table.rows.extend(leaves);
    table.marks[0] = Some(0);
    table
}

//! Document 01, 'The scripts': steps on a table.

use super::script::{Axis, Test};
use super::table::{Kind, Row, Table};

impl Test {
    /// "0 any node, 1 any element, 2 any leaf, 3 the named element".
    pub fn accepts(self, row: Row) -> bool {
        match self {
            Test::AnyNode => true,
            Test::AnyElement => row.kind == Kind::Element,
            Test::AnyLeaf => row.kind == Kind::Leaf,
            Test::Named(name) => row.kind == Kind::Element && row.tag == name,
        }
    }
}

/// "A step answers its rows in rising number, each once": each row of the
/// table in turn, if it passes the test and the axis reaches it from an item.
pub fn step(table: &Table, axis: Axis, test: Test, value: &[u16]) -> Vec<u16> {
    let numbers = 0..table.rows.len() as u16;
    numbers
        .filter(|&number| test.accepts(table.rows[usize::from(number)]))
        .filter(|&number| value.iter().any(|&item| reaches(table, axis, item, number)))
        .collect()
}

/// Does an axis reach a row from an item? Walking up from a row meets exactly
/// the rows above it.
pub fn reaches(table: &Table, axis: Axis, item: u16, row: u16) -> bool {
    match axis {
        Axis::Child => table.parent(row) == Some(item),
        Axis::Descendant => table.is_above(item, row),
        Axis::Parent => table.parent(item) == Some(row),
        Axis::Ancestor => table.is_above(row, item),
    }
}

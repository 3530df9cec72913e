//! Document 01, 'The table'.

use super::limits::{DOCUMENTS, ROWS};

#[derive(Clone, Copy, Debug, PartialEq, Eq, PartialOrd, Ord, Hash)]
pub enum Kind {
    Element,
    Leaf,
}

/// "A row is an element with a name (1 to 255) or a leaf with a value (−128
/// to 127). A row has a parent or none."
#[derive(Clone, Copy, Debug, PartialEq, Eq)]
pub struct Row {
    pub kind: Kind,
    /// The name of an element, or the value of a leaf in two's complement.
    pub tag: u8,
    parent: Option<u16>,
}

impl Row {
    pub const fn new(kind: Kind, tag: u8, parent: Option<u16>) -> Row {
        Row { kind, tag, parent }
    }

    pub const fn element(name: u8, parent: Option<u16>) -> Row {
        Row::new(Kind::Element, name, parent)
    }

    pub const fn leaf(value: i8, parent: Option<u16>) -> Row {
        Row::new(Kind::Leaf, value as u8, parent)
    }

    pub const fn parent(self) -> Option<u16> {
        self.parent
    }

    /// The same row below another parent, or none.
    pub const fn with_parent(self, parent: Option<u16>) -> Row {
        Row::new(self.kind, self.tag, parent)
    }

    pub fn is_element(self) -> bool {
        self.kind == Kind::Element
    }

    /// An element without parent, as documents mark.
    pub fn is_root(self) -> bool {
        self.is_element() && self.parent().is_none()
    }

    /// The signed value, for a leaf.
    pub const fn value(self) -> i8 {
        self.tag as i8
    }
}

/// A table. It may be ill formed: see [`Table::is_well_formed`].
#[derive(Clone, Debug, Default, PartialEq, Eq)]
pub struct Table {
    /// "Row numbers run 0, 1, 2 without a gap."
    pub rows: Vec<Row>,
    /// "Documents are numbered 0 to 7; each marks at most one row."
    pub marks: [Option<u16>; DOCUMENTS],
}

impl Table {
    /// The row with this number, if there is one.
    pub fn row(&self, number: u16) -> Option<Row> {
        self.rows.get(usize::from(number)).copied()
    }

    pub fn is_marked(&self, number: u16) -> bool {
        self.marks.contains(&Some(number))
    }

    /// The parent of a row that is there.
    pub fn parent(&self, number: u16) -> Option<u16> {
        self.rows[usize::from(number)].parent()
    }

    /// The rows above a row of a well-formed table, found by walking up: its
    /// parent, that one's parent, and so on.
    pub fn above(&self, number: u16) -> impl Iterator<Item = u16> + '_ {
        std::iter::successors(self.parent(number), |&number| self.parent(number))
    }

    /// Does walking up from the other row meet this one?
    pub fn is_above(&self, number: u16, other: u16) -> bool {
        self.above(other).any(|above| above == number)
    }

    /// "Well formed: at most 512 rows, the above holds, every parent is an
    /// element with a lower number than its child." Fields not in use have no
    /// place in this type; the packed rows of the C interface have them.
    pub fn is_well_formed(&self) -> bool {
        let rows_hold = (0u16..).zip(&self.rows).all(|(number, row)| {
            let named = row.kind == Kind::Leaf || row.tag != 0;
            named && self.may_be_above(row.parent(), number)
        });
        self.rows.len() <= ROWS && rows_hold && self.marks_hold()
    }

    /// "Every parent is an element with a lower number than its child."
    pub fn may_be_above(&self, parent: Option<u16>, child: u16) -> bool {
        parent.map_or(true, |parent| self.is_lower_element(parent, child))
    }

    /// Is this the number of an element, lower than another?
    pub fn is_lower_element(&self, number: u16, other: u16) -> bool {
        number < other && self.row(number).is_some_and(Row::is_element)
    }

    /// May a document that has no mark yet mark this row: is it "an element
    /// without parent that no other document marks"?
    pub fn takes_mark(&self, number: u16) -> bool {
        self.row(number).is_some_and(Row::is_root) && !self.is_marked(number)
    }

    /// "Each marks at most one row, an element without parent that no other
    /// document marks."
    fn marks_hold(&self) -> bool {
        self.marks.iter().flatten().all(|&number| {
            let marks = self.marks.iter().filter(|mark| **mark == Some(number));
            self.row(number).is_some_and(Row::is_root) && marks.count() == 1
        })
    }
}

//! Document 01, 'The scripts': the reader.

use super::limits::{BINDERS, DEPTH, DOCUMENTS, SCRIPT_RECORDS};
use super::refusal::{Number, Refusal};

/// The kind bytes of script records.
pub mod kind {
    pub const EMPTY: u8 = 0x01;
    pub const DOCUMENT: u8 = 0x02;
    pub const VARIABLE: u8 = 0x03;
    pub const STEP: u8 = 0x04;
    pub const JOIN: u8 = 0x05;
    pub const LET: u8 = 0x06;
    pub const FOR: u8 = 0x07;
    pub const IF: u8 = 0x08;
    pub const ELEMENT: u8 = 0x09;
    pub const LEAF: u8 = 0x0A;
    pub const DELETE: u8 = 0x0B;
    pub const INSERT: u8 = 0x0C;
    pub const PICK: u8 = 0x0D;
}

/// "Axis: 0 child, 1 descendant, 2 parent, 3 ancestor."
#[derive(Clone, Copy, Debug, PartialEq, Eq, PartialOrd, Ord, Hash)]
pub enum Axis {
    Child,
    Descendant,
    Parent,
    Ancestor,
}

impl Axis {
    pub const fn is_upward(self) -> bool {
        matches!(self, Axis::Parent | Axis::Ancestor)
    }
}

/// "Test: 0 any node, 1 any element, 2 any leaf, 3 the named element."
#[derive(Clone, Copy, Debug, PartialEq, Eq, PartialOrd, Ord, Hash)]
pub enum Test {
    AnyNode,
    AnyElement,
    AnyLeaf,
    Named(u8),
}

/// "Relation: 0 equal, 1 less, 2 greater."
#[derive(Clone, Copy, Debug, PartialEq, Eq)]
pub enum Relation {
    Equal,
    Less,
    Greater,
}

impl Relation {
    pub fn holds(self, left: i8, right: i8) -> bool {
        match self {
            Relation::Equal => left == right,
            Relation::Less => left < right,
            Relation::Greater => left > right,
        }
    }
}

/// What a record stands for, with its body.
#[derive(Clone, Copy, Debug, PartialEq, Eq)]
pub enum Operation {
    Empty,
    Document(u8),
    Variable(u8),
    Step(Axis, Test),
    Join,
    Let,
    For,
    If,
    Element(u8),
    Leaf(i8),
    Delete,
    Insert,
    Pick(Relation, i8),
}

impl Operation {
    /// How many operands follow the record.
    pub const fn operands(self) -> usize {
        match self {
            Operation::Empty
            | Operation::Document(_)
            | Operation::Variable(_)
            | Operation::Element(_)
            | Operation::Leaf(_) => 0,
            Operation::Step(..) | Operation::Delete | Operation::Pick(..) => 1,
            Operation::Join | Operation::Let | Operation::For | Operation::Insert => 2,
            Operation::If => 3,
        }
    }
}

/// A record with its operands. A script is the outermost one.
#[derive(Clone, Debug, PartialEq, Eq)]
pub struct Expression {
    pub operation: Operation,
    /// Where the kind byte stands.
    pub place: usize,
    pub operands: Vec<Expression>,
}

impl Expression {
    /// The record and those of its operands, in the order of the bytes.
    pub fn records(&self) -> Vec<&Expression> {
        let operands = self.operands.iter().flat_map(Expression::records);
        std::iter::once(self).chain(operands).collect()
    }

    /// "Either script holds axis 2 or 3, even in a branch never run."
    pub fn has_upward_step(&self) -> bool {
        let upward = matches!(self.operation, Operation::Step(axis, _) if axis.is_upward());
        upward || self.operands.iter().any(Expression::has_upward_step)
    }
}

/// Reads a script. "3 comes last", "bytes after the whole script", at "the
/// first spare byte".
pub fn read(bytes: &[u8]) -> Result<Expression, Refusal> {
    let mut reader = Reader {
        bytes,
        next: 0,
        records: 0,
    };
    let script = reader.expression(1, 0)?;
    if reader.next < bytes.len() {
        return Err(Number::Tail.at(reader.next));
    }
    Ok(script)
}

struct Reader<'a> {
    bytes: &'a [u8],
    next: usize,
    /// Records read so far.
    records: usize,
}

impl Reader<'_> {
    /// Reads one expression at this depth, with so many variables bound: "per
    /// record: 1, 5, 2, 4 [..]; no byte where an operand is due is 2".
    fn expression(&mut self, depth: usize, bound: usize) -> Result<Expression, Refusal> {
        let place = self.next;
        // "for a missing operand the length".
        let Some(&kind) = self.bytes.get(place) else {
            return Err(Number::Short.at(place));
        };
        // 1: "kind byte not of this form".
        let Some(body_bytes) = body_bytes(kind) else {
            return Err(Number::Kind.at(place));
        };
        // 5: "65th script record, depth 17, ninth nested binder".
        let binder = kind == kind::LET || kind == kind::FOR;
        if self.records == SCRIPT_RECORDS || depth > DEPTH || (binder && bound == BINDERS) {
            return Err(Number::Size.at(place));
        }
        // 2: "a record [..] is cut off by the end".
        let end = place + 1 + body_bytes;
        let Some(body) = self.bytes.get(place + 1..end) else {
            return Err(Number::Short.at(place));
        };
        // 4: "a body field out of its range, a variable not bound".
        let Some(operation) = decode(kind, body, bound) else {
            return Err(Number::Field.at(place));
        };
        self.records += 1;
        self.next = end;
        // "Operands follow their record." "A binder binds in its second
        // operand only."
        let mut operands = Vec::new();
        for operand in 0..operation.operands() {
            let more = usize::from(binder && operand == 1);
            operands.push(self.expression(depth + 1, bound + more)?);
        }
        Ok(Expression {
            operation,
            place,
            operands,
        })
    }
}

/// How many bytes the body of a kind has: "each body field is one byte".
fn body_bytes(kind: u8) -> Option<usize> {
    match kind {
        kind::EMPTY | kind::JOIN | kind::LET | kind::FOR | kind::IF => Some(0),
        kind::DELETE | kind::INSERT => Some(0),
        kind::DOCUMENT | kind::VARIABLE | kind::ELEMENT | kind::LEAF => Some(1),
        kind::PICK => Some(2),
        kind::STEP => Some(3),
        _ => None,
    }
}

/// What a kind with this body means, if each field is in its range.
fn decode(kind: u8, body: &[u8], bound: usize) -> Option<Operation> {
    match (kind, body) {
        (kind::EMPTY, _) => Some(Operation::Empty),
        (kind::DOCUMENT, &[number]) => {
            (usize::from(number) < DOCUMENTS).then_some(Operation::Document(number))
        }
        (kind::VARIABLE, &[number]) => {
            (usize::from(number) < bound).then_some(Operation::Variable(number))
        }
        (kind::STEP, &[axis, test, name]) => Some(Operation::Step(
            decode_axis(axis)?,
            decode_test(test, name)?,
        )),
        (kind::JOIN, _) => Some(Operation::Join),
        (kind::LET, _) => Some(Operation::Let),
        (kind::FOR, _) => Some(Operation::For),
        (kind::IF, _) => Some(Operation::If),
        (kind::ELEMENT, &[name]) => (name != 0).then_some(Operation::Element(name)),
        (kind::LEAF, &[value]) => Some(Operation::Leaf(value as i8)),
        (kind::DELETE, _) => Some(Operation::Delete),
        (kind::INSERT, _) => Some(Operation::Insert),
        (kind::PICK, &[relation, value]) => {
            Some(Operation::Pick(decode_relation(relation)?, value as i8))
        }
        _ => None,
    }
}

fn decode_axis(axis: u8) -> Option<Axis> {
    match axis {
        0 => Some(Axis::Child),
        1 => Some(Axis::Descendant),
        2 => Some(Axis::Parent),
        3 => Some(Axis::Ancestor),
        _ => None,
    }
}

/// "Name is 0 unless the test is 3, and then 1 to 255."
fn decode_test(test: u8, name: u8) -> Option<Test> {
    match (test, name) {
        (0, 0) => Some(Test::AnyNode),
        (1, 0) => Some(Test::AnyElement),
        (2, 0) => Some(Test::AnyLeaf),
        (3, 1..) => Some(Test::Named(name)),
        _ => None,
    }
}

fn decode_relation(relation: u8) -> Option<Relation> {
    match relation {
        0 => Some(Relation::Equal),
        1 => Some(Relation::Less),
        2 => Some(Relation::Greater),
        _ => None,
    }
}

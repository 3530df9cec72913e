//! The script reader: a list of records, without recursion.

use super::refused;
use crate::oracle::limits::{BINDERS, DEPTH, DOCUMENTS, SCRIPT_RECORDS};
use crate::oracle::refusal::{Number, Refusal};
use crate::oracle::script::kind;

const UPWARD_AXIS: u8 = 2;
const AXES: u8 = 4;
const TESTS: u8 = 4;
const NAMED: u8 = 3;
const RELATIONS: u8 = 3;

/// The records of a script.
pub struct Script {
    /// The kind and the fields of the body; past them is whatever follows.
    records: [[u8; 4]; SCRIPT_RECORDS],
    /// Where the kind byte stands.
    places: [u16; SCRIPT_RECORDS],
    /// The index of the first record after a record and its operands.
    ends: [u8; SCRIPT_RECORDS],
    pub count: usize,
    /// Is there a step with axis parent or ancestor anywhere?
    pub upward: bool,
}

/// A record whose operands are being read.
#[derive(Clone, Copy, Default)]
struct Open {
    index: u8,
    /// Operands not read yet.
    due: u8,
    /// Variables bound in its last operand, and in those before.
    last_bound: u8,
    bound: u8,
}

impl Default for Script {
    fn default() -> Script {
        Script {
            records: [[0; 4]; SCRIPT_RECORDS],
            places: [0; SCRIPT_RECORDS],
            ends: [0; SCRIPT_RECORDS],
            count: 0,
            upward: false,
        }
    }
}

impl Script {
    /// The kind and the body of a record.
    pub fn record(&self, index: usize) -> [u8; 4] {
        self.records[index % SCRIPT_RECORDS]
    }

    /// Where the kind byte of a record stands.
    pub fn place(&self, index: usize) -> usize {
        self.places[index % SCRIPT_RECORDS].into()
    }

    /// The index of the record after the expression that starts at `index`.
    pub fn after(&self, index: usize) -> usize {
        self.ends[index % SCRIPT_RECORDS].into()
    }

    /// Reads a script into an empty one.
    pub fn read(&mut self, bytes: &[u8]) -> Result<(), Refusal> {
        let mut open = [Open::default(); DEPTH];
        // How many are open, how many variables are bound, the next byte.
        let (mut depth, mut bound, mut place) = (0, 0u8, 0);
        let (mut index, mut upward) = (0, false);
        loop {
            let Some(record) = four(bytes, place) else {
                return Err(Number::Short.at(place));
            };
            let [kind, body @ ..] = record;
            let binder = (kind == kind::LET) | (kind == kind::FOR);
            let is_kind = kind.wrapping_sub(kind::EMPTY) < kind::PICK;
            let has_room = (index < SCRIPT_RECORDS)
                & (depth < DEPTH)
                & !(binder & (usize::from(bound) == BINDERS));
            // The place after the body, whether its fields are in range, and
            // the operands. A branch is foretold, and so the next place is
            // known before these bytes are.
            let (next, in_range, operands) = match kind {
                kind::DOCUMENT => (place + 2, usize::from(body[0]) < DOCUMENTS, 0),
                kind::VARIABLE => (place + 2, body[0] < bound, 0),
                kind::STEP => (place + 4, is_step(body), 1),
                kind::ELEMENT => (place + 2, body[0] != 0, 0),
                kind::LEAF => (place + 2, true, 0),
                kind::PICK => (place + 3, body[0] < RELATIONS, 1),
                kind::DELETE => (place + 1, true, 1),
                kind::IF => (place + 1, true, 3),
                kind::JOIN | kind::LET | kind::FOR | kind::INSERT => (place + 1, true, 2),
                _ => (place + 1, true, 0),
            };
            if !(is_kind & has_room & (next <= bytes.len()) & in_range) {
                return Err(refused(is_kind, has_room, next <= bytes.len()).at(place));
            }
            upward |= (kind == kind::STEP) & (body[0] >= UPWARD_AXIS);
            self.records[index % SCRIPT_RECORDS] = record;
            self.places[index % SCRIPT_RECORDS] = place as u16;
            place = next;
            index += 1;
            if operands != 0 {
                open[depth % DEPTH] = Open {
                    index: index as u8 - 1,
                    due: operands,
                    last_bound: bound + u8::from(binder),
                    bound,
                };
                depth += 1;
                continue;
            }
            // An expression is complete, and with it all that it ends.
            self.ends[(index - 1) % SCRIPT_RECORDS] = index as u8;
            loop {
                if depth == 0 {
                    (self.count, self.upward) = (index, upward);
                    return match place < bytes.len() {
                        true => Err(Number::Tail.at(place)),
                        false => Ok(()),
                    };
                }
                let outer = &mut open[(depth - 1) % DEPTH];
                outer.due -= 1;
                if outer.due != 0 {
                    bound = match outer.due {
                        1 => outer.last_bound,
                        _ => outer.bound,
                    };
                    break;
                }
                self.ends[usize::from(outer.index) % SCRIPT_RECORDS] = index as u8;
                depth -= 1;
            }
        }
    }
}

/// Four bytes from a place on, with zeros past the end; none at the end.
fn four(bytes: &[u8], place: usize) -> Option<[u8; 4]> {
    let rest = bytes.get(place..)?;
    match rest.first_chunk() {
        Some(four) => Some(*four),
        None => match *rest {
            [a, b, c] => Some([a, b, c, 0]),
            [a, b] => Some([a, b, 0, 0]),
            [a] => Some([a, 0, 0, 0]),
            _ => None,
        },
    }
}

/// Are the axis, the test and the name in range?
fn is_step([axis, test, name]: [u8; 3]) -> bool {
    (axis < AXES) & (test < TESTS) & ((test == NAMED) == (name != 0))
}

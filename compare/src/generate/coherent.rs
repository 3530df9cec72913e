//! Scripts whose parts fit each other, so that a run of them does something.

use super::random::Random;
use super::runs::{most_loops, DOCUMENTS, NAMES};
use super::values;
use crate::oracle::limits::{BINDERS, DEPTH, SCRIPT_RECORDS};
use crate::oracle::script::kind;

/// A script made for what its parts are to be.
pub fn coherent(random: &mut Random, rows: usize) -> Vec<u8> {
    let mut writer = Writer {
        spare: random.choose(&[6, 12, 24, 40, SCRIPT_RECORDS - 1]),
        loops: most_loops(rows),
        random,
        bytes: Vec::new(),
    };
    let role = match writer.random.below(8) {
        0 => Role::Rows,
        1 => Role::Leaves,
        2 => Role::Update,
        _ => Role::Sequence,
    };
    writer.expression(role, DEPTH, &mut Vec::new());
    writer.bytes
}

/// What an expression is to be.
#[derive(Clone, Copy, PartialEq)]
enum Role {
    /// Some rows.
    Rows,
    /// Rows below others, which a delete may cut.
    Below,
    /// A document's root or a variable, to step from.
    Root,
    /// Some leaves.
    Leaves,
    /// Often one element.
    Target,
    /// A change, with an empty answer or none.
    Update,
    /// A change and then more.
    Sequence,
}

/// What a variable is bound to.
#[derive(Clone, Copy, PartialEq)]
enum Bound {
    Rows,
    Item,
}

struct Writer<'a> {
    random: &'a mut Random,
    bytes: Vec<u8>,
    /// Records that may still be written, besides those that are due.
    spare: usize,
    /// Loops that may still be nested.
    loops: usize,
}

impl Writer<'_> {
    /// Writes an expression of at most `height` levels.
    fn expression(&mut self, role: Role, height: usize, scope: &mut Vec<Bound>) {
        let operands = if height > 1 { self.spare.min(3) } else { 0 };
        match self.pick_kind(role, operands, scope) {
            kind::STEP => {
                let from = self.random.choose(&[Role::Root, Role::Root, Role::Rows]);
                self.step(role);
                self.below(&[from], height, scope);
            }
            kind::PICK => {
                self.bytes.extend(values::pick(self.random, values::COMMON));
                self.below(&[Role::Leaves], height, scope);
            }
            kind::DELETE => {
                self.bytes.push(kind::DELETE);
                let role = self.random.choose(&[Role::Below, Role::Below, Role::Rows]);
                self.below(&[role], height, scope);
            }
            kind::INSERT => {
                self.bytes.push(kind::INSERT);
                let role =
                    self.random
                        .choose(&[Role::Rows, Role::Rows, Role::Target, Role::Leaves]);
                self.below(&[role, Role::Target], height, scope);
            }
            kind::JOIN => {
                self.bytes.push(kind::JOIN);
                let first = if role == Role::Sequence {
                    Role::Update
                } else {
                    role
                };
                let second = match role {
                    Role::Sequence => {
                        self.random
                            .choose(&[Role::Sequence, Role::Rows, Role::Update])
                    }
                    _ => self.random.choose(&[role, role, Role::Rows]),
                };
                self.below(&[first, second], height, scope);
            }
            kind::IF => {
                self.bytes.push(kind::IF);
                let condition = self.random.choose(&[Role::Rows, Role::Leaves]);
                self.below(&[condition, role, role], height, scope);
            }
            kind::LET => self.binder(kind::LET, role, height, scope),
            kind::FOR => self.binder(kind::FOR, role, height, scope),
            kind => self.without_operands(kind, role, scope),
        }
    }

    /// Writes the operands of a record, each one level lower.
    fn below(&mut self, roles: &[Role], height: usize, scope: &mut Vec<Bound>) {
        self.spare -= roles.len();
        for &role in roles {
            self.expression(role, height - 1, scope);
        }
    }

    fn binder(&mut self, binder: u8, role: Role, height: usize, scope: &mut Vec<Bound>) {
        self.bytes.push(binder);
        self.spare -= 2;
        let first = self.random.choose(&[Role::Rows, Role::Rows, Role::Target]);
        self.expression(first, height - 1, scope);
        let bound = match binder {
            kind::FOR => Bound::Item,
            _ if first == Role::Target => Bound::Item,
            _ => Bound::Rows,
        };
        self.loops -= usize::from(binder == kind::FOR);
        scope.push(bound);
        self.expression(role, height - 1, scope);
        scope.pop();
        self.loops += usize::from(binder == kind::FOR);
    }

    /// A kind for the role, of those that so many operands allow.
    fn pick_kind(&mut self, role: Role, operands: usize, scope: &[Bound]) -> u8 {
        let variable = if scope.is_empty() { 0 } else { 6 };
        let single = if scope.contains(&Bound::Item) { 8 } else { 0 };
        let weights: &[(u8, usize)] = match role {
            Role::Rows => &[
                (kind::STEP, 10),
                (kind::DOCUMENT, 2),
                (kind::VARIABLE, variable),
                (kind::JOIN, 1),
                (kind::PICK, 2),
                (kind::LET, 1),
                (kind::FOR, 1),
                (kind::IF, 1),
                (kind::ELEMENT, 1),
                (kind::LEAF, 1),
            ],
            Role::Below => &[
                (kind::STEP, 10),
                (kind::VARIABLE, variable),
                (kind::PICK, 2),
            ],
            Role::Root => &[
                (kind::DOCUMENT, 8),
                (kind::VARIABLE, variable),
                (kind::ELEMENT, 1),
            ],
            Role::Leaves => &[
                (kind::STEP, 8),
                (kind::PICK, 5),
                (kind::LEAF, 1),
                (kind::EMPTY, 1),
                (kind::VARIABLE, variable / 3),
            ],
            Role::Target => &[
                (kind::DOCUMENT, 8),
                (kind::VARIABLE, single),
                (kind::ELEMENT, 3),
                (kind::STEP, 1),
                (kind::IF, 1),
            ],
            Role::Update => &[
                (kind::DELETE, 8),
                (kind::INSERT, 8),
                (kind::FOR, 6),
                (kind::LET, 3),
                (kind::JOIN, 2),
                (kind::IF, 1),
                (kind::EMPTY, 1),
            ],
            Role::Sequence => &[
                (kind::JOIN, 6),
                (kind::LET, 4),
                (kind::FOR, 2),
                (kind::IF, 1),
            ],
        };
        let fits = |kind: u8| match kind {
            kind::JOIN | kind::INSERT => operands >= 2,
            kind::LET => operands >= 2 && scope.len() < BINDERS,
            kind::FOR => operands >= 2 && scope.len() < BINDERS && self.loops > 0,
            kind::IF => operands >= 3,
            kind::STEP | kind::PICK | kind::DELETE => operands >= 1,
            _ => true,
        };
        let possible: Vec<(u8, usize)> = weights
            .iter()
            .copied()
            .filter(|&(kind, weight)| weight > 0 && fits(kind))
            .collect();
        let total: usize = possible.iter().map(|(_, weight)| weight).sum();
        if total == 0 {
            return kind::EMPTY;
        }
        let mut place = self.random.below(total);
        for (kind, weight) in possible {
            if place < weight {
                return kind;
            }
            place -= weight;
        }
        kind::EMPTY
    }

    /// A step, to leaves if these are wanted; one in six is upward.
    fn step(&mut self, role: Role) {
        let upward = role != Role::Below && self.random.chance(16);
        let axis = self.random.below(2) as u8 + 2 * u8::from(upward);
        let test = match role {
            Role::Leaves => self.random.choose(&[0, 2, 2, 2]),
            _ => self.random.choose(&[0, 0, 0, 1, 1, 2, 3]),
        };
        let name = if test == 3 { self.name() } else { 0 };
        self.bytes.extend([kind::STEP, axis, test, name]);
    }

    fn without_operands(&mut self, wanted: u8, role: Role, scope: &[Bound]) {
        match wanted {
            kind::VARIABLE => {
                let single = role == Role::Target;
                let fitting: Vec<usize> = (0..scope.len())
                    .filter(|&variable| !single || scope[variable] == Bound::Item)
                    .collect();
                let variable = self.random.choose(&fitting) as u8;
                self.bytes.extend([kind::VARIABLE, variable]);
            }
            kind::DOCUMENT => {
                let document = self.random.choose(&[0, 0, 0, 0, 0, 0, 1, DOCUMENTS - 1]);
                self.bytes.extend([kind::DOCUMENT, document]);
            }
            kind::ELEMENT => {
                let name = self.name();
                self.bytes.extend([kind::ELEMENT, name]);
            }
            kind::LEAF => {
                let value = values::leaf(self.random, values::UNSURVEYED);
                self.bytes.extend([kind::LEAF, value as u8]);
            }
            _ => self.bytes.push(kind::EMPTY),
        }
    }

    fn name(&mut self) -> u8 {
        self.random.between(1, usize::from(NAMES)) as u8
    }
}

#[cfg(test)]
mod tests {
    use super::*;
    use crate::oracle::script::read;

    #[test]
    fn coherent_scripts_are_accepted() {
        let mut random = Random::new(1);
        for rows in [0, 5, 50, 500] {
            for _ in 0..2000 {
                let bytes = coherent(&mut random, rows);
                assert!(read(&bytes).is_ok(), "{bytes:?}");
            }
        }
    }
}

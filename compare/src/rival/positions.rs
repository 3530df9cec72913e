//! The positions of a script: the records that bring paths about, documents,
//! steps, and the descendants that a delete or an insert concerns. The paths of
//! a position are those of the positions it starts from, with its step.
//! Constructors have none, since the two scripts never share their places.

use super::script::Script;
use super::step::CHILD;
use crate::oracle::limits::{BINDERS, DOCUMENTS};
use crate::oracle::script::kind;

/// A set of positions of one script, one bit for each. There are fewer than
/// 128: only an insert has two, and it has two operands.
pub type Set = u128;

/// A step of a position, the record's test and name, and whether it is to
/// children.
#[derive(Clone, Copy)]
pub struct Step {
    pub child: bool,
    pub test: u8,
    pub name: u8,
}

/// What is made of positions, each of which comes after those it starts from.
pub trait Sink {
    fn document(&mut self, document: u8, added: Set);
    fn step(&mut self, step: Step, from: Set, added: Set);
}

pub struct Positions<'a, S> {
    script: &'a Script,
    count: u32,
    pub sink: S,
    pub modified: Set,
    pub traversed: Set,
}

impl<S: Sink> Positions<'_, S> {
    pub fn of(script: &Script, sink: S) -> Positions<'_, S> {
        let mut positions = Positions {
            script,
            count: 0,
            sink,
            modified: 0,
            traversed: 0,
        };
        positions.expression(0, &mut [0; BINDERS], 0);
        positions
    }

    /// The positions that are the result of an expression. `scope` holds those
    /// of the binders, of which there are `bound`.
    fn expression(&mut self, index: usize, scope: &mut [Set; BINDERS], bound: usize) -> Set {
        let first = index + 1;
        let [kind, body @ ..] = self.script.record(index);
        match kind {
            kind::EMPTY | kind::ELEMENT | kind::LEAF => 0,
            kind::DOCUMENT => {
                let place = self.add();
                self.sink.document(body[0], place);
                self.traversed |= place;
                place
            }
            kind::VARIABLE => scope[usize::from(body[0]) % BINDERS],
            kind::STEP => {
                let from = self.expression(first, scope, bound);
                let [axis, test, name] = body;
                let child = axis == CHILD;
                let reached = self.add_step(Step { child, test, name }, from);
                self.traversed |= reached;
                reached
            }
            kind::JOIN => {
                let left = self.expression(first, scope, bound);
                left | self.expression(self.script.after(first), scope, bound)
            }
            kind::LET | kind::FOR => {
                scope[bound % BINDERS] = self.expression(first, scope, bound);
                self.expression(self.script.after(first), scope, bound + 1)
            }
            kind::IF => {
                self.expression(first, scope, bound);
                let then = self.script.after(first);
                let result = self.expression(then, scope, bound);
                result | self.expression(self.script.after(then), scope, bound)
            }
            kind::DELETE => {
                let cut = self.expression(first, scope, bound);
                self.modified |= cut | self.add_below(cut);
                0
            }
            kind::INSERT => {
                let source = self.expression(first, scope, bound);
                let target = self.expression(self.script.after(first), scope, bound);
                self.traversed |= self.add_below(source);
                self.modified |= self.add_below(target);
                0
            }
            _ => self.expression(first, scope, bound),
        }
    }

    fn add(&mut self) -> Set {
        self.count += 1;
        1 << (self.count - 1)
    }

    /// A step from nothing is nothing.
    fn add_step(&mut self, step: Step, from: Set) -> Set {
        if from == 0 {
            return 0;
        }
        let added = self.add();
        self.sink.step(step, from, added);
        added
    }

    fn add_below(&mut self, from: Set) -> Set {
        let (child, test, name) = (false, 0, 0);
        self.add_step(Step { child, test, name }, from)
    }
}

/// Of the first script, the positions one by one, and what is found out about
/// each.
pub struct Listed<T>(pub Vec<(Position, T)>);

#[derive(Clone, Copy)]
pub enum Position {
    Document(u8),
    Step(Step, Set),
}

impl<T: Default> Sink for Listed<T> {
    fn document(&mut self, document: u8, _: Set) {
        self.0.push((Position::Document(document), T::default()));
    }

    fn step(&mut self, step: Step, from: Set, _: Set) {
        self.0.push((Position::Step(step, from), T::default()));
    }
}

/// Of the second script, sets of positions.
#[derive(Default)]
pub struct Sorted {
    /// Those of each document.
    pub documents: [Set; DOCUMENTS],
    /// Steps to children.
    pub children: Set,
    /// Steps with each test; those with a name also by the name.
    pub tests: [Set; 4],
    names: Vec<(u8, Set)>,
    /// Those that start from the position before them.
    pub next: Set,
    /// Those that start from the one so many places before, more than one.
    shifts: Vec<(u32, Set)>,
}

impl Sink for Sorted {
    fn document(&mut self, document: u8, added: Set) {
        self.documents[usize::from(document) % DOCUMENTS] |= added;
    }

    fn step(&mut self, step: Step, from: Set, added: Set) {
        if step.child {
            self.children |= added;
        }
        self.tests[usize::from(step.test) % 4] |= added;
        if step.test == 3 {
            add_to(&mut self.names, step.name, added);
        }
        self.next |= added & from << 1;
        let mut rest = from & !(added >> 1);
        while rest != 0 {
            let places = added.trailing_zeros() - rest.trailing_zeros();
            add_to(&mut self.shifts, places, added);
            rest &= rest - 1;
        }
    }
}

/// Adds positions to the set with this key.
fn add_to<K: PartialEq>(sets: &mut Vec<(K, Set)>, key: K, added: Set) {
    match sets.iter_mut().find(|(other, _)| *other == key) {
        Some((_, set)) => *set |= added,
        None => sets.push((key, added)),
    }
}

impl Sorted {
    /// The positions that start from one of a set.
    pub fn starting_from(&self, set: Set) -> Set {
        self.starting_elsewhere(set) | (set << 1 & self.next)
    }

    /// Those of them that do not start from the position before.
    pub fn starting_elsewhere(&self, set: Set) -> Set {
        let shifts = self.shifts.iter();
        shifts.fold(0, |found, &(places, starting)| {
            found | (set << places & starting)
        })
    }

    /// The steps to elements of this name.
    pub fn named(&self, name: u8) -> Set {
        let found = self.names.iter().find(|(other, _)| *other == name);
        found.map_or(0, |(_, named)| *named)
    }
}

//! Document 01, 'The paths': the accessed and modified paths of a script, as
//! explicit sets.
//!
//! "A path is nothing, a place, a union, or a path and a step." A union is the
//! set of its parts and nothing is the empty set; so each member of a set is a
//! place and the steps from it.

use std::collections::BTreeSet;

use super::script::{Axis, Expression, Operation, Test};

#[derive(Clone, Copy, Debug, PartialEq, Eq, PartialOrd, Ord, Hash)]
pub enum Which {
    First,
    Second,
}

/// "Places are documents, and the constructor records (0x09, 0x0A) of each
/// script; the two scripts never share one, even when their bytes are equal."
#[derive(Clone, Copy, Debug, PartialEq, Eq, PartialOrd, Ord, Hash)]
pub enum Place {
    Document(u8),
    /// The constructor record at this place in this script.
    Constructor(Which, usize),
}

pub type Step = (Axis, Test);

/// The step that reaches all descendants.
pub const DESCENDANT_ANY_NODE: Step = (Axis::Descendant, Test::AnyNode);

#[derive(Clone, Debug, PartialEq, Eq, PartialOrd, Ord, Hash)]
pub struct Path {
    pub place: Place,
    pub steps: Vec<Step>,
}

impl Path {
    /// The path itself and all its prefixes, down to the place alone.
    fn prefixes(&self) -> impl Iterator<Item = Path> + '_ {
        (0..=self.steps.len()).map(|length| Path {
            place: self.place,
            steps: self.steps[..length].to_vec(),
        })
    }
}

pub type Paths = BTreeSet<Path>;

/// The set of a place alone.
fn at(place: Place) -> Paths {
    let steps = Vec::new();
    Paths::from([Path { place, steps }])
}

/// Each path of a set with one step more.
fn with_step(paths: &Paths, step: Step) -> Paths {
    let longer = |path: &Path| Path {
        place: path.place,
        steps: [&path.steps[..], &[step]].concat(),
    };
    paths.iter().map(longer).collect()
}

/// The paths of a whole script.
#[derive(Clone, Debug, Default, PartialEq, Eq)]
pub struct Inferred {
    pub result: Paths,
    pub accessed: Paths,
    pub modified: Paths,
}

impl Inferred {
    /// "Traversed means each accessed path and all its prefixes."
    pub fn traversed(&self) -> Paths {
        self.accessed.iter().flat_map(Path::prefixes).collect()
    }
}

/// Infers the paths of a script. The sets can be exponential in the script:
/// see [`count_at_most`].
pub fn infer(script: &Expression, which: Which) -> Inferred {
    let mut inference = Inference {
        which,
        accessed: Paths::new(),
        modified: Paths::new(),
    };
    let result = inference.result(script, &mut Vec::new());
    Inferred {
        result,
        accessed: inference.accessed,
        modified: inference.modified,
    }
}

struct Inference {
    which: Which,
    accessed: Paths,
    modified: Paths,
}

impl Inference {
    /// "Each expression has a result r, accessed paths and modified paths;
    /// operands' accessed and modified paths are always included." So these
    /// two grow with each expression. `binders` holds the binders' results.
    fn result(&mut self, expression: &Expression, binders: &mut Vec<Paths>) -> Paths {
        let operands = &expression.operands[..];
        match expression.operation {
            // "Empty value, delete and insert have r nothing."
            Operation::Empty => Paths::new(),
            // "Document: r is its place, also accessed."
            Operation::Document(document) => {
                let r = at(Place::Document(document));
                self.accessed.extend(r.clone());
                r
            }
            // "A variable stands for its binder's r."
            Operation::Variable(variable) => binders[usize::from(variable)].clone(),
            // "Step: r is the operand's r with the step, also accessed."
            Operation::Step(axis, test) => {
                let r = with_step(&self.result(&operands[0], binders), (axis, test));
                self.accessed.extend(r.clone());
                r
            }
            // "Join: both results."
            Operation::Join => {
                let mut r = self.result(&operands[0], binders);
                r.extend(self.result(&operands[1], binders));
                r
            }
            // "Let, for: that of the body."
            Operation::Let | Operation::For => {
                let bound = self.result(&operands[0], binders);
                binders.push(bound);
                let r = self.result(&operands[1], binders);
                binders.pop();
                r
            }
            // "If: those of both branches."
            Operation::If => {
                self.result(&operands[0], binders);
                let mut r = self.result(&operands[1], binders);
                r.extend(self.result(&operands[2], binders));
                r
            }
            // "Constructor: r is its place, also modified."
            Operation::Element(_) | Operation::Leaf(_) => {
                let r = at(Place::Constructor(self.which, expression.place));
                self.modified.extend(r.clone());
                r
            }
            // "Delete: modified r1 and r1/descendant any node."
            Operation::Delete => {
                let r1 = self.result(&operands[0], binders);
                self.modified.extend(with_step(&r1, DESCENDANT_ANY_NODE));
                self.modified.extend(r1);
                Paths::new()
            }
            // "Insert: accessed r1/descendant any node; modified
            // r2/descendant any node."
            Operation::Insert => {
                let r1 = self.result(&operands[0], binders);
                let r2 = self.result(&operands[1], binders);
                self.accessed.extend(with_step(&r1, DESCENDANT_ANY_NODE));
                self.modified.extend(with_step(&r2, DESCENDANT_ANY_NODE));
                Paths::new()
            }
            // "Pick: the operand's r."
            Operation::Pick(..) => self.result(&operands[0], binders),
        }
    }
}

/// A bound on the accessed and modified paths that [`infer`] would list, found
/// without listing them.
pub fn count_at_most(script: &Expression) -> u64 {
    let mut total = 0;
    count_results(script, &mut Vec::new(), &mut total);
    total
}

/// A bound on the result of an expression; `total` grows by each result.
fn count_results(expression: &Expression, binders: &mut Vec<u64>, total: &mut u64) -> u64 {
    let binder = matches!(expression.operation, Operation::Let | Operation::For);
    let mut counts: Vec<u64> = Vec::new();
    for operand in &expression.operands {
        let bound = counts.first().copied().filter(|_| binder);
        binders.extend(bound);
        counts.push(count_results(operand, binders, total));
        if bound.is_some() {
            binders.pop();
        }
    }
    let result = match (expression.operation, &counts[..]) {
        (Operation::Document(_) | Operation::Element(_) | Operation::Leaf(_), _) => 1,
        (Operation::Variable(variable), _) => binders[usize::from(variable)],
        (Operation::Let | Operation::For, [_, body]) => *body,
        (Operation::If, [_, yes, no]) => yes.saturating_add(*no),
        (_, counts) => counts
            .iter()
            .fold(0, |sum: u64, count| sum.saturating_add(*count)),
    };
    // A result is accessed once at most, and modified twice at most.
    *total = total.saturating_add(result.saturating_mul(3));
    result
}

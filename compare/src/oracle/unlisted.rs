//! A second method for the paths, for scripts that have too many to list.
//!
//! Here paths stay what document 01 calls them: "nothing, a place, a union, or
//! a path and a step". A path that is used twice is kept once, so that a script
//! has no more of them than a few for each record. Two paths meet if some row
//! can be on both, which is asked of its parent in turn, up to the place.
//! Wherever paths can be listed, this method is compared with the explicit
//! sets.

use super::meeting::compatible;
use super::path::{Place, Step, Which, DESCENDANT_ANY_NODE};
use super::script::{Axis, Expression, Operation, Test};

/// The number of a path in the list of its script's paths.
type Number = usize;

enum Path {
    Nothing,
    Place(Place),
    Union(Number, Number),
    Step(Number, Step),
}

/// The paths of a script.
struct Paths {
    which: Which,
    list: Vec<Path>,
    accessed: Vec<Number>,
    modified: Vec<Number>,
}

/// Does a path that one script modifies meet one that the other traverses?
pub fn meet(first: &Expression, second: &Expression) -> bool {
    let first = Paths::of(first, Which::First);
    let second = Paths::of(second, Which::Second);
    let both_ways = [
        (&first.modified, &second.traversed()),
        (&first.traversed(), &second.modified),
    ];
    let mut search = Search::new(&first, &second);
    both_ways.iter().any(|(left, right)| {
        left.iter()
            .any(|&left| right.iter().any(|&right| search.meets(left, right)))
    })
}

impl Paths {
    fn of(script: &Expression, which: Which) -> Paths {
        let mut paths = Paths {
            which,
            list: Vec::new(),
            accessed: Vec::new(),
            modified: Vec::new(),
        };
        paths.result(script, &mut Vec::new());
        paths
    }

    fn add(&mut self, path: Path) -> Number {
        self.list.push(path);
        self.list.len() - 1
    }

    /// The result of an expression, by the rules that `path.rs` quotes.
    fn result(&mut self, expression: &Expression, binders: &mut Vec<Number>) -> Number {
        let operands = &expression.operands[..];
        match expression.operation {
            Operation::Empty => self.add(Path::Nothing),
            Operation::Document(document) => {
                let r = self.add(Path::Place(Place::Document(document)));
                self.accessed.push(r);
                r
            }
            Operation::Variable(variable) => binders[usize::from(variable)],
            Operation::Step(axis, test) => {
                let r1 = self.result(&operands[0], binders);
                let r = self.add(Path::Step(r1, (axis, test)));
                self.accessed.push(r);
                r
            }
            Operation::Join => {
                let left = self.result(&operands[0], binders);
                let right = self.result(&operands[1], binders);
                self.add(Path::Union(left, right))
            }
            Operation::Let | Operation::For => {
                let bound = self.result(&operands[0], binders);
                binders.push(bound);
                let r = self.result(&operands[1], binders);
                binders.pop();
                r
            }
            Operation::If => {
                self.result(&operands[0], binders);
                let yes = self.result(&operands[1], binders);
                let no = self.result(&operands[2], binders);
                self.add(Path::Union(yes, no))
            }
            Operation::Element(_) | Operation::Leaf(_) => {
                let place = Place::Constructor(self.which, expression.place);
                let r = self.add(Path::Place(place));
                self.modified.push(r);
                r
            }
            Operation::Delete => {
                let r1 = self.result(&operands[0], binders);
                let below = self.add(Path::Step(r1, DESCENDANT_ANY_NODE));
                self.modified.extend([r1, below]);
                self.add(Path::Nothing)
            }
            Operation::Insert => {
                let r1 = self.result(&operands[0], binders);
                let r2 = self.result(&operands[1], binders);
                let copied = self.add(Path::Step(r1, DESCENDANT_ANY_NODE));
                let below = self.add(Path::Step(r2, DESCENDANT_ANY_NODE));
                self.accessed.push(copied);
                self.modified.push(below);
                self.add(Path::Nothing)
            }
            Operation::Pick(..) => self.result(&operands[0], binders),
        }
    }

    /// "Traversed means each accessed path and all its prefixes."
    fn traversed(&self) -> Vec<Number> {
        let mut found = vec![false; self.list.len()];
        for &path in &self.accessed {
            self.add_prefixes(path, &mut found);
        }
        (0..found.len()).filter(|&path| found[path]).collect()
    }

    fn add_prefixes(&self, path: Number, found: &mut [bool]) {
        if std::mem::replace(&mut found[path], true) {
            return;
        }
        match self.list[path] {
            Path::Nothing | Path::Place(_) => {}
            Path::Union(left, right) => {
                self.add_prefixes(left, found);
                self.add_prefixes(right, found);
            }
            Path::Step(from, _) => self.add_prefixes(from, found),
        }
    }
}

/// What is asked of a row: to be on a path, below a row on it, or either.
#[derive(Clone, Copy)]
enum Asked {
    On(Number),
    Below(Number),
    OnOrBelow(Number),
}

/// The kinds of [`Asked`].
const KINDS: usize = 3;

impl Asked {
    fn index(self) -> usize {
        match self {
            Asked::On(path) => KINDS * path,
            Asked::Below(path) => KINDS * path + 1,
            Asked::OnOrBelow(path) => KINDS * path + 2,
        }
    }
}

struct Search<'a> {
    first: &'a Paths,
    second: &'a Paths,
    /// The questions asked before. The first row found ends the search; so
    /// their answer was no, or is still being looked for further up.
    asked: Vec<bool>,
}

/// How a row answers a question by itself: it is at a place; or it passes a
/// test, and the rest is asked of its parent; or one of two other questions.
enum Way {
    Never,
    At(Place),
    Under(Test, Asked),
    Either(Asked, Asked),
}

fn way(paths: &Paths, asked: Asked) -> Way {
    match asked {
        Asked::OnOrBelow(path) => Way::Either(Asked::On(path), Asked::Below(path)),
        Asked::Below(path) => Way::Under(Test::AnyNode, Asked::OnOrBelow(path)),
        Asked::On(path) => match paths.list[path] {
            Path::Nothing => Way::Never,
            Path::Place(place) => Way::At(place),
            Path::Union(left, right) => Way::Either(Asked::On(left), Asked::On(right)),
            Path::Step(from, (Axis::Child, test)) => Way::Under(test, Asked::On(from)),
            Path::Step(from, (_, test)) => Way::Under(test, Asked::OnOrBelow(from)),
        },
    }
}

impl<'a> Search<'a> {
    fn new(first: &'a Paths, second: &'a Paths) -> Search<'a> {
        let questions = 2 * (KINDS * first.list.len()) * (KINDS * second.list.len());
        Search {
            first,
            second,
            asked: vec![false; questions],
        }
    }

    fn meets(&mut self, first: Number, second: Number) -> bool {
        self.exists(Asked::On(first), Asked::On(second), false)
    }

    /// Can there be a row that is what both ask, and an element if it has rows
    /// below?
    fn exists(&mut self, left: Asked, right: Asked, element: bool) -> bool {
        let pair = left.index() * KINDS * self.second.list.len() + right.index();
        if std::mem::replace(&mut self.asked[2 * pair + usize::from(element)], true) {
            return false;
        }
        match (way(self.first, left), way(self.second, right)) {
            (Way::Never, _) | (_, Way::Never) => false,
            (Way::Either(one, other), _) => {
                self.exists(one, right, element) || self.exists(other, right, element)
            }
            (_, Way::Either(one, other)) => {
                self.exists(left, one, element) || self.exists(left, other, element)
            }
            // "No node is at two places", and no row at a place has a parent.
            (Way::At(one), Way::At(other)) => one == other,
            (Way::At(_), Way::Under(..)) | (Way::Under(..), Way::At(_)) => false,
            (Way::Under(one, left), Way::Under(other, right)) => {
                compatible(one, other, element) && self.exists(left, right, true)
            }
        }
    }
}

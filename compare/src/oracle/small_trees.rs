//! Meeting by brute force, for many pairs of small scripts: all small trees
//! below a document's root are tried, with each script's rows found once.

use super::limits::DOCUMENTS;
use super::path::{Inferred, Path, Paths, Place};
use super::script::Axis;
use super::table::Row;

/// A set of rows of a small tree, one bit for each.
type Rows = u8;

/// Names of the elements tried. Scripts have no others.
pub const NAMES: [u8; 2] = [1, 2];

/// All trees of at most some rows. Row 0 is a document's root.
pub struct SmallTrees {
    size: usize,
    trees: Vec<Vec<Row>>,
}

/// The rows that a script modifies and traverses in each tree, put below each
/// document in turn.
pub struct Seen {
    modified: Vec<Rows>,
    traversed: Vec<Rows>,
    longest: usize,
}

impl SmallTrees {
    /// All trees of at most `size` rows, which is at most 8.
    pub fn new(size: usize) -> SmallTrees {
        let mut all = SmallTrees {
            size,
            trees: Vec::new(),
        };
        for name in NAMES {
            all.grow(&mut vec![Row::element(name, None)]);
        }
        all
    }

    /// Keeps a tree and all that have more rows after its own.
    fn grow(&mut self, tree: &mut Vec<Row>) {
        self.trees.push(tree.clone());
        if tree.len() == self.size {
            return;
        }
        for parent in 0..tree.len() {
            if !tree[parent].is_element() {
                continue;
            }
            let below = Some(parent as u16);
            let elements = NAMES.map(|name| Row::element(name, below));
            for row in elements.into_iter().chain([Row::leaf(0, below)]) {
                tree.push(row);
                self.grow(tree);
                tree.pop();
            }
        }
    }

    /// What a script does in each tree.
    pub fn seen(&self, script: &Inferred) -> Seen {
        let traversed = script.traversed();
        let paths = script.modified.iter().chain(&traversed);
        Seen {
            modified: self.on_any(&script.modified),
            traversed: self.on_any(&traversed),
            longest: paths.map(|path| path.steps.len()).max().unwrap_or(0),
        }
    }

    fn on_any(&self, paths: &Paths) -> Vec<Rows> {
        let mut found = vec![0; DOCUMENTS * self.trees.len()];
        for path in paths {
            let Place::Document(document) = path.place else {
                continue;
            };
            let start = usize::from(document) * self.trees.len();
            for (rows, tree) in found[start..].iter_mut().zip(&self.trees) {
                *rows |= on_path(tree, path);
            }
        }
        found
    }

    /// Is there a tree with a row that one script modifies and the other
    /// traverses?
    pub fn find_meeting(&self, first: &Seen, second: &Seen) -> bool {
        let share = |left: &[Rows], right: &[Rows]| {
            left.iter()
                .zip(right)
                .fold(0, |found, (left, right)| found | (left & right))
                != 0
        };
        share(&first.modified, &second.traversed) || share(&second.modified, &first.traversed)
    }

    /// Are the trees large enough for each meeting there can be? On the way
    /// to a row that two paths share each row ends a step of one of them, and
    /// the last row one of both.
    pub fn are_enough(&self, first: &Seen, second: &Seen) -> bool {
        first.longest + second.longest <= self.size
    }
}

/// The rows of a tree that are on a path from its root.
fn on_path(tree: &[Row], path: &Path) -> Rows {
    path.steps.iter().fold(1, |from: Rows, &(axis, test)| {
        let is_from = |number: u16| from >> number & 1 == 1;
        let mut found = 0;
        for (number, &row) in tree.iter().enumerate() {
            let parent = |&number: &u16| tree[usize::from(number)].parent();
            let mut above = std::iter::successors(row.parent(), parent);
            let reached = match axis {
                Axis::Child => row.parent().is_some_and(is_from),
                Axis::Descendant => above.any(is_from),
                Axis::Parent | Axis::Ancestor => panic!("meeting is asked of downward steps only"),
            };
            if reached && test.accepts(row) {
                found |= 1 << number;
            }
        }
        found
    })
}

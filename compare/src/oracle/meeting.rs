//! Document 01, 'The paths': can some plan have a node on two explicit paths?
//! Only downward steps are asked about.
//!
//! "A node is on a place that holds it, [..] and on a path and a step where
//! that step reaches it from a node on the path." A node on a path is thus the
//! last row of a chain, each row the parent of the next, that starts at a row
//! of the path's place. Places hold rows without parent, and "no node is at two
//! places"; so both paths have the same place and the same chain. The chain is
//! grown row by row. "Plans have any size", so that every chain is in some plan.

use super::path::{Path, Step};
use super::script::{Axis, Test};
use super::table::Row;

/// Is there a row that passes both tests? Only an element can have rows below.
pub fn compatible(left: Test, right: Test, element: bool) -> bool {
    let passes = |row: Row| left.accepts(row) && right.accepts(row);
    let named = [left, right].into_iter().find_map(|test| match test {
        Test::Named(name) => Some(name),
        _ => None,
    });
    // Any name serves where none is asked for.
    passes(Row::element(named.unwrap_or(1), None)) || (!element && passes(Row::leaf(0, None)))
}

/// How many steps of the left and of the right path a chain has done.
type Done = (usize, usize);

/// The rows of the shortest chain whose last row is on both paths, the row at
/// the place included, or none if no plan has such a row.
pub fn shortest_chain(left: &Path, right: &Path) -> Option<usize> {
    if left.place != right.place {
        return None;
    }
    let both_done = (left.steps.len(), right.steps.len());
    // What a chain of one row, two rows and so on can have done.
    let mut reached: Vec<(Done, usize)> = vec![((0, 0), 1)];
    let mut next = 0;
    while next < reached.len() {
        let (done, rows) = reached[next];
        if done == both_done {
            return Some(rows);
        }
        for more in with_a_row(&left.steps, &right.steps, done) {
            if reached.iter().all(|(known, _)| *known != more) {
                reached.push((more, rows + 1));
            }
        }
        next += 1;
    }
    None
}

pub fn meet(left: &Path, right: &Path) -> bool {
    shortest_chain(left, right).is_some()
}

/// What is done once the chain has one row more. Each path goes on with it, so
/// neither may be at its end. A row that ends no step lies inside a descendant
/// step of both paths, and can be left out of the chain.
fn with_a_row(left: &[Step], right: &[Step], (i, j): Done) -> Vec<Done> {
    let (Some(&(left_axis, left_test)), Some(&(right_axis, right_test))) =
        (left.get(i), right.get(j))
    else {
        return Vec::new();
    };
    assert!(
        !left_axis.is_upward() && !right_axis.is_upward(),
        "meeting is asked of downward steps only"
    );
    let mut after = Vec::new();
    // The row ends a step of both. It is the last, or has rows below.
    let last = (i + 1, j + 1) == (left.len(), right.len());
    if compatible(left_test, right_test, !last) {
        after.push((i + 1, j + 1));
    }
    // It ends a step of one path, inside a descendant step of the other.
    if right_axis == Axis::Descendant && compatible(left_test, Test::AnyNode, true) {
        after.push((i + 1, j));
    }
    if left_axis == Axis::Descendant && compatible(Test::AnyNode, right_test, true) {
        after.push((i, j + 1));
    }
    after
}

//! Meeting by brute force: all small plans, and all ways to put their rows at
//! places, are tried.

use std::collections::BTreeSet;

use crate::oracle::analysis::conflicts;
use crate::oracle::path::{Inferred, Path, Paths, Place};
use crate::oracle::script::Axis;
use crate::oracle::table::Row;

/// A set of rows of a small plan, one bit for each.
type Rows = u32;

/// A small plan: rows, and for each row the place that holds it.
#[derive(Default)]
struct Plan {
    rows: Vec<Row>,
    places: Vec<Option<Place>>,
}

impl Plan {
    /// The rows that are on a path.
    fn on_path(&self, path: &Path) -> Rows {
        let at_place = self.select(|number| self.places[number] == Some(path.place));
        path.steps.iter().fold(at_place, |from, &(axis, test)| {
            self.select(|number| {
                test.accepts(self.rows[number]) && self.reaches(from, axis, number)
            })
        })
    }

    /// Does a downward axis reach this row from one of these?
    fn reaches(&self, from: Rows, axis: Axis, number: usize) -> bool {
        let Some(parent) = self.rows[number].parent().map(usize::from) else {
            return false;
        };
        let from_parent = from & (1 << parent) != 0;
        match axis {
            Axis::Child => from_parent,
            Axis::Descendant => from_parent || self.reaches(from, axis, parent),
            Axis::Parent | Axis::Ancestor => panic!("meeting is asked of downward steps only"),
        }
    }

    fn select(&self, keep: impl Fn(usize) -> bool) -> Rows {
        (0..self.rows.len())
            .filter(|&number| keep(number))
            .fold(0, |rows, number| rows | 1 << number)
    }

    fn on_any(&self, paths: &Paths) -> Rows {
        paths.iter().fold(0, |rows, path| rows | self.on_path(path))
    }
}

/// Is there a plan of at most `size` rows, with names from `names`, and a row
/// of it on a path that one script modifies and on one the other traverses?
pub fn finds_meeting(first: &Inferred, second: &Inferred, size: usize, names: &[u8]) -> bool {
    let conflicts = conflicts(first, second);
    let places: BTreeSet<Place> = conflicts
        .iter()
        .flat_map(|(modified, traversed)| modified.iter().chain(traversed))
        .map(|path| path.place)
        .collect();
    let search = Search {
        conflicts: &conflicts,
        places: places.into_iter().collect(),
        names,
        size,
    };
    search.grow(&mut Plan::default())
}

struct Search<'a> {
    conflicts: &'a [(&'a Paths, Paths)],
    places: Vec<Place>,
    names: &'a [u8],
    size: usize,
}

impl Search<'_> {
    /// Tries this plan and all that have more rows after its own.
    fn grow(&self, plan: &mut Plan) -> bool {
        let found = self
            .conflicts
            .iter()
            .any(|(modified, traversed)| plan.on_any(modified) & plan.on_any(traversed) != 0);
        if found || plan.rows.len() == self.size {
            return found;
        }
        let elements = self.names.iter().map(|&name| Row::element(name, None));
        elements
            .chain([Row::leaf(0, None)])
            .any(|row| self.grow_below(plan, row) || self.grow_as_root(plan, row))
    }

    fn grow_below(&self, plan: &mut Plan, row: Row) -> bool {
        (0..plan.rows.len()).any(|parent| {
            plan.rows[parent].is_element()
                && self.grow_with(plan, row.with_parent(Some(parent as u16)), None)
        })
    }

    /// The new row has no parent, and is at no place or at any that may hold
    /// it: a document's place holds one element, a constructor's place any
    /// number of elements or leaves.
    fn grow_as_root(&self, plan: &mut Plan, row: Row) -> bool {
        let may_hold = |plan: &Plan, place: Place| match place {
            Place::Document(_) => row.is_element() && !plan.places.contains(&Some(place)),
            Place::Constructor(..) => true,
        };
        self.grow_with(plan, row, None)
            || self
                .places
                .iter()
                .any(|&place| may_hold(plan, place) && self.grow_with(plan, row, Some(place)))
    }

    fn grow_with(&self, plan: &mut Plan, row: Row, place: Option<Place>) -> bool {
        plan.rows.push(row);
        plan.places.push(place);
        let found = self.grow(plan);
        plan.rows.pop();
        plan.places.pop();
        found
    }
}

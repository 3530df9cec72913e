//! What trying all small plans must find: a meeting, if the paths have one that
//! needs no more rows.

use crate::oracle::analysis::conflicts;
use crate::oracle::meeting::shortest_chain;
use crate::oracle::path::Inferred;

/// How many pairs of scripts meet in the plans tried, in larger ones only, and
/// in none.
#[derive(Debug, Default)]
pub struct Meetings {
    found: usize,
    larger: usize,
    none: usize,
}

impl Meetings {
    /// Compares whether a meeting was found in plans of at most so many rows
    /// with what the paths say, and answers whether larger ones have one only.
    pub fn compare(&mut self, [first, second]: [&Inferred; 2], rows: usize, found: bool) -> bool {
        let smallest = smallest_meeting(first, second);
        let larger = smallest.is_some_and(|smallest| smallest > rows);
        assert_eq!(found, smallest.is_some() && !larger);
        self.found += usize::from(found);
        self.larger += usize::from(larger);
        self.none += usize::from(smallest.is_none());
        larger
    }

    /// There were more pairs than these that were found, and that do not meet.
    pub fn require_more_than(&self, least: usize) {
        let enough = self.found > least && self.larger > 0 && self.none > least;
        assert!(enough, "{self:?}");
    }
}

/// The rows of the smallest plan that shows a meeting, if there is one.
fn smallest_meeting(first: &Inferred, second: &Inferred) -> Option<usize> {
    let mut smallest = None;
    for (modified, traversed) in conflicts(first, second) {
        for left in modified {
            let rows = traversed
                .iter()
                .filter_map(|right| shortest_chain(left, right));
            smallest = smallest.into_iter().chain(rows).min();
        }
    }
    smallest
}

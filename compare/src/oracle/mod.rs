//! The oracle: document 01, as requests (a) and (h) of document 02 change it,
//! written from their text alone, and naive on purpose.
//! Each rule stands beside the sentence that it is, in quotation marks, and is
//! written in the way that is easiest to check against it, however slow: steps
//! and the sweep walk up from each row, an insert copies by recursion, values
//! are lists of their own, paths are explicit sets. All differential tests use
//! the oracle, and never the rival in place of it.

pub mod analysis;
pub mod bound;
pub mod calls;
pub mod evaluate;
pub mod history;
pub mod limits;
pub mod meeting;
pub mod orders;
pub mod pair;
pub mod path;
pub mod pick;
pub mod plan;
pub mod refusal;
pub mod run;
pub mod script;
pub mod small_trees;
pub mod step;
pub mod sweep;
pub mod table;
pub mod undo;
pub mod unlisted;

#[cfg(test)]
mod tests;

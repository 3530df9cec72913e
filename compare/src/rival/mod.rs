//! The rival for benchmarks: the documents' rules as fast as plain safe Rust can
//! be made. Of the differential tests only those of pairs of path positions ask
//! it, beside the oracle; its own tests hold it to the oracle, so that it does the
//! same work. From the oracle it takes names of numbers, and the types of refusals
//! and answers.

use crate::oracle::refusal::Number;

mod analysis;
pub mod calls;
mod evaluate;
mod positions;
mod script;
mod step;
mod table;
mod undo;

#[cfg(test)]
mod tests;

/// The refusal of a record that is not accepted: the first of 1, 5, 2, else 4.
fn refused(is_kind: bool, has_room: bool, is_whole: bool) -> Number {
    match (is_kind, has_room, is_whole) {
        (false, _, _) => Number::Kind,
        (_, false, _) => Number::Size,
        (_, _, false) => Number::Short,
        _ => Number::Field,
    }
}

//! Documents 01 and 02 a second and a third time, and what is needed to compare
//! the library under test with them.
//!
//! - [`oracle`]: the documents' rules, naive, for the differential tests.
//! - [`rival`]: the same, fast, for the benchmarks.
//! - [`raw`]: a table packed as the C interface passes it.
//! - [`interface`]: the answers and lent areas of the C interface.
//! - [`generate`]: plans, scripts and tables, sound and damaged.
//! - [`cases`]: cases with what the documents say of each, found by hand.

pub mod cases;
pub mod generate;
pub mod interface;
pub mod oracle;
pub mod raw;
pub mod rival;

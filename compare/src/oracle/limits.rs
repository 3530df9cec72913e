//! The limits of document 01.

/// Rows in a table.
pub const ROWS: usize = 512;
/// Documents, and so marks in a table.
pub const DOCUMENTS: usize = 8;
/// Records in a script.
pub const SCRIPT_RECORDS: usize = 64;
/// Depth of an expression, the outermost being 1.
pub const DEPTH: usize = 16;
/// Binders nested in each other's second operand.
pub const BINDERS: usize = 8;
/// Items in a value.
pub const ITEMS: usize = 512;
/// Records in a history that is read; a run writes fewer, as `bound.rs` says.
pub const HISTORY_RECORDS: usize = 2048;

/// Two-byte numbers in the answer area of a run.
pub const ANSWER_NUMBERS: usize = ITEMS;
/// Two-byte numbers in the work area of a run.
pub const WORK_NUMBERS: usize = 32_768;
/// Bytes in the history area of a run.
pub const HISTORY_BYTES: usize = 12_288;

/// Bytes of one record of a stored plan.
pub const PLAN_RECORD_BYTES: usize = 4;
/// Bytes of the longest stored plan.
pub const PLAN_BYTES: usize = PLAN_RECORD_BYTES * (ROWS + DOCUMENTS);
/// Bytes that the program `pair` reads of a file.
pub const FILE_BYTES: usize = 4096;

/// The stored parent field of a row without parent.
pub const NO_PARENT: u16 = 0xFFFF;

//! Document 02, request (h): what the history of a run can hold. "A run makes
//! at most 512 rows and no row's link is cut twice, so 2,048 records cannot be
//! passed."

use super::history::{self, Record, CUT_BYTES, MADE_BYTES};
use super::limits::ROWS;
use super::run::Tally;

/// Records in the history of a run: each of 512 rows made once and cut once.
pub const RUN_RECORDS: usize = ROWS + ROWS;
/// Bytes in the history of a run.
pub const RUN_HISTORY_BYTES: usize = ROWS * MADE_BYTES + ROWS * CUT_BYTES;

/// Counts the records of the history that a run wrote, or says why no run can
/// have written it.
pub fn count(bytes: &[u8]) -> Result<Tally, &'static str> {
    let Ok(records) = history::records(bytes) else {
        return Err("a history is ill formed");
    };
    let (mut made, mut cut) = (Vec::new(), Vec::new());
    for &record in &records {
        match record {
            Record::Made { number, .. } => made.push(number),
            Record::Cut { number, .. } => cut.push(number),
        }
    }
    if has_repeats(made) {
        return Err("two records make the same row");
    }
    if has_repeats(cut) {
        return Err("two records cut the same row's link");
    }
    if records.len() > RUN_RECORDS {
        return Err("a run has more than 1,024 records");
    }
    if bytes.len() > RUN_HISTORY_BYTES {
        return Err("a run's history has more than 5,632 bytes");
    }
    Ok(Tally::of(&records))
}

/// Does a number stand twice in a list?
fn has_repeats(mut numbers: Vec<u16>) -> bool {
    numbers.sort_unstable();
    numbers.windows(2).any(|pair| pair[0] == pair[1])
}

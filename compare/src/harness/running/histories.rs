//! The histories that runs write: how long they are, and what none may hold.

use std::fmt;

use compare::interface::Answer;
use compare::oracle::bound;
use compare::oracle::run::Tally;

use crate::harness::Difference;

/// The tally among the numbers that a run hands back.
pub fn tally(done: &[u64]) -> Tally {
    Tally {
        rows_made: done[1] as usize,
        links_cut: done[2] as usize,
        records_written: done[3] as usize,
    }
}

/// How many histories were read, and the most records and bytes of one.
#[derive(Default)]
pub struct Histories {
    read: u64,
    records: usize,
    bytes: usize,
}

impl Histories {
    /// Reads the history of a run that is not refused. It makes no row twice
    /// and cuts no row's link twice, it is not too long, and the tally counts
    /// its records. `done` has the six numbers that the run handed back.
    pub fn count(&mut self, answer: Answer, area: &[u8], done: &[u64]) -> Result<(), Difference> {
        if answer.number() != 0 {
            return Ok(());
        }
        let (handed_back, length) = (tally(done), done[4] as usize);
        let counted =
            bound::count(&area[..length]).map_err(|message| format!("law broken: {message}"))?;
        if handed_back != counted {
            return Err(format!(
                "law broken: the history has {counted:?}, the tally says {handed_back:?}"
            ));
        }
        self.read += 1;
        self.records = self.records.max(counted.records_written);
        self.bytes = self.bytes.max(length);
        Ok(())
    }
}

impl fmt::Display for Histories {
    fn fmt(&self, formatter: &mut fmt::Formatter<'_>) -> fmt::Result {
        let Histories {
            read,
            records,
            bytes,
        } = self;
        write!(
            formatter,
            "{read} read, at most {records} records and {bytes} bytes"
        )
    }
}

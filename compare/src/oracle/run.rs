//! A run with its lent areas.

use super::evaluate::{evaluate, Evaluated};
use super::history::{self, Record};
use super::limits::{ANSWER_NUMBERS, HISTORY_BYTES, WORK_NUMBERS};
use super::refusal::{Number, Refusal};
use super::script;
use super::table::Table;

/// The areas lent to a run.
pub struct Areas<'a> {
    pub answer: &'a mut [u16],
    pub work: &'a mut [u16],
    pub history: &'a mut [u8],
}

impl Areas<'_> {
    /// Some area is shorter than its stated length.
    pub fn is_short(&self) -> bool {
        self.answer.len() < ANSWER_NUMBERS
            || self.work.len() < WORK_NUMBERS
            || self.history.len() < HISTORY_BYTES
    }

    /// All areas zero.
    pub fn clear(&mut self) {
        self.answer.fill(0);
        self.work.fill(0);
        self.history.fill(0);
    }
}

/// Areas of the stated lengths, owned.
pub struct OwnedAreas {
    pub answer: Vec<u16>,
    pub work: Vec<u16>,
    pub history: Vec<u8>,
}

impl Default for OwnedAreas {
    fn default() -> Self {
        OwnedAreas {
            answer: vec![0; ANSWER_NUMBERS],
            work: vec![0; WORK_NUMBERS],
            history: vec![0; HISTORY_BYTES],
        }
    }
}

impl OwnedAreas {
    pub fn lend(&mut self) -> Areas<'_> {
        Areas {
            answer: &mut self.answer,
            work: &mut self.work,
            history: &mut self.history,
        }
    }
}

/// "One tally follows a run: rows made, links cut, records written."
#[derive(Clone, Copy, Debug, Default, PartialEq, Eq)]
pub struct Tally {
    pub rows_made: usize,
    pub links_cut: usize,
    pub records_written: usize,
}

impl Tally {
    /// Counts the records of a history.
    pub fn of(history: &[Record]) -> Tally {
        let is_made = |record: &&Record| matches!(record, Record::Made { .. });
        let is_cut = |record: &&Record| matches!(record, Record::Cut { .. });
        Tally {
            rows_made: history.iter().filter(is_made).count(),
            links_cut: history.iter().filter(is_cut).count(),
            records_written: history.len(),
        }
    }
}

/// The result of a run that is not refused.
#[derive(Clone, Copy, Debug, PartialEq, Eq)]
pub struct Ran {
    /// Numbers of the answer area that are the answer.
    pub items: usize,
    /// Bytes of the history area that are the history.
    pub history_length: usize,
    pub tally: Tally,
}

/// Runs a script. 11 "comes first; it is at place 0 and touches nothing. A
/// table handed in ill formed is 6 at place 0, next after 11." Then comes the
/// script's reader, then the run. "A refused run restores the table and zeroes
/// answer and history. Areas past the lengths given back are zero after a run,
/// and so is all of the work area."
pub fn run(table: &mut Table, script: &[u8], mut areas: Areas<'_>) -> Result<Ran, Refusal> {
    if areas.is_short() {
        return Err(Number::Lent.at(0));
    }
    areas.clear();
    if !table.is_well_formed() {
        return Err(Number::Link.at(0));
    }
    let script = script::read(script)?;
    let mut later = table.clone();
    let Evaluated {
        answer,
        history: records,
        ..
    } = evaluate(&script, &mut later)?;
    *table = later;
    let history = history::to_vec(&records);
    areas.answer[..answer.len()].copy_from_slice(&answer);
    areas.history[..history.len()].copy_from_slice(&history);
    Ok(Ran {
        items: answer.len(),
        history_length: history.len(),
        tally: Tally::of(&records),
    })
}

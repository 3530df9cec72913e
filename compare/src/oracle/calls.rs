//! The oracle behind the same calls as the C interface of the library.

use super::limits::{DOCUMENTS, PLAN_BYTES, ROWS};
use super::path::Which;
use super::refusal::{Number, Refusal};
use super::{analysis, plan as stored, run as running, script as scripts, sweep as sweeping};
use super::{table::Table, undo as undoing};
use crate::interface::{
    Answer, Lent, DONE_NUMBERS, WHICH_AREA, WHICH_FIRST, WHICH_HISTORY, WHICH_PLAN, WHICH_SCRIPT,
    WHICH_SECOND,
};
use crate::raw;

/// Reads a stored plan and writes it back.
pub fn plan(plan: &[u8], out: &mut [u8]) -> Answer {
    changed_plan(plan, out, |_| Ok(()))
}

/// Reads a stored plan, sweeps it and writes it back.
pub fn sweep(plan: &[u8], out: &mut [u8]) -> Answer {
    changed_plan(plan, out, sweeping::sweep)
}

fn changed_plan(
    plan: &[u8],
    out: &mut [u8],
    change: impl FnOnce(&mut Table) -> Result<(), Refusal>,
) -> Answer {
    if out.len() < PLAN_BYTES {
        return Answer::lent();
    }
    let written = stored::read(plan).and_then(|mut table| {
        change(&mut table)?;
        stored::write(&table, out)
    });
    Answer::of(WHICH_PLAN, written)
}

/// Reads a script.
pub fn script(script: &[u8]) -> Answer {
    Answer::of(WHICH_SCRIPT, scripts::read(script).map(|_| 0))
}

/// Reads a stored plan, takes a history back and writes the plan back.
pub fn undo(plan: &[u8], history: &[u8], out: &mut [u8]) -> Answer {
    if out.len() < PLAN_BYTES {
        return Answer::lent();
    }
    let mut table = match stored::read(plan) {
        Ok(table) => table,
        Err(refusal) => return Answer::refused(WHICH_PLAN, refusal),
    };
    if let Err(refusal) = undoing::undo(&mut table, history) {
        return Answer::refused(WHICH_HISTORY, refusal);
    }
    Answer::of(WHICH_AREA, stored::write(&table, out))
}

/// Reads a stored plan, runs a script on it and writes the plan back. One of
/// the five areas too short is refused before all else, and nothing is
/// touched. A call refused after that leaves `out` as it was and sets answer,
/// history, work and the six numbers of `done` to zero.
pub fn run(plan: &[u8], script: &[u8], areas: Lent<'_>) -> Answer {
    let mut lent_to_run = running::Areas {
        answer: areas.answer,
        work: areas.work,
        history: areas.history,
    };
    if lent_to_run.is_short() || areas.out.len() < PLAN_BYTES || areas.done.len() < DONE_NUMBERS {
        return Answer::lent();
    }
    let done = &mut areas.done[..DONE_NUMBERS];
    done.fill(0);
    let mut table = match stored::read(plan) {
        Ok(table) => table,
        Err(refusal) => {
            lent_to_run.clear();
            return Answer::refused(WHICH_PLAN, refusal);
        }
    };
    let ran = match running::run(&mut table, script, lent_to_run) {
        Ok(ran) => ran,
        Err(refusal) => return Answer::refused(WHICH_SCRIPT, refusal),
    };
    let length = match stored::write(&table, areas.out) {
        Ok(length) => length,
        Err(refusal) => return Answer::refused(WHICH_AREA, refusal),
    };
    let numbers = [
        ran.items,
        ran.tally.rows_made,
        ran.tally.links_cut,
        ran.tally.records_written,
        ran.history_length,
        length,
    ];
    done.copy_from_slice(&numbers.map(|number| number as u64));
    Answer::accepted(0)
}

/// Reads two scripts and analyses them.
pub fn analyse(first: &[u8], second: &[u8]) -> Answer {
    match analysis::analyse(first, second) {
        Ok(answer) => Answer::analysed(answer),
        Err((Which::First, refusal)) => Answer::refused(WHICH_FIRST, refusal),
        Err((Which::Second, refusal)) => Answer::refused(WHICH_SECOND, refusal),
    }
}

/// Writes a table handed in packed.
pub fn write_table(count: usize, rows: &[u32], marks: &[u16], out: &mut [u8]) -> Answer {
    if rows.len() != ROWS || marks.len() != DOCUMENTS {
        return Answer::lent();
    }
    let Some(table) = raw::decode(count, rows, marks) else {
        return Answer::refused(WHICH_PLAN, Number::Link.at(0));
    };
    Answer::of(WHICH_AREA, stored::write(&table, out))
}

/// Sweeps a table handed in packed.
pub fn sweep_table(count: usize, rows: &mut [u32], marks: &mut [u16]) -> Answer {
    if rows.len() != ROWS || marks.len() != DOCUMENTS {
        return Answer::lent();
    }
    let Some(mut table) = raw::decode(count, rows, marks) else {
        return Answer::refused(WHICH_PLAN, Number::Link.at(0));
    };
    if let Err(refusal) = sweeping::sweep(&mut table) {
        return Answer::refused(WHICH_PLAN, refusal);
    }
    raw::encode(&table, rows, marks);
    Answer::accepted(table.rows.len())
}

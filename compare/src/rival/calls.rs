//! The rival behind the same calls as the C interface of the library, as far as
//! they are measured.

use super::analysis;
use super::evaluate::Evaluator;
use super::script::Script;
use super::table::Table;
use super::undo as undoing;
use crate::interface::{
    Answer, Lent, DONE_NUMBERS, WHICH_FIRST, WHICH_HISTORY, WHICH_PLAN, WHICH_SCRIPT, WHICH_SECOND,
};
use crate::oracle::limits::{
    ANSWER_NUMBERS, DOCUMENTS, HISTORY_BYTES, PLAN_BYTES, ROWS, WORK_NUMBERS,
};
use crate::oracle::refusal::Number;

/// Reads a stored plan and writes it back.
pub fn plan(plan: &[u8], out: &mut [u8]) -> Answer {
    if out.len() < PLAN_BYTES {
        return Answer::lent();
    }
    let mut table = Table::default();
    match table.read(plan) {
        Ok(()) => written(&table, out),
        Err(refusal) => Answer::refused(WHICH_PLAN, refusal),
    }
}

/// Reads a stored plan, sweeps it and writes it back.
pub fn sweep(plan: &[u8], out: &mut [u8]) -> Answer {
    if out.len() < PLAN_BYTES {
        return Answer::lent();
    }
    let mut table = Table::default();
    if let Err(refusal) = table.read(plan) {
        return Answer::refused(WHICH_PLAN, refusal);
    }
    table.sweep();
    written(&table, out)
}

/// Reads a script.
pub fn script(script: &[u8]) -> Answer {
    Answer::of(WHICH_SCRIPT, Script::default().read(script).map(|()| 0))
}

/// Reads a stored plan, takes a history back and writes the plan back.
pub fn undo(plan: &[u8], history: &[u8], out: &mut [u8]) -> Answer {
    if out.len() < PLAN_BYTES {
        return Answer::lent();
    }
    let mut table = Table::default();
    if let Err(refusal) = table.read(plan) {
        return Answer::refused(WHICH_PLAN, refusal);
    }
    match undoing::undo(&mut table, history) {
        Ok(()) => written(&table, out),
        Err(refusal) => Answer::refused(WHICH_HISTORY, refusal),
    }
}

/// Reads a stored plan, runs a script on it and writes the plan back. Nobody
/// sees the table of a refused run; so it is not restored.
pub fn run(plan: &[u8], script: &[u8], areas: Lent<'_>) -> Answer {
    if areas.answer.len() < ANSWER_NUMBERS
        || areas.history.len() < HISTORY_BYTES
        || areas.work.len() < WORK_NUMBERS
        || areas.out.len() < PLAN_BYTES
        || areas.done.len() < DONE_NUMBERS
    {
        return Answer::lent();
    }
    let Lent {
        answer,
        history,
        work,
        out,
        done,
    } = areas;
    let ran = run_checked(plan, script, work, history, out);
    let numbers = ran.unwrap_or_default();
    let [items, _, _, _, history_length, _] = numbers;
    answer[..items].copy_from_slice(&work[..items]);
    answer[items..].fill(0);
    history[history_length..].fill(0);
    work.fill(0);
    for (done, number) in done.iter_mut().zip(numbers) {
        *done = number as u64;
    }
    match ran {
        Ok(_) => Answer::accepted(0),
        Err(refused) => refused,
    }
}

/// The numbers of a run that is not refused; the answer is at the start of the
/// work area.
fn run_checked(
    plan: &[u8],
    script: &[u8],
    work: &mut [u16],
    history: &mut [u8],
    out: &mut [u8],
) -> Result<[usize; DONE_NUMBERS], Answer> {
    let mut table = Table::default();
    let of_plan = |refusal| Answer::refused(WHICH_PLAN, refusal);
    table.read(plan).map_err(of_plan)?;
    let mut read = Script::default();
    let of_script = |refusal| Answer::refused(WHICH_SCRIPT, refusal);
    read.read(script).map_err(of_script)?;
    let mut evaluator = Evaluator::new(&read, &mut table, work, history);
    let items = evaluator.run().map_err(of_script)?;
    let (made, cut) = (evaluator.rows_made, evaluator.links_cut);
    let history_length = evaluator.history_length;
    let length = table.write(out).ok_or_else(Answer::lent)?;
    Ok([items, made, cut, made + cut, history_length, length])
}

/// Reads two scripts and analyses them.
pub fn analyse(first: &[u8], second: &[u8]) -> Answer {
    let (mut one, mut two) = (Script::default(), Script::default());
    if let Err(refusal) = one.read(first) {
        return Answer::refused(WHICH_FIRST, refusal);
    }
    if let Err(refusal) = two.read(second) {
        return Answer::refused(WHICH_SECOND, refusal);
    }
    Answer::analysed(analysis::analyse(&one, &two))
}

/// Writes a table handed in packed.
pub fn write_table(count: usize, rows: &[u32], marks: &[u16], out: &mut [u8]) -> Answer {
    if rows.len() != ROWS || marks.len() != DOCUMENTS {
        return Answer::lent();
    }
    let mut table = Table::default();
    match table.read_packed(count, rows, marks) {
        true => written(&table, out),
        false => Answer::refused(WHICH_PLAN, Number::Link.at(0)),
    }
}

fn written(table: &Table, out: &mut [u8]) -> Answer {
    table.write(out).map_or_else(Answer::lent, Answer::accepted)
}

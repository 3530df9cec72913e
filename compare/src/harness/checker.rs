//! One comparison for each call: the answers, every lent area, and the laws.

use compare::interface::{Answer, WHICH_PLAN};
use compare::oracle::calls;
use compare::oracle::limits::PLAN_BYTES;
use compare::oracle::refusal::Refusal;
use compare::raw::RawTable;

use super::area::Twin;
use super::tally::{Call, Tally};
use super::Difference;
use crate::ffi;

/// Bytes of an input that a message shows.
const SHOWN: usize = 96;
const GUARD_BYTE: u8 = 0xA5;
const GUARD_ROW: u32 = 0xA5A5_A5A5;
const GUARD_MARK: u16 = 0xA5A5;

type PlanCall = fn(&[u8], &mut [u8]) -> Answer;

pub struct Checker {
    pub tally: Tally,
    /// Lines for the summary.
    pub notes: String,
    out: Twin<u8>,
    rows: Twin<u32>,
    marks: Twin<u16>,
    /// Fills areas; several lengths of patterns can be cut from it.
    pattern: Vec<u8>,
    /// Changes with each call, so that the patterns do.
    salt: usize,
}

impl Checker {
    pub fn new() -> Checker {
        Checker {
            tally: Tally::default(),
            notes: String::new(),
            out: Twin::new(),
            rows: Twin::new(),
            marks: Twin::new(),
            pattern: (0..2 * PLAN_BYTES + 256)
                .map(|index| (index * 151 + index / 251 + 1) as u8)
                .collect(),
            salt: 0,
        }
    }

    /// Compares `yegnabit_plan` and `yegnabit_sweep` in an area that suffices.
    pub fn plan(&mut self, plan: &[u8]) -> Result<(), Difference> {
        self.plan_in(plan, PLAN_BYTES)
    }

    /// Compares both in an area of any length.
    pub fn plan_in(&mut self, plan: &[u8], out_length: usize) -> Result<(), Difference> {
        let answer = self.stored(Call::Plan, plan, out_length)?;
        if answer.number() == 0 {
            let written = &self.out.library()[..answer.place() as usize];
            if written != plan {
                let message = "law broken: an accepted plan is written back otherwise";
                return Err(difference(Call::Plan, &[plan], message));
            }
        }
        let answer = self.stored(Call::Sweep, plan, out_length)?;
        if answer.number() == 0 {
            let once = self.out.library()[..answer.place() as usize].to_vec();
            let again = self.stored(Call::Sweep, &once, out_length)?;
            let twice = &self.out.library()[..again.place() as usize];
            if again.number() != 0 || twice != once {
                let message = "law broken: a second sweep changes something";
                return Err(difference(Call::Sweep, &[plan], message));
            }
        }
        Ok(())
    }

    /// Compares both on a plan of which document 01 says this refusal.
    pub fn plan_is_refused(&mut self, plan: &[u8], refusal: Refusal) -> Result<(), Difference> {
        [Call::Plan, Call::Sweep].into_iter().try_for_each(|call| {
            let answer = self.stored(call, plan, PLAN_BYTES)?;
            document_says(Answer::refused(WHICH_PLAN, refusal), answer, call, &[plan])
        })
    }

    /// Compares a call that takes a stored plan and answers one.
    fn stored(&mut self, call: Call, plan: &[u8], out_length: usize) -> Result<Answer, Difference> {
        let (library, oracle): (PlanCall, PlanCall) = match call {
            Call::Plan => (ffi::plan, calls::plan),
            _ => (ffi::sweep, calls::sweep),
        };
        let told = |message: &str| difference(call, &[plan], message);
        self.written(call, out_length, told, |ours, theirs| {
            (library(plan, ours), oracle(plan, theirs))
        })
    }

    /// Compares a call that writes a plan to an area of this length. `told`
    /// makes a message of a difference.
    fn written(
        &mut self,
        call: Call,
        out_length: usize,
        told: impl FnOnce(&str) -> Difference,
        both: impl FnOnce(&mut [u8], &mut [u8]) -> (Answer, Answer),
    ) -> Result<Answer, Difference> {
        // Another part of the pattern for each call.
        self.salt = (self.salt + 1) % 251;
        let content = self.pattern[self.salt..self.salt + out_length].iter();
        let (answers, areas) = self.out.lend(content.copied(), GUARD_BYTE, both);
        compare(answers)
            .and(areas)
            .map_err(|message| told(&message))?;
        self.tally.count(call, answers.1);
        Ok(answers.1)
    }

    /// Compares `yegnabit_script`.
    pub fn script(&mut self, script: &[u8]) -> Result<(), Difference> {
        let answers = (ffi::script(script), calls::script(script));
        compare(answers).map_err(|message| difference(Call::Script, &[script], &message))?;
        self.tally.count(Call::Script, answers.1);
        Ok(())
    }

    /// Compares `yegnabit_undo` in an area that suffices.
    pub fn undo(&mut self, plan: &[u8], history: &[u8]) -> Result<Answer, Difference> {
        self.undo_in(plan, history, PLAN_BYTES)
    }

    /// Compares `yegnabit_undo` in an area of any length.
    pub fn undo_in(
        &mut self,
        plan: &[u8],
        history: &[u8],
        out_length: usize,
    ) -> Result<Answer, Difference> {
        let told = |message: &str| difference(Call::Undo, &[plan, history], message);
        self.written(Call::Undo, out_length, told, |ours, theirs| {
            (
                ffi::undo(plan, history, ours),
                calls::undo(plan, history, theirs),
            )
        })
    }

    /// Compares `yegnabit_undo` of a history on the plan that it left: the
    /// plan before it must come back.
    pub fn taken_back(
        &mut self,
        before: &[u8],
        after: &[u8],
        history: &[u8],
    ) -> Result<(), Difference> {
        let answer = self.undo(after, history)?;
        let written = &self.out.library()[..answer.place() as usize];
        if answer.number() != 0 || written != before {
            let message = "law broken: a run is not taken back by its history";
            return Err(difference(Call::Undo, &[after, history], message));
        }
        Ok(())
    }

    /// Compares `yegnabit_analyse`.
    pub fn analyse(&mut self, first: &[u8], second: &[u8]) -> Result<Answer, Difference> {
        let answers = (ffi::analyse(first, second), calls::analyse(first, second));
        compare(answers)
            .map_err(|message| difference(Call::Analyse, &[first, second], &message))?;
        self.tally.count(Call::Analyse, answers.1);
        Ok(answers.1)
    }

    /// Compares `yegnabit_write_table` and `yegnabit_sweep_table`.
    pub fn table(&mut self, raw: &RawTable) -> Result<(), Difference> {
        self.write_table(raw, PLAN_BYTES)?;
        self.sweep_table(raw)
    }

    /// Compares `yegnabit_write_table` in an area of any length.
    pub fn write_table(&mut self, raw: &RawTable, out_length: usize) -> Result<(), Difference> {
        let told = |message: &str| told_table(Call::WriteTable, raw, message);
        let answer = self.written(Call::WriteTable, out_length, told, |ours, theirs| {
            (
                ffi::write_table(raw.count, &raw.rows, &raw.marks, ours),
                calls::write_table(raw.count, &raw.rows, &raw.marks, theirs),
            )
        })?;
        if answer.number() == 0 {
            // The reader must accept what the writer wrote.
            let written = self.out.library()[..answer.place() as usize].to_vec();
            let read = self.stored(Call::Plan, &written, PLAN_BYTES)?;
            if read.number() != 0 {
                return Err(told("law broken: the reader refuses what was written"));
            }
        }
        Ok(())
    }

    /// Compares `yegnabit_sweep_table`.
    pub fn sweep_table(&mut self, raw: &RawTable) -> Result<(), Difference> {
        let call = Call::SweepTable;
        let swept = self.swept(raw)?;
        let Some(once) = swept else { return Ok(()) };
        if self.swept(&once)?.as_ref() != Some(&once) {
            let message = "law broken: a second sweep changes something";
            return Err(told_table(call, raw, message));
        }
        Ok(())
    }

    /// What the library leaves of a table, unless it is refused.
    fn swept(&mut self, raw: &RawTable) -> Result<Option<RawTable>, Difference> {
        let call = Call::SweepTable;
        let (rows, marks) = (raw.rows.iter().copied(), raw.marks.iter().copied());
        let ((answers, mark_areas), row_areas) =
            self.rows.lend(rows, GUARD_ROW, |our_rows, their_rows| {
                self.marks
                    .lend(marks, GUARD_MARK, |our_marks, their_marks| {
                        (
                            ffi::sweep_table(raw.count, our_rows, our_marks),
                            calls::sweep_table(raw.count, their_rows, their_marks),
                        )
                    })
            });
        compare(answers)
            .and(row_areas)
            .and(mark_areas)
            .map_err(|message| told_table(call, raw, &message))?;
        self.tally.count(call, answers.1);
        Ok((answers.1.number() == 0).then(|| RawTable {
            count: answers.1.place() as usize,
            rows: self.rows.library().to_vec(),
            marks: self.marks.library().to_vec(),
        }))
    }
}

/// Compares the library's answer with the oracle's. All calls come here, so it
/// is here that no answer may have a number that is not used, such as 9.
pub fn compare((library, oracle): (Answer, Answer)) -> Result<(), Difference> {
    if !library.is_known() {
        return Err(format!("{library:?}: no refusal has this number"));
    }
    if library == oracle {
        return Ok(());
    }
    Err(format!("library {library:?}; oracle {oracle:?}"))
}

/// Compares an answer with the one that document 01 says.
pub fn document_says(
    expected: Answer,
    answer: Answer,
    call: Call,
    inputs: &[&[u8]],
) -> Result<(), Difference> {
    if answer == expected {
        return Ok(());
    }
    let message = format!("document 01 says {expected:?}, not {answer:?}");
    Err(difference(call, inputs, &message))
}

/// A message with the inputs in base 16.
pub fn difference(call: Call, inputs: &[&[u8]], message: &str) -> Difference {
    let mut text = format!("{}: {message}", call.name());
    for input in inputs {
        let shown: Vec<String> = input
            .iter()
            .take(SHOWN)
            .map(|byte| format!("{byte:02X}"))
            .collect();
        let more = if input.len() > SHOWN { " .." } else { "" };
        text += &format!(
            "\ninput of {} bytes: {}{more}",
            input.len(),
            shown.join(" ")
        );
    }
    text
}

fn told_table(call: Call, raw: &RawTable, message: &str) -> Difference {
    let rows: Vec<String> = raw
        .rows
        .iter()
        .take(SHOWN)
        .map(|row| format!("{row:X}"))
        .collect();
    format!(
        "{}: {message}\ncount {}, {} rows: {} .., marks {:?}",
        call.name(),
        raw.count,
        raw.rows.len(),
        rows.join(" "),
        raw.marks
    )
}

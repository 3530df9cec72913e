//! The C interface of the library under test, and safe wrappers.
//!
//! A slice is passed as a pointer and then a length. Each call answers
//! number + 256 * which + 65,536 * place: see [`Answer`].

use compare::interface::Answer;
use compare::interface::Lent;

#[link(name = "yegnabit", kind = "static")]
extern "C" {
    fn yegnabit_plan(plan: *const u8, plan_length: usize, out: *mut u8, out_length: usize) -> u64;

    fn yegnabit_sweep(plan: *const u8, plan_length: usize, out: *mut u8, out_length: usize) -> u64;

    fn yegnabit_undo(
        plan: *const u8,
        plan_length: usize,
        history: *const u8,
        history_length: usize,
        out: *mut u8,
        out_length: usize,
    ) -> u64;

    fn yegnabit_run(
        plan: *const u8,
        plan_length: usize,
        script: *const u8,
        script_length: usize,
        answer: *mut u16,
        answer_length: usize,
        history: *mut u8,
        history_length: usize,
        work: *mut u16,
        work_length: usize,
        out: *mut u8,
        out_length: usize,
        done: *mut u64,
        done_length: usize,
    ) -> u64;

    fn yegnabit_analyse(
        first: *const u8,
        first_length: usize,
        second: *const u8,
        second_length: usize,
    ) -> u64;
}

// Calls for tests: crates/c_probe, not in the header.
#[link(name = "c_probe", kind = "static")]
extern "C" {
    fn yegnabit_script(script: *const u8, script_length: usize) -> u64;

    fn yegnabit_write_table(
        count: usize,
        rows: *const u32,
        rows_length: usize,
        marks: *const u16,
        marks_length: usize,
        out: *mut u8,
        out_length: usize,
    ) -> u64;

    fn yegnabit_sweep_table(
        count: usize,
        rows: *mut u32,
        rows_length: usize,
        marks: *mut u16,
        marks_length: usize,
    ) -> u64;
}

// In each wrapper the pointers and lengths come from slices that live through
// the call, and a slice passed as *mut is borrowed by nobody else.

/// Reads a stored plan and writes it back to the start of `out`.
pub fn plan(plan: &[u8], out: &mut [u8]) -> Answer {
    // SAFETY: see above.
    Answer(unsafe { yegnabit_plan(plan.as_ptr(), plan.len(), out.as_mut_ptr(), out.len()) })
}

/// Reads a stored plan, sweeps it and writes it to the start of `out`.
pub fn sweep(plan: &[u8], out: &mut [u8]) -> Answer {
    // SAFETY: see above.
    Answer(unsafe { yegnabit_sweep(plan.as_ptr(), plan.len(), out.as_mut_ptr(), out.len()) })
}

/// Reads a script.
pub fn script(script: &[u8]) -> Answer {
    // SAFETY: see above.
    Answer(unsafe { yegnabit_script(script.as_ptr(), script.len()) })
}

/// Reads a stored plan, takes a history back and writes the plan to the start
/// of `out`.
pub fn undo(plan: &[u8], history: &[u8], out: &mut [u8]) -> Answer {
    // SAFETY: see above.
    Answer(unsafe {
        yegnabit_undo(
            plan.as_ptr(),
            plan.len(),
            history.as_ptr(),
            history.len(),
            out.as_mut_ptr(),
            out.len(),
        )
    })
}

/// Reads a stored plan, runs a script on it in the lent areas and writes the
/// plan to the start of `out`.
pub fn run(plan: &[u8], script: &[u8], areas: Lent<'_>) -> Answer {
    // SAFETY: see above.
    Answer(unsafe {
        yegnabit_run(
            plan.as_ptr(),
            plan.len(),
            script.as_ptr(),
            script.len(),
            areas.answer.as_mut_ptr(),
            areas.answer.len(),
            areas.history.as_mut_ptr(),
            areas.history.len(),
            areas.work.as_mut_ptr(),
            areas.work.len(),
            areas.out.as_mut_ptr(),
            areas.out.len(),
            areas.done.as_mut_ptr(),
            areas.done.len(),
        )
    })
}

/// Analyses two scripts.
pub fn analyse(first: &[u8], second: &[u8]) -> Answer {
    // SAFETY: see above.
    Answer(unsafe { yegnabit_analyse(first.as_ptr(), first.len(), second.as_ptr(), second.len()) })
}

/// Writes a table handed in packed to the start of `out`.
pub fn write_table(count: usize, rows: &[u32], marks: &[u16], out: &mut [u8]) -> Answer {
    // SAFETY: see above.
    Answer(unsafe {
        yegnabit_write_table(
            count,
            rows.as_ptr(),
            rows.len(),
            marks.as_ptr(),
            marks.len(),
            out.as_mut_ptr(),
            out.len(),
        )
    })
}

/// Sweeps a table handed in packed.
pub fn sweep_table(count: usize, rows: &mut [u32], marks: &mut [u16]) -> Answer {
    // SAFETY: see above.
    Answer(unsafe {
        yegnabit_sweep_table(
            count,
            rows.as_mut_ptr(),
            rows.len(),
            marks.as_mut_ptr(),
            marks.len(),
        )
    })
}

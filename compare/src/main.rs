//! Compares the library under test with the oracle: `compare test` runs
//! all comparisons, `compare pair` those of the program. `compare bench`
//! measures the library beside the rival.

mod bench;
mod ffi;
mod harness;
mod program;

use std::process::ExitCode;

fn main() -> ExitCode {
    match std::env::args().nth(1).as_deref() {
        Some("test") => report(harness::test()),
        Some("pair") => report(program::test()),
        Some("bench") => {
            bench::run();
            ExitCode::SUCCESS
        }
        _ => {
            eprintln!("usage: compare test | pair | bench");
            ExitCode::FAILURE
        }
    }
}

fn report(outcome: Result<String, String>) -> ExitCode {
    match outcome {
        Ok(summary) => {
            print!("{summary}");
            ExitCode::SUCCESS
        }
        Err(difference) => {
            eprintln!("FAILED: {difference}");
            ExitCode::FAILURE
        }
    }
}

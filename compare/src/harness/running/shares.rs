//! Which kinds of records the scripts that ran hold, and what the runs did.

use compare::interface::Answer;
use compare::oracle::script::read;
use std::fmt::Write;

use crate::harness::tally::percent;
use crate::harness::Difference;

const KINDS: usize = 13;
/// Each kind is in at least so many of the scripts that ran, in percent.
const LEAST_OF_A_KIND: f64 = 5.0;
/// Each end of a run occurs at least so often.
const LEAST_OF_AN_END: f64 = 2.0;
/// An answer, a new row and a cut link occur at least so often.
const LEAST_OF_A_DEED: f64 = 10.0;
const ENDS: [(&str, u64); 4] = [("ended", 0), ("target", 7), ("items", 8), ("table", 10)];

#[derive(Default)]
pub struct Shares {
    runs: u64,
    kinds: [u64; KINDS],
    ends: [u64; ENDS.len()],
    answered: u64,
    made: u64,
    cut: u64,
}

impl Shares {
    /// Counts a run, unless it was refused before it began.
    pub fn count(&mut self, bytes: &[u8], answer: Answer, done: &[u64]) {
        let began = answer.number() == 0 || (answer.which() == 2 && answer.number() >= 7);
        let (true, Ok(script)) = (began, read(bytes)) else {
            return;
        };
        self.runs += 1;
        let mut held = [false; KINDS];
        for record in script.records() {
            held[usize::from(bytes[record.place]) - 1] = true;
        }
        for (kind, held) in self.kinds.iter_mut().zip(held) {
            *kind += u64::from(held);
        }
        for (count, (_, number)) in self.ends.iter_mut().zip(ENDS) {
            *count += u64::from(answer.number() == number);
        }
        self.answered += u64::from(done[0] > 0);
        self.made += u64::from(done[1] > 0);
        self.cut += u64::from(done[2] > 0);
    }

    /// The share of the runs with each end, and of those that answer or change
    /// something, and the least that each must be.
    fn of_runs(&self) -> impl Iterator<Item = (&'static str, f64, f64)> {
        let ends = ENDS.iter().zip(self.ends);
        let ends = ends.map(|(&(name, _), count)| (name, count, LEAST_OF_AN_END));
        let deeds = [
            ("answered", self.answered, LEAST_OF_A_DEED),
            ("made", self.made, LEAST_OF_A_DEED),
            ("cut", self.cut, LEAST_OF_A_DEED),
        ];
        let runs = self.runs;
        ends.chain(deeds)
            .map(move |(name, count, least)| (name, percent(count, runs), least))
    }

    /// The share of the scripts that hold each kind of record.
    fn of_kinds(&self) -> impl Iterator<Item = (usize, f64)> {
        let runs = self.runs;
        (1..).zip(self.kinds.map(|count| percent(count, runs)))
    }

    /// Refuses a test in which some kind, end or change is rare.
    pub fn require(&self) -> Result<(), Difference> {
        for (kind, percent) in self.of_kinds() {
            if percent < LEAST_OF_A_KIND {
                return Err(format!(
                    "only {percent:.2}% of the scripts hold kind {kind}"
                ));
            }
        }
        for (name, percent, least) in self.of_runs() {
            if percent < least {
                return Err(format!("only {percent:.2}% of the runs are '{name}'"));
            }
        }
        Ok(())
    }

    /// Two lines for the summary.
    pub fn lines(&self) -> String {
        let mut lines = format!("of {} runs that began", self.runs);
        for (name, percent, _) in self.of_runs() {
            write!(lines, ", {name}: {percent:.1}%").expect("a string takes all");
        }
        lines.push_str("\nscripts run that hold a kind:");
        for (kind, percent) in self.of_kinds() {
            write!(lines, " {kind:02X}: {percent:.0}%").expect("a string takes all");
        }
        lines.push('\n');
        lines
    }
}

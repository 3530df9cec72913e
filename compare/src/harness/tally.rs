//! How many inputs each call had, and what became of them.

use compare::interface::Answer;
use std::fmt::Write;

use super::Difference;

/// Numbers of refusals run from 1 to 11, of which 9 is retired; 0 counts what
/// was accepted.
const NUMBERS: usize = 12;
/// What the field `which` can be.
const WHICHES: usize = 3;
const CALLS: usize = 8;
/// Of the pairs of scripts analysed each answer has at least this share.
const LEAST_PERCENT: f64 = 5.0;
const ANALYSED: [&str; WHICHES] = ["free", "upward", "meet"];

/// The calls of the C interface.
#[derive(Clone, Copy, Debug, PartialEq, Eq)]
pub enum Call {
    Plan,
    Sweep,
    Script,
    WriteTable,
    SweepTable,
    Undo,
    Analyse,
    Run,
}

impl Call {
    pub const ALL: &'static [Call] = &[
        Call::Plan,
        Call::Sweep,
        Call::Script,
        Call::WriteTable,
        Call::SweepTable,
        Call::Undo,
        Call::Analyse,
        Call::Run,
    ];

    pub const fn name(self) -> &'static str {
        match self {
            Call::Plan => "yegnabit_plan",
            Call::Sweep => "yegnabit_sweep",
            Call::Script => "yegnabit_script",
            Call::WriteTable => "yegnabit_write_table",
            Call::SweepTable => "yegnabit_sweep_table",
            Call::Undo => "yegnabit_undo",
            Call::Analyse => "yegnabit_analyse",
            Call::Run => "yegnabit_run",
        }
    }

    /// What the inputs must bring about: each `which`, and the numbers with
    /// it, 0 being no refusal.
    const fn due(self) -> &'static [(usize, &'static [usize])] {
        match self {
            Call::Plan | Call::Sweep => &[(0, &[0, 11]), (1, &[1, 2, 4, 5, 6])],
            Call::Script => &[(0, &[0]), (2, &[1, 2, 3, 4, 5])],
            Call::WriteTable | Call::SweepTable => &[(0, &[0, 11]), (1, &[6])],
            Call::Undo => &[(0, &[0, 11]), (1, &[1, 2, 4, 5, 6]), (2, &[1, 2, 4, 5, 6])],
            Call::Analyse => &[
                (0, &[0]),
                (1, &[0, 1, 2, 3, 4, 5]),
                (2, &[0, 1, 2, 3, 4, 5]),
            ],
            Call::Run => &[
                (0, &[0, 11]),
                (1, &[1, 2, 4, 5, 6]),
                (2, &[1, 2, 3, 4, 5, 7, 8, 10]),
            ],
        }
    }
}

/// The share of a count in a total, which is 0 if that is.
pub fn percent(count: u64, total: u64) -> f64 {
    100.0 * count as f64 / total.max(1) as f64
}

#[derive(Default)]
pub struct Tally {
    counts: [[[u64; NUMBERS]; WHICHES]; CALLS],
}

impl Tally {
    pub fn count(&mut self, call: Call, answer: Answer) {
        let (which, number) = (answer.which() as usize, answer.number() as usize);
        self.counts[call as usize][which][number] += 1;
    }

    /// Counts what another tally has counted.
    pub fn add(&mut self, other: &Tally) {
        let ours = self.counts.iter_mut().flatten().flatten();
        for (count, more) in ours.zip(other.counts.iter().flatten().flatten()) {
            *count += more;
        }
    }

    /// Refuses a test whose inputs left some answer out.
    pub fn require_coverage(&self) -> Result<(), Difference> {
        for &call in Call::ALL {
            for &(which, numbers) in call.due() {
                for &number in numbers {
                    if self.counts[call as usize][which][number] == 0 {
                        let name = call.name();
                        let message = format!("no input of {name} gave {number}, which {which}");
                        return Err(message);
                    }
                }
            }
        }
        let mut shares = ANALYSED.iter().zip(self.analysed_percents());
        match shares.find(|(_, percent)| *percent < LEAST_PERCENT) {
            Some((name, percent)) => Err(format!("only {percent:.2}% of the pairs are {name}")),
            None => Ok(()),
        }
    }

    /// The shares of free, upward and meet among the pairs not refused.
    fn analysed_percents(&self) -> [f64; WHICHES] {
        let counts = self.counts[Call::Analyse as usize].map(|numbers| numbers[0]);
        let total = counts.iter().sum();
        counts.map(|count| percent(count, total))
    }

    /// A line for a call: inputs, and the share of each number.
    pub fn line(&self, call: Call) -> String {
        let counts = &self.counts[call as usize];
        let total: u64 = counts.iter().flatten().sum();
        let mut line = format!("{:<20} {total:>9} inputs:", call.name());
        for number in 0..NUMBERS {
            let count: u64 = counts.iter().map(|numbers| numbers[number]).sum();
            if count == 0 {
                continue;
            }
            let percent = percent(count, total);
            let label = match number {
                0 => "accepted".to_string(),
                _ => format!("refusal {number}"),
            };
            write!(line, " {label}: {percent:.2}%,").expect("a string takes all");
        }
        line.pop();
        if call == Call::Analyse {
            line.push_str("; of those accepted");
            for (name, percent) in ANALYSED.iter().zip(self.analysed_percents()) {
                write!(line, " {name}: {percent:.2}%,").expect("a string takes all");
            }
            line.pop();
        }
        line
    }
}

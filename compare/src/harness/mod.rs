//! Comparisons of the library with the oracle.

mod analysis;
mod area;
mod checker;
mod plans;
mod positions;
mod running;
mod scripts;
mod tables;
mod tally;
mod undoing;

use std::fmt::Write;

use checker::Checker;
use tally::Call;

/// A message about the first difference.
pub type Difference = String;

/// The environment variable that scales the number of random inputs.
const VOLUME_VARIABLE: &str = "YEGNABIT_VOLUME";

/// How many random inputs there are, 1 being the usual.
#[derive(Clone, Copy)]
pub struct Volume(f64);

impl Volume {
    fn from_environment() -> Result<Volume, Difference> {
        let Ok(text) = std::env::var(VOLUME_VARIABLE) else {
            return Ok(Volume(1.0));
        };
        match text.parse() {
            Ok(volume) if volume > 0.0 => Ok(Volume(volume)),
            _ => Err(format!(
                "{VOLUME_VARIABLE} is not a positive number: {text}"
            )),
        }
    }

    /// A usual number of inputs, scaled, at least 1.
    pub fn of(self, usual: usize) -> usize {
        ((usual as f64 * self.0) as usize).max(1)
    }
}

/// Calls `work` on a thread with a stack of this many bytes. What needs more
/// ends the program.
fn on_stack<T: Send>(bytes: usize, work: impl FnOnce() -> T + Send) -> T {
    std::thread::scope(|scope| {
        std::thread::Builder::new()
            .stack_size(bytes)
            .spawn_scoped(scope, work)
            .expect("a thread starts")
            .join()
            .expect("the library does not panic")
    })
}

/// A comparison by its name.
type Part = (
    &'static str,
    fn(&mut Checker, Volume) -> Result<(), Difference>,
);

/// The comparisons in two groups that take about as long, one for each core.
const GROUPS: [&[Part]; 2] = [
    &[
        ("plans", plans::test),
        ("scripts", scripts::test),
        ("tables", tables::test),
        ("undo", undoing::test),
        ("analysis", analysis::test),
        ("positions", positions::test),
    ],
    &[("runs", running::test)],
];

/// The stack of a group's thread, that of a program's first thread.
const GROUP_STACK: usize = 8 << 20;

/// Runs comparisons one after another; what was checked, and how long each took.
fn run(parts: &[Part], volume: Volume) -> Result<(Checker, String), Difference> {
    let mut checker = Checker::new();
    let mut times = String::new();
    for (name, part) in parts {
        let start = std::time::Instant::now();
        part(&mut checker, volume)?;
        let seconds = start.elapsed().as_secs_f64();
        writeln!(times, "{name}: {seconds:.1} s").expect("a string takes all");
    }
    Ok((checker, times))
}

/// Runs all comparisons and answers a summary, or the first difference.
pub fn test() -> Result<String, Difference> {
    let volume = Volume::from_environment()?;
    let [most, runs] = GROUPS;
    let (most, runs) = std::thread::scope(|scope| {
        let most = scope.spawn(move || on_stack(GROUP_STACK, || run(most, volume)));
        let runs = on_stack(GROUP_STACK, || run(runs, volume));
        (most.join().expect("the library does not panic"), runs)
    });
    let ((mut checker, mut summary), (runs, times)) = (most?, runs?);
    checker.tally.add(&runs.tally);
    checker.notes.push_str(&runs.notes);
    summary.push_str(&times);
    checker.tally.require_coverage()?;
    for &call in Call::ALL {
        writeln!(summary, "{}", checker.tally.line(call)).expect("a string takes all");
    }
    summary.push_str(&checker.notes);
    summary.push_str("no difference\n");
    Ok(summary)
}

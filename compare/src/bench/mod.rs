//! The library and the rival measured in one process, in turn.

mod runs;
mod turns;

use std::hint::black_box;
use std::time::{Duration, Instant};

use compare::generate::document01::{SCRIPT_A, SCRIPT_B};
use compare::generate::histories::{self, Recorded};
use compare::generate::pairs::{most_deletes, most_paths, most_steps};
use compare::generate::plans::full_table;
use compare::generate::random::Random;
use compare::generate::scripts::{script, Wanted};
use compare::interface::Answer;
use compare::oracle::limits::PLAN_BYTES;
use compare::oracle::plan::to_vec;
use compare::oracle::script::{Axis, Operation, Test};
use compare::oracle::table::Table;
use compare::raw::RawTable;
use compare::rival::calls;

use crate::ffi;

const SEED: u64 = 0x31;
/// Rounds of each side; the median counts.
const ROUNDS: usize = 51;
/// How long one round of the library lasts at least.
const ROUND_TIME: Duration = Duration::from_millis(4);

/// A call to measure, on either side.
type Side<'a> = Box<dyn FnMut() -> Answer + 'a>;

struct Case<'a> {
    name: &'static str,
    /// The number that both sides must answer.
    number: u64,
    library: Side<'a>,
    rival: Side<'a>,
}

/// Measures all cases and prints a table.
pub fn run() {
    let mut random = Random::new(SEED);
    let full = to_vec(&full_table(&mut random));
    assert_eq!(full.len(), PLAN_BYTES);
    // The last mark repeats the row of the one before it.
    let mut refused = full.clone();
    refused[PLAN_BYTES - 2] = refused[PLAN_BYTES - 6];
    let bytes = full_script(&mut random);

    println!("| case | library ns | rival ns | ratio |");
    println!("|---|---|---|---|");
    let back: (OnPlan, OnPlan) = (ffi::plan, calls::plan);
    let sweep: (OnPlan, OnPlan) = (ffi::sweep, calls::sweep);
    measure(plan_case("plan of 512 rows, 8 marks", 0, &full, back));
    measure(plan_case(
        "plan refused at its last record",
        6,
        &refused,
        back,
    ));
    measure(write_case(
        "table of 512 rows handed in, written",
        &full_table(&mut Random::new(SEED)),
    ));
    measure(plan_case("sweep of 512 rows, half kept", 0, &full, sweep));
    measure(Case {
        name: "script of 64 records",
        number: 0,
        library: Box::new(|| ffi::script(black_box(&bytes))),
        rival: Box::new(|| calls::script(black_box(&bytes))),
    });
    undo(&mut random);
    analysis();
    runs::measure_runs();
    turns::measure_turns();
}

/// A history that makes some 500 rows and cuts some links, taken back whole;
/// the same with the first of its records, checked last, made wrong.
fn undo(random: &mut Random) {
    let Recorded { after, history, .. } = histories::long(random);
    let after = to_vec(&after);
    let mut misfit = history.clone();
    misfit[3] ^= 0x80;
    let name = "undo of some 500 rows made, with cuts";
    measure(undo_case(name, 0, &after, &history));
    let name = "undo refused at the record looked at last";
    measure(undo_case(name, 6, &after, &misfit));
}

fn undo_case<'a>(name: &'static str, number: u64, plan: &'a [u8], history: &'a [u8]) -> Case<'a> {
    let (mut ours, mut theirs) = ([0; PLAN_BYTES], [0; PLAN_BYTES]);
    Case {
        name,
        number,
        library: Box::new(move || {
            ffi::undo(black_box(plan), black_box(history), black_box(&mut ours))
        }),
        rival: Box::new(move || {
            calls::undo(black_box(plan), black_box(history), black_box(&mut theirs))
        }),
    }
}

/// The path analysis. The worst pairs have 64 records on both sides, with eight
/// binders, 48 steps or 55 deletes. Four uses of each of eight variables would
/// take 65 records, so the last ones have fewer.
fn analysis() {
    let steps = [(Axis::Descendant, Test::AnyElement)];
    let delete = Operation::Delete;
    let to_leaves = Operation::Step(Axis::Descendant, Test::AnyLeaf);
    let to_elements = Operation::Step(Axis::Child, Test::AnyElement);
    // The same paths from other documents: apart only where they start.
    let [here, there] = [0, 1].map(|document| most_paths(document, &steps, &[delete]));
    let [chains, chains_there] = [0, 1].map(|document| most_steps(document, &steps, &[delete]));
    let [cuts, cuts_there] = [0, 1].map(most_deletes);
    // The same paths to rows of another kind: apart only where they end.
    let cut_leaves = most_paths(0, &steps, &[delete, to_leaves]);
    let read_elements = most_paths(0, &steps, &[to_elements]);
    let cut_chains = most_steps(0, &steps, &[delete, to_leaves]);
    let read_chains = most_steps(0, &steps, &[to_elements]);
    let refused = &there[..there.len() - 1];
    let cases: [(_, _, [&[u8]; 2]); 9] = [
        ("analysis, binders, apart at start", 0, [&here, &there]),
        (
            "analysis, binders, apart at end",
            0,
            [&cut_leaves, &read_elements],
        ),
        ("analysis, binders, met", 0, [&here, &here]),
        (
            "analysis, 48 steps, apart at start",
            0,
            [&chains, &chains_there],
        ),
        (
            "analysis, 48 steps, apart at end",
            0,
            [&cut_chains, &read_chains],
        ),
        ("analysis, 48 steps, met", 0, [&chains, &chains]),
        (
            "analysis, 55 deletes, apart at start",
            0,
            [&cuts, &cuts_there],
        ),
        ("analysis, typical, free", 0, [&SCRIPT_A, &SCRIPT_B]),
        ("analysis, second refused at its end", 2, [&here, refused]),
    ];
    for (name, number, [first, second]) in cases {
        measure(Case {
            name,
            number,
            library: Box::new(move || ffi::analyse(black_box(first), black_box(second))),
            rival: Box::new(move || calls::analyse(black_box(first), black_box(second))),
        });
    }
}

/// A call that reads a plan and writes one.
type OnPlan = fn(&[u8], &mut [u8]) -> Answer;

fn plan_case<'a>(
    name: &'static str,
    number: u64,
    plan: &'a [u8],
    (library, rival): (OnPlan, OnPlan),
) -> Case<'a> {
    let (mut ours, mut theirs) = ([0; PLAN_BYTES], [0; PLAN_BYTES]);
    Case {
        name,
        number,
        library: Box::new(move || library(black_box(plan), black_box(&mut ours))),
        rival: Box::new(move || rival(black_box(plan), black_box(&mut theirs))),
    }
}

/// A table handed in packed, checked and written.
fn write_case(name: &'static str, table: &Table) -> Case<'static> {
    let (mut ours, mut theirs) = ([0; PLAN_BYTES], [0; PLAN_BYTES]);
    let (raw, same) = (RawTable::of(table), RawTable::of(table));
    Case {
        name,
        number: 0,
        library: Box::new(move || {
            ffi::write_table(
                raw.count,
                black_box(&raw.rows),
                &raw.marks,
                black_box(&mut ours),
            )
        }),
        rival: Box::new(move || {
            calls::write_table(
                same.count,
                black_box(&same.rows),
                &same.marks,
                black_box(&mut theirs),
            )
        }),
    }
}

/// A script at all limits.
fn full_script(random: &mut Random) -> Vec<u8> {
    let wanted = Wanted {
        upward: 20,
        unsurveyed: 0,
        common: 0,
        names: 8,
        ..Wanted::AT_LIMITS
    };
    script(random, wanted)
}

fn measure(mut case: Case<'_>) {
    assert_eq!((case.library)(), (case.rival)(), "{}", case.name);
    assert_eq!((case.rival)().number(), case.number, "{}", case.name);
    let mut calls = 1;
    while time(&mut case.library, calls) < ROUND_TIME {
        calls *= 2;
    }
    let mut library = Vec::with_capacity(ROUNDS);
    let mut rival = Vec::with_capacity(ROUNDS);
    for _ in 0..ROUNDS {
        library.push(time(&mut case.library, calls));
        rival.push(time(&mut case.rival, calls));
    }
    let nanoseconds = |times: Vec<Duration>| median(times).as_nanos() as f64 / calls as f64;
    let (library, rival) = (nanoseconds(library), nanoseconds(rival));
    let ratio = library / rival;
    println!("| {} | {library:.0} | {rival:.0} | {ratio:.2} |", case.name);
}

fn time(side: &mut Side<'_>, calls: u32) -> Duration {
    let start = Instant::now();
    for _ in 0..calls {
        black_box(side());
    }
    start.elapsed()
}

fn median(mut times: Vec<Duration>) -> Duration {
    times.sort_unstable();
    times[times.len() / 2]
}

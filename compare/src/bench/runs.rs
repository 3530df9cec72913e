//! Runs: what a step, a pick, a loop, deletes and inserts cost on full plans,
//! each with reading the plan and writing it back.

use std::hint::black_box;

use compare::generate::edges::{doubling, CUT_BELOW};
use compare::generate::plans::{star, star_of};
use compare::interface::Areas;
use compare::oracle::limits::ROWS;
use compare::oracle::pick::NOT_SURVEYED;
use compare::oracle::plan::to_vec;
use compare::oracle::script::kind;
use compare::oracle::table::{Row, Table};
use compare::rival::calls;

use super::{measure, undo_case, Case};
use crate::ffi;

/// Rows of the subtree that is inserted.
const SUBTREE: usize = 250;
/// Rows of the plan for loops over all pairs.
const SHORT: usize = 128;
const ROOT: [u8; 2] = [kind::DOCUMENT, 0];

pub fn measure_runs() {
    let (chain, star) = (to_vec(&chain()), to_vec(&star(ROWS)));
    let below = [&[kind::STEP, 1, 0, 0][..], &ROOT].concat();
    let children = [&[kind::STEP, 0, 0, 0][..], &ROOT].concat();
    let pick = [kind::PICK, 2, 0x80];
    let step_of_item = [kind::STEP, 0, 0, 0, kind::VARIABLE, 0];
    let delete = [&[kind::DELETE][..], &below].concat();
    let no_target = [kind::INSERT, kind::EMPTY, kind::EMPTY];
    let subtree = [kind::STEP, 0, 3, 2, kind::DOCUMENT, 0];
    measure(run_case(
        "run, empty value on an empty plan",
        0,
        &[],
        &[kind::EMPTY],
    ));
    measure(run_case(
        "run, empty value on 512 rows",
        0,
        &chain,
        &[kind::EMPTY],
    ));
    measure(run_case(
        "run, descendant step over 512 rows, in a row",
        0,
        &chain,
        &below,
    ));
    measure(run_case(
        "run, descendant step over 512 rows, side by side",
        0,
        &star,
        &below,
    ));
    let picked = [&pick[..], &children].concat();
    measure(run_case("run, pick over 511 leaves", 0, &star, &picked));
    let often = [&pick.repeat(12)[..], &children].concat();
    measure(run_case(
        "run, twelve picks over 511 leaves",
        0,
        &star,
        &often,
    ));
    let less = [&[kind::PICK, 1, 127][..], &children].concat();
    measure(run_case(
        "run, pick of less over 511 leaves, some not surveyed",
        0,
        &to_vec(&mixed()),
        &less,
    ));
    let each = [&[kind::FOR][..], &below, &step_of_item].concat();
    measure(run_case(
        "run, for over 511 items with a step",
        0,
        &chain,
        &each,
    ));
    nested_loops(&chain, &below, &step_of_item);
    loops(&star, &below);
    measure(run_case("run, delete of 511 rows", 0, &star, &delete));
    let insert = [&[kind::INSERT][..], &subtree, &[kind::DOCUMENT, 1]].concat();
    let forest = to_vec(&forest());
    measure(run_case(
        "run, insert of a subtree of 250 rows",
        0,
        &forest,
        &insert,
    ));
    let most_records = doubling(9, &[&CUT_BELOW]);
    measure(run_case(
        "run, 512 rows made and 511 cut, the most records",
        0,
        &[],
        &most_records,
    ));
    let late = [&[kind::JOIN][..], &delete, &no_target].concat();
    measure(run_case("run refused after 511 cuts", 7, &star, &late));
    undo_of_run(&star, &delete);
}

/// Loops in loops: over the children of each of 511 items, with a step; and
/// over all rows for each of 127, with a step that finds nothing.
fn nested_loops(chain: &[u8], below: &[u8], step_of_item: &[u8]) {
    let step_of_inner = [kind::STEP, 0, 0, 0, kind::VARIABLE, 1];
    let each = [&[kind::FOR][..], below, &[kind::FOR], step_of_item].concat();
    let children = [&each[..], &step_of_inner].concat();
    measure(run_case(
        "run, for in for, children of 511 items, with a step",
        0,
        chain,
        &children,
    ));
    let short = to_vec(&star(SHORT));
    let pairs = [&[kind::FOR][..], below, &[kind::FOR], below].concat();
    let none = [&pairs[..], &step_of_inner].concat();
    measure(run_case(
        "run, for in for over 127 items each, with a step",
        0,
        &short,
        &none,
    ));
}

/// Loops over leaves: to the parent of each, and with changes of the plan.
fn loops(full: &[u8], below: &[u8]) {
    let half = to_vec(&star(ROWS / 2));
    let cases: [(_, _, &[u8]); 3] = [
        (
            "run, for over 511 items with a parent step",
            full,
            &[kind::STEP, 2, 0, 0, kind::VARIABLE, 0],
        ),
        (
            "run, for over 511 items, each deleted",
            full,
            &[kind::DELETE, kind::VARIABLE, 0],
        ),
        (
            "run, for over 255 items, each inserted",
            &half,
            &[kind::INSERT, kind::VARIABLE, 0, kind::DOCUMENT, 0],
        ),
    ];
    for (name, plan, body) in cases {
        let script = [&[kind::FOR][..], below, body].concat();
        measure(run_case(name, 0, plan, &script));
    }
}

/// The history of 511 cuts taken back.
fn undo_of_run(plan: &[u8], script: &[u8]) {
    let mut areas = Areas::holding(0);
    assert_eq!(calls::run(plan, script, areas.lend()).number(), 0);
    let [.., history_length, length] = areas.done[..] else {
        panic!("a run hands back numbers");
    };
    let history = &areas.history[..history_length as usize];
    let after = &areas.out[..length as usize];
    measure(undo_case("undo of 511 cuts", 0, after, history));
}

fn run_case<'a>(name: &'static str, number: u64, plan: &'a [u8], script: &'a [u8]) -> Case<'a> {
    let (mut ours, mut theirs) = (Areas::holding(0), Areas::holding(0));
    Case {
        name,
        number,
        library: Box::new(move || {
            ffi::run(
                black_box(plan),
                black_box(script),
                black_box(&mut ours).lend(),
            )
        }),
        rival: Box::new(move || {
            calls::run(
                black_box(plan),
                black_box(script),
                black_box(&mut theirs).lend(),
            )
        }),
    }
}

/// 511 leaves of many values below a root; every fourth is not surveyed.
fn mixed() -> Table {
    star_of((1..ROWS).map(|number| match number % 4 {
        0 => NOT_SURVEYED,
        _ => (37 * number) as i8,
    }))
}

/// Each row below the one before it.
fn chain() -> Table {
    let mut table = Table::default();
    table.rows.push(Row::element(1, None));
    for number in 1..ROWS as u16 {
        table.rows.push(Row::element(2, Some(number - 1)));
    }
    table.marks[0] = Some(0);
    table
}

/// Document 0's root has one child, named 2, with a subtree of 250 rows, of
/// which every eighth is an element; document 1 marks another root.
fn forest() -> Table {
    let mut table = Table::default();
    table.rows.push(Row::element(1, None));
    table.rows.push(Row::element(1, None));
    table.rows.push(Row::element(2, Some(0)));
    for below in 1..SUBTREE as u16 {
        let parent = Some(2 + (below - 1) / 8 * 8);
        table.rows.push(match below % 8 {
            0 => Row::element(3, parent),
            _ => Row::leaf(1, parent),
        });
    }
    table.marks[0] = Some(0);
    table.marks[1] = Some(1);
    table
}

//! Plans and scripts for runs that do something: rows cut that are there,
//! variables used after a delete, copies of copies, new elements with content,
//! loops that update what they walk, tables that become full and values that
//! grow too long.

use super::coherent::coherent;
use super::plans::{self, Shape};
use super::random::Random;
use super::scripts::{self, Wanted};
use super::values;
use crate::oracle::limits::ROWS;
use crate::oracle::script::{kind, read, Operation};
use crate::oracle::table::Table;

/// Names are 1 to this, and documents 0 to one less.
pub const NAMES: u8 = 3;
pub const DOCUMENTS: u8 = 3;
/// Of plans with more rows than this, one loop is walked at a time.
const ONE_LOOP: usize = 60;
/// Of plans with more rows than this, two loops.
const TWO_LOOPS: usize = 8;

/// A plan and a script to run on it.
pub struct Case {
    pub plan: Table,
    pub script: Vec<u8>,
}

/// Any case. Most scripts are accepted, and most of these change the plan.
pub fn case(random: &mut Random) -> Case {
    if random.chance(40) {
        return Case {
            plan: one_tree(random),
            script: on_one_tree(random),
        };
    }
    let plan = plan(random);
    let script = match random.below(10) {
        0 => any_script(random, plan.rows.len()),
        _ => coherent(random, plan.rows.len()),
    };
    Case { plan, script }
}

/// A script that grows what is below document 0, cuts some of it, or both.
fn on_one_tree(random: &mut Random) -> Vec<u8> {
    let (cut, grow) = (cutting(random), growing(random));
    match random.below(8) {
        0 | 1 => grow,
        2 => [&[kind::JOIN][..], &grow, &cut].concat(),
        3 => [&[kind::JOIN][..], &cut, &grow].concat(),
        _ => cut,
    }
}

/// A plan most of whose rows are below document 0.
fn one_tree(random: &mut Random) -> Table {
    let count = random.choose(&[12, 40, 120, 200, 300, ROWS]);
    let count = random.between(count / 2, count);
    let shape = Shape {
        leaves: random.choose(&[10, 40, 70]),
        roots: 0,
        marked: 100,
        names: NAMES,
        ..Shape::random(random)
    };
    let mut table = plans::table(random, count, shape);
    mark_largest(&mut table);
    table
}

/// A well-formed plan whose documents mark rows, often nearly full.
pub fn plan(random: &mut Random) -> Table {
    let count = match random.below(10) {
        0..=3 => random.between(1, 12),
        4 | 5 => random.between(0, 60),
        6 => random.between(60, ROWS),
        _ => random.between(ROWS - 12, ROWS),
    };
    let shape = Shape {
        leaves: random.choose(&[10, 40, 70]),
        roots: random.choose(&[0, 2, 20]),
        marked: random.choose(&[60, 100, 100]),
        names: NAMES,
        ..Shape::random(random)
    };
    let mut table = plans::table(random, count, shape);
    if random.chance(80) {
        mark_largest(&mut table);
    }
    table
}

/// Lets document 0 mark the root with the most rows below it.
pub fn mark_largest(table: &mut Table) {
    let mut sizes = vec![1usize; table.rows.len()];
    for number in (0..table.rows.len()).rev() {
        if let Some(parent) = table.rows[number].parent() {
            sizes[usize::from(parent)] += sizes[number];
        }
    }
    let roots = (0..table.rows.len()).filter(|&number| table.rows[number].is_root());
    let Some(largest) = roots.max_by_key(|&number| sizes[number]) else {
        return;
    };
    let largest = Some(largest as u16);
    for mark in table.marks.iter_mut() {
        if *mark == largest {
            *mark = None;
        }
    }
    table.marks[0] = largest;
}

/// A script whose parts are not made to fit, with loops that the rows allow.
fn any_script(random: &mut Random, rows: usize) -> Vec<u8> {
    loop {
        let wanted = Wanted {
            names: NAMES,
            ..Wanted::random(random)
        };
        let bytes = scripts::script(random, wanted);
        if loops(&bytes) <= most_loops(rows) {
            return bytes;
        }
    }
}

/// What is below a document is copied under it again and again, or joined to
/// itself again and again.
fn growing(random: &mut Random) -> Vec<u8> {
    let test = random.choose(&[0, 0, 1, 2]);
    let below = [kind::STEP, 1, test, 0, kind::DOCUMENT, 0];
    let insert = [&[kind::INSERT][..], &below, &[kind::DOCUMENT, 0]].concat();
    let times = random.between(1, 5);
    match random.below(3) {
        0 => [vec![kind::JOIN; times], insert.repeat(times + 1)].concat(),
        1 => [vec![kind::JOIN; times], below.repeat(times + 1)].concat(),
        _ => [&[kind::FOR][..], &below, &below].concat(),
    }
}

/// Rows below a document, or leaves picked from them, are cut from their
/// parents: all at once, one by one, after others, or bound and then used
/// again, copied or walked from.
fn cutting(random: &mut Random) -> Vec<u8> {
    let mut below = || {
        let test = random.choose(&[0, 0, 1, 2, 3]);
        let name = if test == 3 {
            random.between(1, NAMES.into())
        } else {
            0
        };
        let axis = random.below(2) as u8;
        let step = [kind::STEP, axis, test, name as u8, kind::DOCUMENT, 0];
        let leaves = matches!(test, 0 | 2);
        match leaves && random.chance(40) {
            true => [&values::pick(random, values::COMMON)[..], &step].concat(),
            false => step.to_vec(),
        }
    };
    let (rows, others) = (below(), below());
    let variable = [kind::VARIABLE, 0];
    let delete = |what: &[u8]| [&[kind::DELETE][..], what].concat();
    let children = [&[kind::STEP, 0, 0, 0][..], &variable].concat();
    // What a binder does with the rows, or with each of them.
    let body = match random.below(5) {
        0 => delete(&variable),
        1 => delete(&children),
        2 => [&[kind::JOIN][..], &delete(&variable), &children].concat(),
        3 => [&[kind::JOIN][..], &delete(&variable), &others].concat(),
        _ => {
            let copy = [&[kind::INSERT][..], &variable, &[kind::DOCUMENT, 0]].concat();
            [&[kind::JOIN][..], &delete(&variable), &copy].concat()
        }
    };
    match random.below(4) {
        0 => delete(&rows),
        1 => [&[kind::JOIN][..], &delete(&rows), &delete(&others)].concat(),
        2 => [&[kind::FOR][..], &rows, &body].concat(),
        _ => [&[kind::LET][..], &rows, &body].concat(),
    }
}

/// How many loops a script holds, none where it is refused.
pub fn loops(bytes: &[u8]) -> usize {
    read(bytes).map_or(0, |script| {
        let records = script.records().into_iter();
        records
            .filter(|record| record.operation == Operation::For)
            .count()
    })
}

/// How many loops may be nested on a plan of so many rows.
pub fn most_loops(rows: usize) -> usize {
    if rows > ONE_LOOP {
        1
    } else if rows > TWO_LOOPS {
        2
    } else {
        3
    }
}

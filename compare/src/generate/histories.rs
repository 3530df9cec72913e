//! Histories, with the tables before and after them.

use super::chains;
use super::pairs::{with_bodies, Bodies};
use super::plans::{self, Shape};
use super::random::Random;
use super::scripts::{script, Wanted};
use crate::oracle::history::Record;
use crate::oracle::limits::ROWS;
use crate::oracle::run::{run, OwnedAreas};
use crate::oracle::script::kind;
use crate::oracle::table::{Row, Table};

/// How often another script is tried when one does nothing.
const TRIES: usize = 12;

/// A history and the tables it leads from and to.
#[derive(Clone, Debug)]
pub struct Recorded {
    pub before: Table,
    pub after: Table,
    pub history: Vec<u8>,
}

impl Recorded {
    /// No history, and so the same table after it.
    fn unchanged(table: Table) -> Recorded {
        Recorded {
            after: table.clone(),
            before: table,
            history: Vec::new(),
        }
    }
}

/// The history of a run of a random script on a random table.
pub fn of_run(random: &mut Random, areas: &mut OwnedAreas) -> Recorded {
    let mut recorded = Recorded::unchanged(table(random));
    for _ in 0..TRIES {
        let script = changing(random);
        let mut after = recorded.before.clone();
        if let Ok(ran) = run(&mut after, &script, areas.lend()) {
            recorded.after = after;
            recorded.history = areas.history[..ran.history_length].to_vec();
            if ran.tally.records_written > 1 {
                break;
            }
        }
    }
    recorded
}

/// A well-formed table, with some rows left for a run, and a document 0 if
/// it has elements.
fn table(random: &mut Random) -> Table {
    let count = plans::row_count(random).min(ROWS);
    let shape = Shape {
        marked: random.choose(&[40, 100]),
        names: 3,
        ..Shape::random(random)
    };
    plans::table(random, count, shape)
}

/// A script that often changes something.
fn changing(random: &mut Random) -> Vec<u8> {
    match random.below(4) {
        0 => {
            let wanted = Wanted {
                records: random.between(4, 40),
                depth: random.between(3, 12),
                ..Wanted::small(random)
            };
            let bytes = script(random, wanted);
            let bodies = Bodies {
                updates: 100,
                descendants: 50,
                named: 20,
                names: 3,
                documents: (0, 2),
                upward: 20,
            };
            with_bodies(random, &bytes, bodies)
        }
        1 => {
            // For each row of a chain: an update of document 0, or a delete of it.
            let chain = chains::chain(random, 1);
            let update = match random.below(2) {
                0 => chains::update(random, 1),
                _ => vec![kind::DELETE, kind::VARIABLE, 0],
            };
            [&[kind::FOR][..], &chain, &update].concat()
        }
        _ => {
            let parts = random.between(1, 4);
            let mut bytes = vec![kind::JOIN; parts];
            for _ in 0..=parts {
                bytes.extend(chains::update(random, 2));
            }
            bytes
        }
    }
}

/// A history of random changes, made on a random table.
pub fn of_changes(random: &mut Random) -> Recorded {
    let changes = random.choose(&[1, 2, 3, 5, 12, 40]);
    let cuts = random.choose(&[10, 50, 90]);
    let before = table(random);
    changed(random, before, changes, cuts)
}

/// A history that fills a table of a few rows, with some cuts.
pub fn long(random: &mut Random) -> Recorded {
    let shape = Shape {
        leaves: 30,
        unsurveyed: 0,
        marked: 100,
        ..Shape::random(random)
    };
    let before = plans::table(random, 8, shape);
    changed(random, before, 600, 15)
}

/// Applies random changes, of which so many percent are cuts.
fn changed(random: &mut Random, before: Table, changes: usize, cuts: usize) -> Recorded {
    let mut recorded = Recorded::unchanged(before);
    for _ in 0..changes {
        let rows = recorded.after.rows.len();
        if random.chance(cuts) && rows > 0 {
            let number = random.below(rows) as u16;
            let row = &mut recorded.after.rows[usize::from(number)];
            if let Some(old) = row.parent() {
                *row = row.with_parent(None);
                let old = Some(old);
                append(&mut recorded.history, Record::Cut { number, old });
            }
        } else if rows < ROWS {
            let row = new_row(random, &recorded.after);
            recorded.after.rows.push(row);
            let number = rows as u16;
            append(&mut recorded.history, Record::Made { number, row });
        }
    }
    recorded
}

fn new_row(random: &mut Random, table: &Table) -> Row {
    let rows = table.rows.len();
    let parent = (rows > 0)
        .then(|| random.below(rows) as u16)
        .filter(|&parent| table.rows[usize::from(parent)].is_element() && random.chance(85));
    if random.chance(30) {
        Row::leaf(random.byte() as i8, parent)
    } else {
        Row::element(random.between(1, 3) as u8, parent)
    }
}

/// Appends the bytes of a record.
pub fn append(history: &mut Vec<u8>, record: Record) {
    history.extend(record.to_vec());
}

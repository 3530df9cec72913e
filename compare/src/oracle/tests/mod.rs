//! Tests of the oracle. Expected values come from the documents by hand.

mod brute;
mod cases;
mod lent;
mod longest;
mod meetings;
mod methods;
mod paths;
mod properties;
mod readers;
mod undoing;
mod worked;

use crate::generate::document01::{
    CHILDREN_NAMED_2, CHILDREN_NAMED_3, DESCENDANT_LEAVES, PLAN_P, SCRIPT_A, SCRIPT_B,
};

use super::refusal::Refusal;
use super::run::{run, OwnedAreas, Ran};
use super::table::Table;
use super::{history, plan};

/// What a run left.
#[derive(Debug)]
struct Left {
    table: Table,
    answer: Vec<u16>,
    history: Vec<u8>,
    ran: Ran,
}

impl Left {
    fn records(&self) -> Vec<history::Record> {
        history::records(&self.history).expect("the form is right")
    }
}

/// Runs a script on a table in areas of the stated lengths.
fn run_on(table: &Table, script: &[u8]) -> Result<Left, Refusal> {
    let mut areas = OwnedAreas::default();
    let mut table = table.clone();
    let ran = run(&mut table, script, areas.lend())?;
    Ok(Left {
        table,
        answer: areas.answer[..ran.items].to_vec(),
        history: areas.history[..ran.history_length].to_vec(),
        ran,
    })
}

fn table_p() -> Table {
    plan::read(&PLAN_P).expect("P is a plan")
}

fn run_on_p(script: &[u8]) -> Result<Left, Refusal> {
    run_on(&table_p(), script)
}

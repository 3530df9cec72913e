//! Document 01, 'The two orders': two scripts run one after the other, either
//! way.

use super::history::{self, Record};
use super::path::Which;
use super::refusal::Refusal;
use super::run::{run, OwnedAreas};
use super::table::{Row, Table};

/// What one script did in an order.
#[derive(Clone, Debug, Default, PartialEq, Eq)]
pub struct Part {
    pub answer: Vec<u16>,
    pub history: Vec<Record>,
    pub rows_made: usize,
}

/// An order that ended without refusal.
#[derive(Clone, Debug, PartialEq, Eq)]
pub struct Order {
    pub first: Part,
    pub second: Part,
    pub table: Table,
}

/// Runs two scripts, `leader` before the other, starting from a table. "The
/// second run gets the table as the first left it." "An order ends without
/// refusal when neither of its runs is refused."
pub fn run_order(
    table: &Table,
    first: &[u8],
    second: &[u8],
    leader: Which,
    areas: &mut OwnedAreas,
) -> Result<Order, (Which, Refusal)> {
    let mut order = Order {
        first: Part::default(),
        second: Part::default(),
        table: table.clone(),
    };
    let sequence = match leader {
        Which::First => [Which::First, Which::Second],
        Which::Second => [Which::Second, Which::First],
    };
    for which in sequence {
        let (script, part) = match which {
            Which::First => (first, &mut order.first),
            Which::Second => (second, &mut order.second),
        };
        let ran =
            run(&mut order.table, script, areas.lend()).map_err(|refusal| (which, refusal))?;
        part.answer = areas.answer[..ran.items].to_vec();
        part.history = history::records(&areas.history[..ran.history_length])
            .expect("a run writes records of the right form");
        part.rows_made = ran.tally.rows_made;
    }
    Ok(order)
}

/// Are the orders first-second and second-first equal, once the rows that each
/// script made are matched? Both started from a table of `n` rows.
pub fn orders_are_equal(n: usize, one_two: &Order, two_one: &Order) -> bool {
    // Demand 3: "each script makes as many new rows in both orders".
    let [of_first, of_second] = [one_two.first.rows_made, one_two.second.rows_made];
    if [two_one.first.rows_made, two_one.second.rows_made] != [of_first, of_second] {
        return false;
    }
    let matches = Matches::new(n, of_first, of_second);
    // "Answers are equal when they have the same length and matching rows at
    // each place. Histories are equal when they have as many records and at
    // each place the same kind, the same names or values, and matching rows
    // and parents."
    let parts_are_equal = |part: &Part, other: &Part| {
        let answer = part.answer.iter().map(|&number| matches.number(number));
        let history = part.history.iter().map(|&record| matches.record(record));
        answer.eq(other.answer.iter().copied()) && history.eq(other.history.iter().copied())
    };
    // "Plans are equal when they have as many rows, matching rows have the
    // same kind, the same name or value and matching parents, and each
    // document marks matching rows or none in both."
    let (plan, other) = (&one_two.table, &two_one.table);
    let rows_are_equal = plan.rows.len() == other.rows.len()
        && (0u16..)
            .zip(&plan.rows)
            .all(|(number, &row)| other.row(matches.number(number)) == Some(matches.row(row)));
    let marks = plan.marks.map(|mark| mark.map(|row| matches.number(row)));
    parts_are_equal(&one_two.first, &two_one.first)
        && parts_are_equal(&one_two.second, &two_one.second)
        && rows_are_equal
        && marks == other.marks
}

/// For each row of one-two, in rising number, the row of two-one it matches.
struct Matches(Vec<usize>);

impl Matches {
    /// "A script's k-th new row, from 0, has the number n, plus the new rows
    /// that earlier runs of that order made, plus k. It matches the script's
    /// k-th new row in the other order; a row below n matches itself."
    fn new(n: usize, of_first: usize, of_second: usize) -> Matches {
        let first = (0..of_first).map(|k| n + of_second + k);
        let second = (0..of_second).map(|k| n + k);
        Matches((0..n).chain(first).chain(second).collect())
    }

    fn number(&self, number: u16) -> u16 {
        self.0[usize::from(number)] as u16
    }

    /// A row with its parent matched; "none matches none".
    fn row(&self, row: Row) -> Row {
        row.with_parent(row.parent().map(|parent| self.number(parent)))
    }

    fn record(&self, record: Record) -> Record {
        match record {
            Record::Made { number, row } => Record::Made {
                number: self.number(number),
                row: self.row(row),
            },
            Record::Cut { number, old } => Record::Cut {
                number: self.number(number),
                old: old.map(|parent| self.number(parent)),
            },
        }
    }
}

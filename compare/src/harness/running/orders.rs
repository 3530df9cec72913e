//! Demand 3 as a test: free scripts run in both orders.

use compare::generate::chains;
use compare::generate::coherent::coherent;
use compare::generate::pairs;
use compare::generate::plans::{self, Shape};
use compare::generate::random::Random;
use compare::generate::runs::{loops, mark_largest};
use compare::interface::Answer;
use compare::oracle::analysis;
use compare::oracle::history;
use compare::oracle::limits::ROWS;
use compare::oracle::orders::{orders_are_equal, Order, Part};
use compare::oracle::plan::{read, to_vec};
use compare::oracle::table::Table;

use super::check::{Left, Runs};
use crate::harness::checker::difference;
use crate::harness::tally::{percent, Call};
use crate::harness::{Difference, Volume};

/// Of the free pairs in which both scripts change the plan, of those that are
/// refused, and of those that end and pick from leaves not surveyed, there are
/// at least so many in a hundred free ones.
const LEAST_PERCENT: f64 = 2.0;
/// The rows of a plan on which loops may be nested.
const FEW_ROWS: usize = 12;

#[derive(Default)]
struct Counts {
    free: u64,
    both_changed: u64,
    refused: u64,
    /// Ended, with a pick over a leaf not surveyed.
    unsurveyed: u64,
}

/// Tries many pairs, and answers a line on the free ones.
pub fn test(
    runs: &mut Runs<'_>,
    random: &mut Random,
    volume: Volume,
) -> Result<String, Difference> {
    let mut counts = Counts::default();
    for _ in 0..volume.of(60_000) {
        let plan = plan(random);
        let [first, second] = pair(random, plan.rows.len());
        let free = Answer::analysed(analysis::Answer::Free);
        if runs.checker.analyse(&first, &second)? == free {
            both_orders(runs, &plan, &first, &second, &mut counts)?;
        }
    }
    let free = counts.free;
    let ended = counts.unsurveyed;
    let percents = [counts.both_changed, counts.refused, ended].map(|count| percent(count, free));
    let [changed, refused, unsurveyed] = percents;
    let line = format!(
        "of {free} free pairs in both orders, both changed: {changed:.1}%, refused: {refused:.1}%, \
         ended with a pick over a leaf of -128: {ended} ({unsurveyed:.1}%)\n"
    );
    if percents.iter().any(|&percent| percent < LEAST_PERCENT) {
        return Err(format!("too few of a kind: {line}"));
    }
    Ok(line)
}

/// A plan whose documents all mark rows, sometimes nearly full; in half of them
/// document 0 has the largest tree.
fn plan(random: &mut Random) -> Table {
    let count = match random.below(4) {
        0 => random.between(ROWS - 6, ROWS),
        1 => random.between(12, 60),
        _ => random.between(1, FEW_ROWS),
    };
    let shape = Shape {
        roots: random.choose(&[5, 20, 40]),
        marked: 100,
        names: 3,
        ..Shape::random(random)
    };
    let mut table = plans::table(random, count, shape);
    if random.chance(50) {
        mark_largest(&mut table);
    }
    table
}

/// Two scripts that are often free, with few loops unless the plan is small.
fn pair(random: &mut Random, rows: usize) -> [Vec<u8>; 2] {
    loop {
        let scripts = match random.below(5) {
            0 => [(); 2].map(|()| coherent(random, rows)),
            1 => [(); 2].map(|()| chains::script(random, 3)),
            2 => [chains::script(random, 3), chains::picking(random, 2)],
            _ => pairs::pair(random),
        };
        if scripts
            .iter()
            .all(|bytes| loops(bytes) <= if rows > FEW_ROWS { 1 } else { 3 })
        {
            return scripts;
        }
    }
}

/// Runs a free pair in both orders: one is refused exactly if the other is,
/// and else they are equal.
fn both_orders(
    runs: &mut Runs<'_>,
    table: &Table,
    first: &[u8],
    second: &[u8],
    counts: &mut Counts,
) -> Result<(), Difference> {
    let plan = to_vec(table);
    let over = runs.picks.over();
    let one_two = order(runs, &plan, first, second)?;
    let two_one = order(runs, &plan, second, first)?;
    counts.free += 1;
    let equal = match (&one_two, &two_one) {
        (None, None) => {
            counts.refused += 1;
            true
        }
        (Some((one, two)), Some((two_first, one_second))) => {
            let changed = |left: &Left| !left.history.is_empty();
            counts.both_changed += u64::from(changed(one) && changed(two));
            counts.unsurveyed += u64::from(runs.picks.over() > over);
            let one_two = ended(one, two, &two.plan)?;
            let two_one = ended(one_second, two_first, &one_second.plan)?;
            orders_are_equal(table.rows.len(), &one_two, &two_one)
        }
        _ => false,
    };
    if !equal {
        let message = "demand 3 broken: free scripts, and the orders differ";
        return Err(difference(Call::Run, &[&plan, first, second], message));
    }
    Ok(())
}

/// What two runs left, the second on the plan as the first left it, unless
/// one is refused.
fn order(
    runs: &mut Runs<'_>,
    plan: &[u8],
    leader: &[u8],
    other: &[u8],
) -> Result<Option<(Left, Left)>, Difference> {
    if runs.run(plan, leader)?.number() != 0 {
        return Ok(None);
    }
    let led = runs.left();
    if runs.run(&led.plan, other)?.number() != 0 {
        return Ok(None);
    }
    Ok(Some((led, runs.left())))
}

/// An order as the oracle compares it: the parts of the first and of the
/// second script, and the plan at the end.
fn ended(first: &Left, second: &Left, plan: &[u8]) -> Result<Order, Difference> {
    let part = |left: &Left| {
        let records = history::records(&left.history).map_err(|_| "a history is ill formed")?;
        Ok::<_, Difference>(Part {
            answer: left.answer.clone(),
            history: records,
            rows_made: left.tally.rows_made,
        })
    };
    let table = read(plan).map_err(|_| "a plan is ill formed".to_string())?;
    Ok(Order {
        first: part(first)?,
        second: part(second)?,
        table,
    })
}

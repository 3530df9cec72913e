//! Loops that change the plan and go on stepping in it: from rows that were
//! there when the run began, and from rows made since, to both.

use compare::generate::plans::{table, Shape};
use compare::generate::random::Random;
use compare::oracle::limits::ROWS;
use compare::oracle::plan::to_vec;
use compare::oracle::script::kind;

use super::check::Runs;
use crate::harness::Difference;

/// A loop over what a step down from document 0 reaches; for each item it does
/// one thing after another, and answers what the last one gives.
pub fn test(runs: &mut Runs<'_>, random: &mut Random) -> Result<(), Difference> {
    let count = random.choose(&[2, 9, 60, 120, 200, ROWS - 1, ROWS]);
    let shape = Shape {
        roots: 0,
        marked: 100,
        ..Shape::random(random)
    };
    let plan = to_vec(&table(random, count, shape));
    let mut script = vec![kind::FOR];
    script.extend(step(random.choose(&[0, 1]), random, &[kind::DOCUMENT, 0]));
    for _ in 0..random.between(1, 3) {
        script.push(kind::JOIN);
        script.extend(update(random));
    }
    let item = [kind::VARIABLE, 0];
    let from = match random.below(3) {
        0 => step(random.below(4) as u8, random, &item),
        _ => item.to_vec(),
    };
    script.extend(step(random.choose(&[0, 0, 1, 2, 3]), random, &from));
    runs.run_and_back(&plan, &script).map(drop)
}

/// A step along an axis, most often to any node.
fn step(axis: u8, random: &mut Random, from: &[u8]) -> Vec<u8> {
    let test = random.choose(&[0, 0, 0, 1, 2]);
    [&[kind::STEP, axis, test, 0][..], from].concat()
}

/// Deletes the item or its children, or inserts a new row, the item's children
/// or the item into the item or document 0.
fn update(random: &mut Random) -> Vec<u8> {
    let item = [kind::VARIABLE, 0];
    let children = step(0, random, &item);
    let value: Vec<u8> = match random.below(4) {
        0 => vec![kind::ELEMENT, 1],
        1 => vec![kind::LEAF, 2],
        2 => item.to_vec(),
        _ => children.clone(),
    };
    let target = random.choose(&[item, [kind::DOCUMENT, 0]]);
    match random.below(4) {
        0 => [&[kind::DELETE][..], &item].concat(),
        1 => [&[kind::DELETE][..], &children].concat(),
        _ => [&[kind::INSERT][..], &value, &target].concat(),
    }
}

//! Pairs that have only leaves in common, and all pairs of small scripts.

use compare::generate::pairs::scripts_of;
use compare::oracle::analysis::Answer::{Free, Meet};
use compare::oracle::analysis::{conflicts, read_both};
use compare::oracle::meeting::meet;
use compare::oracle::path::{infer, Path, Which};
use compare::oracle::script::{kind, Axis, Operation, Test};

use super::{document, named, of, Counts, Use};
use super::{ALL_BELOW, CHILDREN, CHILD_ELEMENTS, DELETE, IF, INSERT, JOIN, LEAVES, NEW_ELEMENT};
use crate::harness::Difference;

/// All pairs of scripts of this many records are tried, and all of longer ones
/// with shorter ones.
const ALL_RECORDS: usize = 3;
const LONGER: usize = 4;
const SHORTER: usize = 2;
/// At least so many pairs of small scripts are free, and so many meet.
const LEAST_SMALL: u64 = 25_000;
/// In each context at least so many pairs meet at leaves alone, in each use that
/// leaves can have.
const LEAST_AT_LEAVES: u64 = 10;

pub fn test() -> Result<String, Difference> {
    let mut by_hand = Counts::default();
    worked(&mut by_hand)?;
    let mut small = Counts::default();
    small_pairs(&mut small)?;
    small.require_at_least(LEAST_SMALL, "all pairs of small scripts")?;
    let mut counts = Counts::default();
    let at_leaves = contexts(&mut counts)?;
    Ok(format!(
        "leaves by hand: {by_hand}; in contexts: {counts}, at leaves alone {at_leaves}\n\
         all pairs of small scripts: {small}\n"
    ))
}

/// Catches an analysis that drops leaves where they are alone: in a union, in what
/// a delete cuts, with nothing below it, in what an insert copies, in a branch. And
/// one that takes rows below a leaf for rows that there can be.
fn worked(counts: &mut Counts) -> Result<(), Difference> {
    let root = document(0);
    let leaves = of(&LEAVES, &[&root]);
    let leaves_of_1 = of(&LEAVES, &[&document(1)]);
    let elements = of(&CHILD_ELEMENTS, &[&root]);
    let nodes = of(&CHILDREN, &[&root]);
    let all_below = of(&ALL_BELOW, &[&root]);
    let below_leaves = of(&CHILDREN, &[&leaves]);
    let both = of(&JOIN, &[&leaves, &leaves_of_1]);
    let branches = of(&IF, &[&document(1), &leaves_of_1, &leaves]);
    let [cut, cut_both, cut_branches, cut_below] =
        [&leaves, &both, &branches, &below_leaves].map(|value| of(&DELETE, &[value]));
    let copied = of(&INSERT, &[&both, &NEW_ELEMENT]);
    let into_leaves = of(&INSERT, &[&NEW_ELEMENT, &leaves]);
    let into_root = of(&INSERT, &[&NEW_ELEMENT, &root]);
    for (first, second, expected) in [
        (&cut, &leaves, Meet),
        (&cut, &nodes, Meet),
        (&cut, &all_below, Meet),
        (&cut, &elements, Free),
        (&cut, &cut, Meet),
        (&cut, &below_leaves, Meet),
        (&cut, &leaves_of_1, Free),
        (&cut_both, &leaves, Meet),
        (&cut_both, &leaves_of_1, Meet),
        (&cut_both, &elements, Free),
        (&cut_branches, &leaves, Meet),
        (&cut_branches, &elements, Free),
        (&cut_below, &all_below, Free),
        (&cut_both, &copied, Meet),
        (&cut, &copied, Meet),
        (&into_leaves, &all_below, Free),
        (&into_leaves, &cut, Meet),
        (&into_root, &leaves, Meet),
        (&into_root, &copied, Meet),
        (&into_root, &leaves_of_1, Free),
    ] {
        counts.compare_with(first, second, expected)?;
        counts.compare_with(second, first, expected)?;
    }
    Ok(())
}

/// Catches any mark that is wrong by itself: for an element on both, an element on
/// one and above the other, a leaf on both, after a step of each axis and test, a
/// join, an if, a delete, an insert.
fn small_pairs(counts: &mut Counts) -> Result<(), Difference> {
    let tests = [
        Test::AnyNode,
        Test::AnyElement,
        Test::AnyLeaf,
        Test::Named(1),
        Test::Named(2),
    ];
    let mut alphabet = vec![
        Operation::Document(0),
        Operation::Document(1),
        Operation::Join,
        Operation::If,
        Operation::Delete,
        Operation::Insert,
    ];
    for axis in [Axis::Child, Axis::Descendant] {
        alphabet.extend(tests.map(|test| Operation::Step(axis, test)));
    }
    let [shorter, all, mut longer] =
        [SHORTER, ALL_RECORDS, LONGER].map(|records| scripts_of(&alphabet, records));
    for first in &all {
        for second in &all {
            counts.compare(first, second)?;
        }
    }
    longer.retain(|script| !all.contains(script));
    for first in &longer {
        for second in &shorter {
            counts.compare(first, second)?;
            counts.compare(second, first)?;
        }
    }
    Ok(())
}

/// What stands around a path, with a document that only this script holds.
type Context = fn(&[u8], &[u8]) -> Vec<u8>;

const CONTEXTS: [(&str, Context); 9] = [
    ("alone", |path, _| path.to_vec()),
    ("a join", |path, other| of(&JOIN, &[path, other])),
    ("a join's end", |path, other| of(&JOIN, &[other, path])),
    ("a join with itself", |path, _| of(&JOIN, &[path, path])),
    ("a join of leaves", |path, other| {
        of(&JOIN, &[path, &of(&LEAVES, &[other])])
    }),
    ("a branch", |path, other| of(&IF, &[other, path, other])),
    ("the last branch", |path, other| {
        of(&IF, &[other, other, path])
    }),
    ("a variable", |path, other| {
        let joined = of(&JOIN, &[other, path]);
        of(&[kind::LET], &[&joined, &[kind::VARIABLE, 0]])
    }),
    ("a pick", |path, _| of(&[kind::PICK, 1, 0], &[path])),
];

/// What becomes of a path. Nothing is below a leaf, so the last concerns none.
const USES: [(&str, Use); 4] = [
    ("read", |path| path.to_vec()),
    ("deleted", |path| of(&DELETE, &[path])),
    ("copied", |path| of(&INSERT, &[path, &NEW_ELEMENT])),
    ("inserted into", |path| of(&INSERT, &[&NEW_ELEMENT, path])),
];

/// Compares leaves in each context and use with other steps, alone and at the end
/// of a join. Catches a union of two rows that is dropped where they share leaves
/// alone, in a context or a use that the small scripts have no room for. Answers
/// how many pairs meet at leaves alone.
fn contexts(counts: &mut Counts) -> Result<u64, Difference> {
    let bases = [document(0).to_vec(), of(&named(1), &[&document(0)])];
    let steps = |tests: &[[u8; 2]]| -> Vec<Vec<u8>> {
        let mut paths = Vec::new();
        for base in &bases {
            for [test, name] in tests {
                paths.extend([0, 1].map(|axis| of(&[kind::STEP, axis, *test, *name], &[base])));
            }
        }
        paths
    };
    let leaves = steps(&[[2, 0]]);
    let mut others = steps(&[[0, 0], [1, 0], [2, 0], [3, 1]]);
    others.extend(bases.clone());
    let mut seconds = Vec::new();
    for path in &others {
        for (_, context) in [CONTEXTS[0], CONTEXTS[2]] {
            let path = context(path, &document(2));
            seconds.extend(USES.map(|(_, used)| used(&path)));
        }
    }
    let mut total = 0;
    for (name, context) in CONTEXTS {
        for (used, to_use) in USES {
            let mut at_leaves = 0;
            for path in &leaves {
                let first = to_use(&context(path, &document(1)));
                for second in &seconds {
                    for [one, two] in [[&first, second], [second, &first]] {
                        let meets = counts.compare(one, two)? == Meet;
                        at_leaves += u64::from(meets && !share_elements(one, two));
                    }
                }
            }
            if at_leaves < LEAST_AT_LEAVES && used != "inserted into" {
                return Err(format!(
                    "leaves {used}, in {name}: only {at_leaves} pairs meet at leaves alone"
                ));
            }
            total += at_leaves;
        }
    }
    Ok(total)
}

/// Can an element be on a path that one script modifies and on one that the other
/// traverses? Then, and only then, can a row below it be a child of both.
fn share_elements(first: &[u8], second: &[u8]) -> bool {
    let (first, second) = read_both(first, second).expect("within the limits");
    let [first, second] = [infer(&first, Which::First), infer(&second, Which::Second)];
    let children = |path: &Path| {
        let mut path = path.clone();
        path.steps.push((Axis::Child, Test::AnyNode));
        path
    };
    conflicts(&first, &second)
        .iter()
        .any(|(modified, traversed)| {
            modified.iter().any(|left| {
                let left = children(left);
                traversed.iter().any(|right| meet(&left, &children(right)))
            })
        })
}

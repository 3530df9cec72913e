//! Scripts with as many path positions as wanted.
//!
//! Request (e) of document 02 marks pairs of path positions, and leaves open
//! what a position is. Counted here is what the library says that it keeps; no
//! answer depends on it, but its table of pairs has other sizes for other
//! numbers, and the tests have to come near them.

use super::pairs::encode;
use super::random::Random;
use crate::oracle::script::{read, Axis, Expression, Operation, Relation, Test};

/// The most positions of a script.
pub const MOST: usize = 81;
/// How often records are added, at most, before starting again.
const TRIES: usize = 400;
/// How often a script is started, at most.
const STARTS: usize = 200;

/// How many positions a script has: one for nothing, and then one for a
/// document; for a step from something; for a join or the branches of an if,
/// where both are something; two for a delete of something, all below it and
/// both together; for an insert one for each operand that is something.
pub fn count(script: &Expression) -> usize {
    let mut count = 1;
    is_something(script, &mut Vec::new(), &mut count);
    count
}

/// Has an expression a result other than nothing? Constructors count as
/// nothing. `binders` holds what the binders' results are.
fn is_something(expression: &Expression, binders: &mut Vec<bool>, count: &mut usize) -> bool {
    let operands = &expression.operands[..];
    let mut operand = |index: usize| is_something(&operands[index], binders, count);
    let (result, more) = match expression.operation {
        Operation::Empty | Operation::Element(_) | Operation::Leaf(_) => (false, 0),
        Operation::Document(_) => (true, 1),
        Operation::Variable(variable) => (binders[usize::from(variable)], 0),
        Operation::Pick(..) => (operand(0), 0),
        Operation::Step(..) => {
            let from = operand(0);
            (from, usize::from(from))
        }
        Operation::Join => {
            let both = [operand(0), operand(1)];
            (both[0] || both[1], usize::from(both[0] && both[1]))
        }
        Operation::If => {
            operand(0);
            let both = [operand(1), operand(2)];
            (both[0] || both[1], usize::from(both[0] && both[1]))
        }
        Operation::Let | Operation::For => {
            let bound = operand(0);
            binders.push(bound);
            let body = is_something(&operands[1], binders, count);
            binders.pop();
            (body, 0)
        }
        Operation::Delete => (false, 2 * usize::from(operand(0))),
        Operation::Insert => (false, usize::from(operand(0)) + usize::from(operand(1))),
    };
    *count += more;
    result
}

/// A script of exactly so many positions in at most so many records, which are
/// enough for it. All documents are 0 and all steps to any children: see
/// [`with_bodies`](super::pairs::with_bodies).
pub fn script(random: &mut Random, positions: usize, records: usize) -> Vec<u8> {
    (0..STARTS)
        .find_map(|_| grown(random, positions, records))
        .expect("the records are enough")
}

/// Grows a script record by record. What has too many positions, or can no
/// longer get enough, is undone.
fn grown(random: &mut Random, positions: usize, records: usize) -> Option<Vec<u8>> {
    // Of the records added, the share in percent that deletes or inserts.
    let updates = match positions {
        ..=60 => random.choose(&[0, 20, 50]),
        61..=70 => 60,
        _ => 85,
    };
    let mut operations = vec![match positions {
        1 => Operation::Empty,
        _ => Operation::Document(0),
    }];
    for _ in 0..TRIES {
        let larger = with_more(random, &operations, updates);
        let Some(left) = records.checked_sub(larger.len()) else {
            continue;
        };
        let bytes = bytes(&larger);
        let Ok(script) = read(&bytes) else { continue };
        let count = count(&script);
        // Of the records still to come, each has one position at the most; but
        // with updates four have five, and fewer one more than they are.
        let with_updates = if updates == 0 { 0 } else { left.div_ceil(4) };
        if count > positions || count + left + with_updates < positions {
            continue;
        }
        if count == positions && random.chance(40) {
            return Some(bytes);
        }
        operations = larger;
    }
    None
}

fn bytes(operations: &[Operation]) -> Vec<u8> {
    let mut bytes = Vec::new();
    for &operation in operations {
        encode(operation, &mut bytes);
    }
    bytes
}

/// A script with some expression of it inside new records. It may be refused,
/// or mean something else by its variables.
fn with_more(random: &mut Random, operations: &[Operation], updates: usize) -> Vec<Operation> {
    use Operation::{Delete, Document, For, If, Insert, Join, Let, Pick};
    let start = random.below(operations.len());
    let inside = &operations[start..end(operations, start)];
    let step = Operation::Step(Axis::Child, Test::AnyNode);
    let [one, two] = [(); 2].map(|()| [without_operands(random)]);
    let around: Vec<&[Operation]> = if random.chance(updates) {
        // The first four have as many positions as so many records can.
        match random.below(8) {
            0 => vec![&[If, Delete, Document(0)], inside, &[Document(0)]],
            1 => vec![&[If, Delete, Document(0), Document(0)], inside],
            2 => vec![&[If, Delete], inside, &[Document(0), Document(0)]],
            3 => vec![&[If, Insert], inside, &[Document(0); 3]],
            4 | 5 => vec![&[Delete], inside],
            6 => vec![&[Insert], inside, &one],
            _ => vec![&[Insert], &one, inside],
        }
    } else {
        match random.below(13) {
            0..=3 => vec![std::slice::from_ref(&step), inside],
            4 => vec![&[Pick(Relation::Less, 0)], inside],
            5 | 6 => vec![&[Join], inside, &one],
            7 | 8 => vec![&[Join], &one, inside],
            9 => vec![&[If], inside, &one, &two],
            10 => vec![&[If], &one, inside, &two],
            11 => vec![&[Let], inside, &one],
            _ => vec![&[For], &one, inside],
        }
    };
    let (before, after) = (&operations[..start], &operations[start + inside.len()..]);
    [before, &around.concat(), after].concat()
}

fn without_operands(random: &mut Random) -> Operation {
    match random.below(12) {
        0 => Operation::Empty,
        1 => Operation::Element(1),
        2 => Operation::Leaf(1),
        3..=5 => Operation::Variable(random.below(2) as u8),
        _ => Operation::Document(0),
    }
}

/// The index after the expression that starts at an index.
fn end(operations: &[Operation], start: usize) -> usize {
    let mut due = 1;
    let mut next = start;
    while due > 0 {
        due = due - 1 + operations[next].operands();
        next += 1;
    }
    next
}

#[cfg(test)]
mod tests {
    use super::*;
    use crate::oracle::limits::SCRIPT_RECORDS;
    use crate::oracle::script::kind::{
        DELETE, DOCUMENT, ELEMENT, EMPTY, FOR, IF, INSERT, JOIN, LEAF, LET, PICK, STEP, VARIABLE,
    };

    /// Each kind of record, counted by hand.
    #[test]
    fn counts() {
        const D: [u8; 2] = [DOCUMENT, 0];
        const STEP_0: [u8; 4] = [STEP, 0, 0, 0];
        let cases: [(&[&[u8]], usize); 22] = [
            (&[&[EMPTY]], 1),
            (&[&[ELEMENT, 1]], 1),
            (&[&[LEAF, 1]], 1),
            (&[&D], 2),
            (&[&STEP_0, &D], 3),
            (&[&STEP_0, &[EMPTY]], 1),
            (&[&[PICK, 0, 0], &D], 2),
            (&[&[JOIN], &D, &D], 4),
            (&[&[JOIN], &D, &[EMPTY]], 2),
            (&[&[JOIN], &[ELEMENT, 1], &D], 2),
            (&[&[IF], &D, &D, &D], 5),
            (&[&[IF], &[EMPTY], &D, &D], 4),
            (&[&[IF], &D, &[EMPTY], &D], 3),
            (&[&[DELETE], &D], 4),
            (&[&[DELETE, DELETE], &D], 4),
            (&[&[DELETE, LEAF, 1]], 1),
            (&[&[INSERT], &D, &D], 5),
            (&[&[INSERT, ELEMENT, 1], &D], 3),
            (&[&[INSERT], &D, &[DELETE], &D], 6),
            (&[&[LET], &D, &[JOIN, VARIABLE, 0, VARIABLE, 0]], 3),
            (&[&[LET, EMPTY, JOIN, VARIABLE, 0], &D], 2),
            (&[&[FOR], &D, &[INSERT, VARIABLE, 0, VARIABLE, 0]], 4),
        ];
        for (parts, positions) in cases {
            let bytes = parts.concat();
            let script = read(&bytes).expect("within the limits");
            assert_eq!(count(&script), positions, "{bytes:02X?}");
        }
    }

    /// The most positions, without that for nothing, of an expression of each
    /// number of records, of any depth: if it is something, and if not. A
    /// variable is something as a document is, but no position; so it is left
    /// out, and so are the binders.
    fn most() -> Vec<[Option<usize>; 2]> {
        let mut most = vec![[None; 2], [Some(1), Some(0)]];
        for records in 2..=SCRIPT_RECORDS {
            let mut best = [None; 2];
            let mut found = |something: bool, positions: Option<usize>| {
                let best = &mut best[usize::from(!something)];
                *best = positions.max(*best);
            };
            let plus = |left: Option<usize>, right: Option<usize>, more: usize| {
                left.zip(right).map(|(left, right)| left + right + more)
            };
            let [something, nothing] = most[records - 1];
            found(true, plus(something, Some(0), 1));
            found(false, plus(something, Some(0), 2));
            found(false, nothing);
            for one in 1..records - 1 {
                for two in 1..records - one {
                    // What an if has besides, its first operand.
                    let rest = records - 1 - one - two;
                    let first = most[rest].into_iter().max().flatten();
                    for (left, right) in [(0, 0), (0, 1), (1, 1)] {
                        let both = plus(most[one][left], most[two][right], 0);
                        let union = usize::from(left == 0 && right == 0);
                        let branches = if rest == 0 { Some(0) } else { first };
                        found(left == 0, plus(both, branches, union));
                        if rest == 0 {
                            found(false, plus(both, Some(2 - left - right), 0));
                        }
                    }
                }
            }
            most.push(best);
        }
        most
    }

    #[test]
    fn no_script_has_more() {
        let most = most();
        let of_one_more = |records: usize| most[records].into_iter().max().flatten();
        assert_eq!(of_one_more(SCRIPT_RECORDS), Some(MOST - 1));
        assert_eq!(of_one_more(2), Some(3));
        assert_eq!(of_one_more(6), Some(8));
    }

    /// Every number of positions can be had, and many kinds of records with it.
    #[test]
    fn scripts_have_the_positions_wanted() {
        let mut random = Random::new(1);
        let mut kinds = [0; 14];
        for positions in 1..=MOST {
            for _ in 0..4 {
                let bytes = script(&mut random, positions, SCRIPT_RECORDS);
                let script = read(&bytes).expect("within the limits");
                assert_eq!(count(&script), positions);
                for record in script.records() {
                    kinds[usize::from(bytes[record.place])] += 1;
                }
            }
        }
        assert!(kinds[1..].iter().all(|&count| count > 50), "{kinds:?}");
    }
}

//! Pairs of scripts of which neither few nor most are free.

use super::chains;
use super::random::Random;
use super::scripts::{script, Wanted};
use crate::oracle::limits::DOCUMENTS;
use crate::oracle::script::{kind, read, Axis, Operation, Relation, Test};

/// What the records of a script are about, in percent.
#[derive(Clone, Copy, Debug)]
pub struct Bodies {
    /// Deletes and inserts that stay; the others only read.
    pub updates: usize,
    /// Steps to descendants.
    pub descendants: usize,
    /// Steps with a name.
    pub named: usize,
    /// Names are 1 to this.
    pub names: u8,
    /// Documents from the first of these, as many as the second.
    pub documents: (u8, u8),
    /// Scripts with one upward step.
    pub upward: usize,
}

impl Bodies {
    fn random(random: &mut Random) -> Bodies {
        Bodies {
            updates: random.choose(&[10, 40, 80, 100]),
            descendants: random.choose(&[0, 10, 40]),
            named: random.choose(&[20, 60, 95]),
            names: random.choose(&[2, 3, 9]),
            documents: random.choose(&[(0, 1), (0, 1), (0, 1), (0, 2), (1, 2), (0, 8)]),
            upward: random.choose(&[0, 0, 60]),
        }
    }

    /// Documents 0 and 1, names 1 and 2, downward only.
    pub fn small(random: &mut Random) -> Bodies {
        Bodies {
            updates: random.choose(&[30, 60, 100]),
            descendants: random.choose(&[0, 10, 40]),
            names: 2,
            documents: random.choose(&[(0, 1), (0, 2)]),
            upward: 0,
            ..Bodies::random(random)
        }
    }
}

/// Two scripts, of any size; some are just past a limit and refused.
pub fn pair(random: &mut Random) -> [Vec<u8>; 2] {
    if random.chance(15) {
        return [(); 2].map(|()| chains::script(random, 4));
    }
    let near_limits = random.chance(20);
    [(); 2].map(|()| {
        let wanted = if near_limits {
            Wanted {
                upward: 0,
                ..Wanted::random(random)
            }
        } else {
            middle(random)
        };
        let mut bodies = Bodies::random(random);
        if near_limits {
            // Many records are about as likely to meet with few updates.
            bodies.updates = random.choose(&[0, 2, 5, 15]);
        }
        let bytes = script(random, wanted);
        with_bodies(random, &bytes, bodies)
    })
}

/// A script with few steps, for trying all small trees: on documents 0 and 1,
/// with names 1 and 2, downward only.
pub fn small(random: &mut Random) -> Vec<u8> {
    if random.chance(70) {
        let steps = random.between(1, 3);
        return chains::script(random, steps);
    }
    let wanted = Wanted::small(random);
    let bytes = script(random, wanted);
    let bodies = Bodies::small(random);
    with_bodies(random, &bytes, bodies)
}

fn middle(random: &mut Random) -> Wanted {
    Wanted {
        records: random.between(2, 24),
        depth: random.between(3, 9),
        binders: random.between(0, 4),
        ..Wanted::small(random)
    }
}

/// A script with the records of another, but other bodies. What is refused is
/// left as it is.
pub fn with_bodies(random: &mut Random, bytes: &[u8], bodies: Bodies) -> Vec<u8> {
    let Ok(script) = read(bytes) else {
        return bytes.to_vec();
    };
    let mut changed = Vec::with_capacity(bytes.len());
    let mut upward = random.chance(bodies.upward);
    for record in script.records() {
        let operation = match record.operation {
            Operation::Document(_) => {
                let (first, count) = bodies.documents;
                Operation::Document((first + random.below(count.into()) as u8) % DOCUMENTS as u8)
            }
            Operation::Step(..) => step(random, bodies, std::mem::take(&mut upward)),
            Operation::Delete if !random.chance(bodies.updates) => step(random, bodies, false),
            Operation::Insert if !random.chance(bodies.updates) => Operation::Join,
            operation => operation,
        };
        encode(operation, &mut changed);
    }
    changed
}

fn step(random: &mut Random, bodies: Bodies, upward: bool) -> Operation {
    let axis = match (upward, random.chance(bodies.descendants)) {
        (false, false) => Axis::Child,
        (false, true) => Axis::Descendant,
        (true, false) => Axis::Parent,
        (true, true) => Axis::Ancestor,
    };
    let test = if random.chance(bodies.named) {
        Test::Named(random.between(1, bodies.names.into()) as u8)
    } else {
        random.choose(&[Test::AnyNode, Test::AnyElement, Test::AnyLeaf])
    };
    Operation::Step(axis, test)
}

/// Appends the bytes of a record.
pub fn encode(operation: Operation, bytes: &mut Vec<u8>) {
    match operation {
        Operation::Empty => bytes.push(kind::EMPTY),
        Operation::Document(document) => bytes.extend([kind::DOCUMENT, document]),
        Operation::Variable(variable) => bytes.extend([kind::VARIABLE, variable]),
        Operation::Step(axis, test) => {
            let axis = match axis {
                Axis::Child => 0,
                Axis::Descendant => 1,
                Axis::Parent => 2,
                Axis::Ancestor => 3,
            };
            let (test, name) = match test {
                Test::AnyNode => (0, 0),
                Test::AnyElement => (1, 0),
                Test::AnyLeaf => (2, 0),
                Test::Named(name) => (3, name),
            };
            bytes.extend([kind::STEP, axis, test, name]);
        }
        Operation::Join => bytes.push(kind::JOIN),
        Operation::Let => bytes.push(kind::LET),
        Operation::For => bytes.push(kind::FOR),
        Operation::If => bytes.push(kind::IF),
        Operation::Element(name) => bytes.extend([kind::ELEMENT, name]),
        Operation::Leaf(value) => bytes.extend([kind::LEAF, value as u8]),
        Operation::Delete => bytes.push(kind::DELETE),
        Operation::Insert => bytes.push(kind::INSERT),
        Operation::Pick(relation, value) => {
            let relation = match relation {
                Relation::Equal => 0,
                Relation::Less => 1,
                Relation::Greater => 2,
            };
            bytes.extend([kind::PICK, relation, value as u8]);
        }
    }
}

/// All scripts of at most `records` records from a small alphabet, downward
/// only, on documents 0 and 1 and names 1 and 2.
pub fn small_scripts(records: usize) -> Vec<Vec<u8>> {
    let steps = [
        (Axis::Child, Test::AnyNode),
        (Axis::Child, Test::AnyLeaf),
        (Axis::Child, Test::AnyElement),
        (Axis::Child, Test::Named(1)),
        (Axis::Child, Test::Named(2)),
        (Axis::Descendant, Test::AnyNode),
        (Axis::Descendant, Test::AnyLeaf),
        (Axis::Descendant, Test::Named(1)),
    ];
    let mut alphabet = vec![
        Operation::Empty,
        Operation::Document(0),
        Operation::Document(1),
        Operation::Element(1),
        Operation::Variable(0),
        Operation::Join,
        Operation::Let,
        Operation::Delete,
        Operation::Insert,
    ];
    alphabet.extend(steps.map(|(axis, test)| Operation::Step(axis, test)));
    scripts_of(&alphabet, records)
}

/// All scripts of at most `records` records of an alphabet that are accepted.
pub fn scripts_of(alphabet: &[Operation], records: usize) -> Vec<Vec<u8>> {
    let mut found = Vec::new();
    extend_small(alphabet, records, 1, &mut Vec::new(), &mut found);
    found
}

/// Tries each record next, while `due` operands are still missing.
fn extend_small(
    alphabet: &[Operation],
    records: usize,
    due: usize,
    bytes: &mut Vec<u8>,
    found: &mut Vec<Vec<u8>>,
) {
    if due == 0 {
        if read(bytes).is_ok() {
            found.push(bytes.clone());
        }
    } else if due <= records {
        for &operation in alphabet {
            let length = bytes.len();
            encode(operation, bytes);
            let due = due - 1 + operation.operands();
            extend_small(alphabet, records - 1, due, bytes, found);
            bytes.truncate(length);
        }
    }
}

/// A script of 64 records with very many paths: eight binders, each but the
/// first with two to four uses of the one before it. The steps are used in
/// turn. It ends in one or two records with one operand each, of the last
/// binder's variable.
pub fn most_paths(document: u8, steps: &[(Axis, Test)], end: &[Operation]) -> Vec<u8> {
    let mut bytes = Vec::new();
    let mut steps = steps.iter().cycle();
    let mut use_of = |variable: u8, with_step: bool, bytes: &mut Vec<u8>| {
        if with_step {
            let &(axis, test) = steps.next().expect("there are steps");
            encode(Operation::Step(axis, test), bytes);
        }
        encode(Operation::Variable(variable), bytes);
    };
    encode(Operation::Let, &mut bytes);
    encode(Operation::Document(document), &mut bytes);
    for variable in 0..7 {
        encode(Operation::Let, &mut bytes);
        encode(Operation::Join, &mut bytes);
        if variable < 3 {
            // Four uses, three of them with steps: eleven records.
            encode(Operation::Join, &mut bytes);
            use_of(variable, true, &mut bytes);
            use_of(variable, true, &mut bytes);
            encode(Operation::Join, &mut bytes);
            use_of(variable, true, &mut bytes);
            use_of(variable, false, &mut bytes);
        } else if variable < 6 {
            // Three uses, one with a step: seven records.
            use_of(variable, true, &mut bytes);
            encode(Operation::Join, &mut bytes);
            use_of(variable, false, &mut bytes);
            use_of(variable, false, &mut bytes);
        } else {
            // Two uses, one or both with a step: what is left for the end.
            use_of(variable, true, &mut bytes);
            use_of(variable, end.len() == 1, &mut bytes);
        }
    }
    for &operation in end {
        encode(operation, &mut bytes);
    }
    encode(Operation::Variable(7), &mut bytes);
    bytes
}

/// A script of 64 records with very many steps: eight chains of six steps each,
/// joined below records with one operand, each but the first in place of a step
/// of the last chain. The steps are used in turn.
pub fn most_steps(document: u8, steps: &[(Axis, Test)], last: &[Operation]) -> Vec<u8> {
    let mut bytes = Vec::new();
    let mut steps = steps.iter().cycle();
    for &operation in last {
        encode(operation, &mut bytes);
    }
    for chain in 0..8u32 {
        // The joins above the chains are a balanced tree.
        let joins = if chain == 0 {
            3
        } else {
            chain.trailing_zeros()
        };
        for _ in 0..joins {
            encode(Operation::Join, &mut bytes);
        }
        let fewer = if chain == 7 { last.len() - 1 } else { 0 };
        for _ in fewer..6 {
            let &(axis, test) = steps.next().expect("there are steps");
            encode(Operation::Step(axis, test), &mut bytes);
        }
        encode(Operation::Document(document), &mut bytes);
    }
    bytes
}

/// A script of 64 records with the most positions, for an analysis that has two
/// for a delete: five chains of eleven deletes, joined.
pub fn most_deletes(document: u8) -> Vec<u8> {
    let mut bytes = Vec::new();
    for joins in [2, 0, 1, 1, 0] {
        for _ in 0..joins {
            encode(Operation::Join, &mut bytes);
        }
        for _ in 0..11 {
            encode(Operation::Delete, &mut bytes);
        }
        encode(Operation::Document(document), &mut bytes);
    }
    bytes
}

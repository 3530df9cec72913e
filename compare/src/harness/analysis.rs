//! The path analysis: `yegnabit_analyse`.

use compare::generate::damage::{self, Values};
use compare::generate::document01::{CHILDREN_NAMED_2, DESCENDANT_LEAVES, SCRIPT_A, SCRIPT_B};
use compare::generate::edges;
use compare::generate::pairs::{self, Bodies};
use compare::generate::random::Random;
use compare::generate::scripts::{script, Wanted};
use compare::interface::Answer;
use compare::oracle::analysis::{self, by_unlisted_paths, can_be_listed};
use compare::oracle::path::{count_at_most, infer, Which};
use compare::oracle::script::{kind, read, Axis, Operation, Test};
use compare::oracle::small_trees::{Seen, SmallTrees};

use super::checker::{difference, document_says, Checker};
use super::tally::Call;
use super::{on_stack, Difference, Volume};
use crate::ffi;

const SEED: u64 = 0x61;
/// The most paths of a random script for which all small trees are tried.
const FEW_PATHS: u64 = 60;
/// All pairs of scripts of this many records from a small alphabet are tried.
const ALL_RECORDS: usize = 2;
/// Some pairs of scripts of this many records are tried.
const SOME_RECORDS: usize = 3;
/// Rows of the trees tried for all scripts of at most three records.
const TREE_ROWS: usize = 4;
/// Rows of the trees tried for random scripts.
const LARGE_TREE_ROWS: usize = 5;
/// An analysis needs no more stack than this, in bytes.
pub const STACK: usize = 128 * 1024;

pub fn test(checker: &mut Checker, volume: Volume) -> Result<(), Difference> {
    let mut random = Random::new(SEED);
    worked(checker)?;
    for _ in 0..volume.of(60_000) {
        let [first, second] = pairs::pair(&mut random);
        both_ways(checker, &first, &second)?;
        if random.chance(20) {
            refused(checker, &mut random, &first, &second)?;
        }
        if random.chance(10) {
            checker.analyse(&first, &first)?;
        }
    }
    for _ in 0..volume.of(60) {
        let [first, second] = pairs::pair(&mut random);
        damaged(checker, &mut random, &first, &second)?;
    }
    limits(checker, &mut random, volume)?;
    small_pairs(checker, &mut random, volume)?;
    for _ in 0..volume.of(4) {
        random_small_pairs(checker, &mut random)?;
    }
    Ok(())
}

/// Document 01's own pairs, with its answers.
fn worked(checker: &mut Checker) -> Result<(), Difference> {
    use analysis::Answer::{Free, Meet, Upward};
    let (a, b): (&[u8], &[u8]) = (&SCRIPT_A, &SCRIPT_B);
    let delete = [&[kind::DELETE][..], &CHILDREN_NAMED_2].concat();
    let never_up: &[u8] = &[
        kind::IF,
        kind::EMPTY,
        kind::STEP,
        2,
        0,
        0,
        kind::EMPTY,
        kind::EMPTY,
    ];
    for (first, second, answer) in [
        (a, b, Free),
        (b, b, Free),
        (&delete, a, Meet),
        (&delete, &DESCENDANT_LEAVES, Meet),
        (never_up, b, Upward),
    ] {
        for [one, two] in [[first, second], [second, first]] {
            let analysed = checker.analyse(one, two)?;
            document_says(
                Answer::analysed(answer),
                analysed,
                Call::Analyse,
                &[one, two],
            )?;
        }
    }
    Ok(())
}

/// Compares a pair in both orders: the answer is the same. Where the paths can
/// be listed, it is also that of the oracle's second method.
fn both_ways(checker: &mut Checker, first: &[u8], second: &[u8]) -> Result<(), Difference> {
    let answer = checker.analyse(first, second)?;
    let swapped = checker.analyse(second, first)?;
    if answer.number() != 0 {
        return Ok(());
    }
    if swapped != answer {
        let message = "law broken: the answer depends on the order";
        return Err(difference(Call::Analyse, &[first, second], message));
    }
    methods_agree(answer, first, second)
}

/// Compares an answer that the oracle has from its explicit sets of paths with
/// its method that lists none.
fn methods_agree(answer: Answer, first: &[u8], second: &[u8]) -> Result<(), Difference> {
    let (Ok(one), Ok(two)) = (read(first), read(second)) else {
        return Ok(());
    };
    if !can_be_listed(&one) || !can_be_listed(&two) {
        return Ok(());
    }
    let unlisted = by_unlisted_paths(&one, &two);
    if Answer::analysed(unlisted) != answer {
        let text = unlisted.text();
        let message = format!("without listing paths the oracle says {text}, not {answer:?}");
        return Err(difference(Call::Analyse, &[first, second], &message));
    }
    Ok(())
}

/// One or both of the scripts damaged.
fn refused(
    checker: &mut Checker,
    random: &mut Random,
    first: &[u8],
    second: &[u8],
) -> Result<(), Difference> {
    let one = damage::several(first, random);
    let two = damage::several(second, random);
    checker.analyse(&one, second)?;
    checker.analyse(first, &two)?;
    checker.analyse(&one, &two)?;
    checker.analyse(&damage::appended(first, random), &two)?;
    checker.analyse(first, &damage::noise(random, 12))?;
    Ok(())
}

/// Each byte of either script changed, and each cut at each length.
fn damaged(
    checker: &mut Checker,
    random: &mut Random,
    first: &[u8],
    second: &[u8],
) -> Result<(), Difference> {
    damage::each_byte(first, Values::Likely, random, |one| {
        checker.analyse(one, second).map(|_| ())
    })?;
    damage::each_byte(second, Values::Likely, random, |two| {
        checker.analyse(first, two).map(|_| ())
    })?;
    damage::each_cut(first, |one| checker.analyse(one, second).map(|_| ()))?;
    damage::each_cut(second, |two| checker.analyse(first, two).map(|_| ()))
}

/// Scripts at, below and above each limit, with each other and with simple
/// ones; and those with very many paths.
fn limits(checker: &mut Checker, random: &mut Random, volume: Volume) -> Result<(), Difference> {
    let reading = [kind::STEP, 1, 0, 0, kind::DOCUMENT, 0];
    let cutting = [&[kind::DELETE][..], &reading].concat();
    for bytes in edges::scripts() {
        for other in [&reading[..], &cutting, &[kind::EMPTY], &[], &bytes] {
            checker.analyse(&bytes, other)?;
            checker.analyse(other, &bytes)?;
        }
    }
    for wanted in edges::wanted_scripts() {
        let wanted = Wanted {
            upward: 0,
            ..wanted
        };
        for _ in 0..volume.of(40) {
            let [one, two] = [(); 2].map(|()| {
                let bytes = script(random, wanted);
                let bodies = Bodies {
                    updates: random.choose(&[0, 2, 5]),
                    upward: 10,
                    ..Bodies::small(random)
                };
                pairs::with_bodies(random, &bytes, bodies)
            });
            both_ways(checker, &one, &two)?;
        }
    }
    small_stack(checker)?;
    many_paths(checker, random, volume)
}

/// The scripts with the most of binders, steps and positions, each pair on a
/// stack of the size allowed: an overflow ends the program.
fn small_stack(checker: &mut Checker) -> Result<(), Difference> {
    let steps = [(Axis::Descendant, Test::AnyElement)];
    let delete = Operation::Delete;
    let scripts: Vec<Vec<u8>> = [0, 1]
        .into_iter()
        .flat_map(|document| {
            [
                pairs::most_paths(document, &steps, &[delete]),
                pairs::most_steps(document, &steps, &[delete]),
                pairs::most_deletes(document),
            ]
        })
        .collect();
    for first in &scripts {
        for second in &scripts {
            let usual = checker.analyse(first, second)?;
            let small = on_stack(STACK, || ffi::analyse(first, second));
            if small != usual {
                let message = "another answer on a small stack";
                return Err(difference(Call::Analyse, &[first, second], message));
            }
        }
    }
    Ok(())
}

/// Scripts whose sets of paths are too large to list, free and not.
fn many_paths(
    checker: &mut Checker,
    random: &mut Random,
    volume: Volume,
) -> Result<(), Difference> {
    let tests = [
        Test::Named(2),
        Test::Named(1),
        Test::AnyElement,
        Test::AnyNode,
    ];
    let leaves = Operation::Step(Axis::Child, Test::AnyLeaf);
    for _ in 0..volume.of(800) {
        let by_steps = random.chance(50);
        let [one, two] = [Operation::Delete, leaves].map(|last| {
            let descendants = random.choose(&[0, 0, 5, 50]);
            let few = random.between(1, tests.len());
            let steps: Vec<(Axis, Test)> = (0..random.between(1, 13))
                .map(|_| {
                    let axis = match random.chance(descendants) {
                        true => Axis::Descendant,
                        false => Axis::Child,
                    };
                    (axis, tests[random.below(few)])
                })
                .collect();
            let document = u8::from(random.chance(20));
            if by_steps {
                pairs::most_steps(document, &steps, &[last])
            } else if random.chance(50) {
                pairs::most_paths(document, &steps, &[last])
            } else {
                pairs::most_paths(document, &steps, &[last, leaves])
            }
        });
        both_ways(checker, &one, &two)?;
        both_ways(checker, &one, &one)?;
        both_ways(checker, &two, &two)?;
    }
    Ok(())
}

/// A script with what it does in small trees.
struct Known {
    bytes: Vec<u8>,
    seen: Seen,
}

fn know(trees: &SmallTrees, bytes: Vec<u8>) -> Known {
    let script = read(&bytes).expect("within the limits");
    let seen = trees.seen(&infer(&script, Which::First));
    Known { bytes, seen }
}

/// All pairs of the smallest scripts, and some of those one record longer.
fn small_pairs(
    checker: &mut Checker,
    random: &mut Random,
    volume: Volume,
) -> Result<(), Difference> {
    let trees = SmallTrees::new(TREE_ROWS);
    let known = |records: usize| -> Vec<Known> {
        let scripts = pairs::small_scripts(records).into_iter();
        scripts.map(|bytes| know(&trees, bytes)).collect()
    };
    let all = known(ALL_RECORDS);
    for first in &all {
        for second in &all {
            tried(checker, &trees, first, second)?;
        }
    }
    let some = known(SOME_RECORDS);
    let updates: Vec<&Known> = some.iter().filter(|known| updates(&known.bytes)).collect();
    for _ in 0..volume.of(100_000) {
        let first = updates[random.below(updates.len())];
        let second = &some[random.below(some.len())];
        tried(checker, &trees, first, second)?;
        tried(checker, &trees, second, first)?;
    }
    Ok(())
}

/// Does a sound script delete from or insert into a document?
fn updates(bytes: &[u8]) -> bool {
    let script = read(bytes).expect("within the limits");
    let has = |wanted: fn(Operation) -> bool| {
        let mut operations = script.records().into_iter().map(|record| record.operation);
        operations.any(wanted)
    };
    has(|operation| matches!(operation, Operation::Delete | Operation::Insert))
        && has(|operation| matches!(operation, Operation::Document(_)))
}

/// All pairs of some random scripts with few steps.
fn random_small_pairs(checker: &mut Checker, random: &mut Random) -> Result<(), Difference> {
    let trees = SmallTrees::new(LARGE_TREE_ROWS);
    let mut known: Vec<Known> = Vec::new();
    while known.len() < 48 {
        let bytes = pairs::small(random);
        let few = read(&bytes).is_ok_and(|script| count_at_most(&script) <= FEW_PATHS);
        let silent = bytes.iter().all(|&byte| byte != kind::DOCUMENT);
        if few && !silent {
            known.push(know(&trees, bytes));
        }
    }
    for first in &known {
        for second in &known {
            let answer = tried(checker, &trees, first, second)?;
            methods_agree(answer, &first.bytes, &second.bytes)?;
        }
    }
    Ok(())
}

/// Compares a pair with what all small trees show. A meeting in one of them
/// must be told; where they are large enough for each meeting there can be,
/// it must be told only then. Hands back what the analysis answered.
fn tried(
    checker: &mut Checker,
    trees: &SmallTrees,
    first: &Known,
    second: &Known,
) -> Result<Answer, Difference> {
    use compare::oracle::analysis::Answer::{Free, Meet};
    let answer = checker.analyse(&first.bytes, &second.bytes)?;
    let found = trees.find_meeting(&first.seen, &second.seen);
    let enough = trees.are_enough(&first.seen, &second.seen);
    let expected = if found { Meet } else { Free };
    if (found || enough) && answer != Answer::analysed(expected) {
        let message = format!("small trees say {}, not {answer:?}", expected.text());
        return Err(difference(
            Call::Analyse,
            &[&first.bytes, &second.bytes],
            &message,
        ));
    }
    Ok(answer)
}

//! The ways of the path analysis agree.

use crate::generate::pairs::{most_deletes, most_paths, most_steps, pair, small, small_scripts};
use crate::generate::random::Random;
use crate::oracle::analysis::{analyse, by_listed_paths, by_unlisted_paths, can_be_listed, Answer};
use crate::oracle::limits::SCRIPT_RECORDS;
use crate::oracle::path::{count_at_most, infer, Which};
use crate::oracle::script::{read, Axis, Operation, Test};
use crate::oracle::small_trees::SmallTrees;

use super::meetings::Meetings;

#[test]
fn both_methods_agree() {
    let mut random = Random::new(1);
    let mut counts = [0; 3];
    for _ in 0..6000 {
        let [first, second] = pair(&mut random);
        let (Ok(first), Ok(second)) = (read(&first), read(&second)) else {
            continue;
        };
        if !can_be_listed(&first) || !can_be_listed(&second) {
            continue;
        }
        let answer = by_unlisted_paths(&first, &second);
        assert_eq!(by_listed_paths(&first, &second), answer);
        counts[answer as usize] += 1;
    }
    assert!(counts.iter().all(|&count| count > 400), "{counts:?}");
}

/// Small trees show a meeting exactly when one needs no more rows than they
/// have, and they say rightly when they have enough.
#[test]
fn small_trees_agree_with_sets_of_paths() {
    const ROWS: usize = 4;
    let trees = SmallTrees::new(ROWS);
    let mut random = Random::new(2);
    let mut meetings = Meetings::default();
    for _ in 0..1500 {
        let scripts = [(); 2].map(|()| read(&small(&mut random)));
        let [Ok(first), Ok(second)] = scripts else {
            continue;
        };
        if !can_be_listed(&first) || !can_be_listed(&second) {
            continue;
        }
        let first = infer(&first, Which::First);
        let second = infer(&second, Which::Second);
        let (one, two) = (trees.seen(&first), trees.seen(&second));
        let found = trees.find_meeting(&one, &two);
        if meetings.compare([&first, &second], ROWS, found) {
            assert!(!trees.are_enough(&one, &two));
        }
    }
    meetings.require_more_than(100);
}

#[test]
fn scripts_with_most_paths_are_at_the_limit() {
    let steps = [(Axis::Child, Test::Named(1)), (Axis::Child, Test::Named(2))];
    let step = Operation::Step(Axis::Child, Test::AnyElement);
    let paths = most_paths(0, &steps, &[Operation::Delete]);
    let two_at_the_end = most_paths(0, &steps, &[Operation::Delete, step]);
    let chains = most_steps(0, &steps, &[Operation::Delete]);
    let cuts = most_deletes(0);
    for bytes in [&paths, &two_at_the_end, &chains, &cuts] {
        let script = read(bytes).expect("within the limits");
        assert_eq!(script.records().len(), SCRIPT_RECORDS);
        assert_eq!(analyse(bytes, bytes), Ok(Answer::Meet));
    }
    assert!(count_at_most(&read(&paths).expect("within the limits")) > 1000);
}

#[test]
fn small_scripts_are_all_different() {
    let mut scripts = small_scripts(3);
    let count = scripts.len();
    scripts.sort();
    scripts.dedup();
    assert_eq!(scripts.len(), count);
    // Without operands, and then with one operand each.
    assert_eq!(small_scripts(1).len(), 4);
    assert_eq!(small_scripts(2).len(), 4 + 9 * 4);
}

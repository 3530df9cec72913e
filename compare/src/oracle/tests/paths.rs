//! The path analysis on chosen pairs.

use crate::oracle::analysis::{analyse, by_listed_paths, by_unlisted_paths, read_both, Answer};
use crate::oracle::path::Which;
use crate::oracle::refusal::Number;

const CHILD: u8 = 0;
const DESCENDANT: u8 = 1;
const ANY: (u8, u8) = (0, 0);
const ELEMENT: (u8, u8) = (1, 0);
const LEAF: (u8, u8) = (2, 0);

const fn named(name: u8) -> (u8, u8) {
    (3, name)
}

/// The steps, the first one taken first, from a document.
fn chain(document: u8, steps: &[(u8, (u8, u8))]) -> Vec<u8> {
    let steps = steps.iter().rev();
    let mut script: Vec<u8> = steps
        .flat_map(|&(axis, (test, name))| [0x04, axis, test, name])
        .collect();
    script.extend([0x02, document]);
    script
}

fn delete(operand: &[u8]) -> Vec<u8> {
    [&[0x0B][..], operand].concat()
}

fn insert(source: &[u8], target: &[u8]) -> Vec<u8> {
    [&[0x0C][..], source, target].concat()
}

/// Asks in both orders, and both methods.
fn analysed(first: &[u8], second: &[u8]) -> Answer {
    let (one, two) = read_both(first, second).expect("both are read");
    let answer = by_listed_paths(&one, &two);
    assert_eq!(by_listed_paths(&two, &one), answer);
    assert_eq!(by_unlisted_paths(&one, &two), answer);
    assert_eq!(by_unlisted_paths(&two, &one), answer);
    answer
}

#[test]
fn the_copied_part_of_an_insert_is_accessed() {
    let copy = insert(&chain(0, &[(CHILD, named(2))]), &chain(1, &[]));
    let cut = delete(&chain(0, &[(CHILD, named(2)), (CHILD, LEAF)]));
    assert_eq!(analysed(&copy, &cut), Answer::Meet);
    let other = delete(&chain(0, &[(CHILD, named(3)), (CHILD, LEAF)]));
    assert_eq!(analysed(&copy, &other), Answer::Free);
}

#[test]
fn a_target_itself_is_not_modified_but_all_below_is() {
    let into = insert(&[0x09, 1], &chain(0, &[(CHILD, named(2))]));
    assert_eq!(
        analysed(&into, &chain(0, &[(CHILD, named(2))])),
        Answer::Free
    );
    let below = chain(0, &[(CHILD, named(2)), (CHILD, named(7))]);
    assert_eq!(analysed(&into, &below), Answer::Meet);
    assert_eq!(
        analysed(&into, &chain(0, &[(DESCENDANT, LEAF)])),
        Answer::Meet
    );
}

#[test]
fn nothing_is_below_a_leaf() {
    let below_leaves = delete(&chain(0, &[(CHILD, LEAF), (CHILD, ANY)]));
    // The leaves are traversed and not modified; what is below them is empty.
    let read = chain(0, &[(DESCENDANT, ANY), (DESCENDANT, ANY)]);
    assert_eq!(analysed(&below_leaves, &read), Answer::Free);
    let below_any = delete(&chain(0, &[(CHILD, ANY), (CHILD, ANY)]));
    assert_eq!(analysed(&below_any, &read), Answer::Meet);
}

#[test]
fn a_leaf_and_an_element_never_meet() {
    let leaves = delete(&chain(0, &[(CHILD, LEAF)]));
    assert_eq!(
        analysed(&leaves, &chain(0, &[(CHILD, ELEMENT)])),
        Answer::Free
    );
    assert_eq!(
        analysed(&leaves, &chain(0, &[(CHILD, named(1))])),
        Answer::Free
    );
    assert_eq!(analysed(&leaves, &chain(0, &[(CHILD, ANY)])), Answer::Meet);
}

#[test]
fn descendant_steps_overlap_at_any_depth() {
    let ends_in_3 = delete(&chain(0, &[(DESCENDANT, named(2)), (CHILD, named(3))]));
    let other_parent = chain(0, &[(DESCENDANT, named(4)), (CHILD, LEAF)]);
    // A row 3 below 2, then below it a row 4 with a leaf.
    assert_eq!(analysed(&ends_in_3, &other_parent), Answer::Meet);
    let cut_leaves = delete(&chain(0, &[(CHILD, named(2)), (CHILD, LEAF)]));
    assert_eq!(analysed(&cut_leaves, &other_parent), Answer::Free);
    let deeper = delete(&chain(0, &[(CHILD, named(2)), (DESCENDANT, LEAF)]));
    assert_eq!(analysed(&deeper, &other_parent), Answer::Meet);
}

#[test]
fn documents_and_constructors_are_apart() {
    let all_of_0 = delete(&chain(0, &[(DESCENDANT, ANY)]));
    let all_of_1 = chain(1, &[(DESCENDANT, ANY)]);
    assert_eq!(analysed(&all_of_0, &all_of_1), Answer::Free);
    let new_ones = delete(&[0x04, DESCENDANT, 0, 0, 0x09, 1]);
    assert_eq!(analysed(&new_ones, &new_ones), Answer::Free);
}

#[test]
fn variables_stand_for_their_binders() {
    // Let x be document 0's root in: delete of x's children named 2.
    let by_variable = [&[0x06, 0x02, 0, 0x0B, 0x04, 0, 3, 2][..], &[0x03, 0]].concat();
    let read = chain(0, &[(CHILD, named(2))]);
    assert_eq!(analysed(&by_variable, &read), Answer::Meet);
    assert_eq!(
        analysed(&by_variable, &chain(0, &[(CHILD, named(3))])),
        Answer::Free
    );
}

#[test]
fn both_branches_and_the_condition_count() {
    let cut = delete(&chain(0, &[(CHILD, named(2))]));
    let read = chain(0, &[(CHILD, named(2))]);
    let nothing = vec![0x01];
    for parts in [
        [&read, &nothing, &nothing],
        [&nothing, &read, &nothing],
        [&nothing, &nothing, &read],
    ] {
        let conditional = [&[0x08][..], parts[0], parts[1], parts[2]].concat();
        assert_eq!(analysed(&cut, &conditional), Answer::Meet);
    }
}

#[test]
fn the_first_script_is_read_first() {
    assert_eq!(
        analyse(&[0x00], &[]),
        Err((Which::First, Number::Kind.at(0)))
    );
    assert_eq!(
        analyse(&[0x01], &[0x02]),
        Err((Which::Second, Number::Short.at(0)))
    );
}

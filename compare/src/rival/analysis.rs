//! The path analysis, by sets of positions: for each position of the first
//! script, those of the second that share a row with it in some plan. All
//! positions of the second script are settled at once.

use super::positions::{Listed, Position, Positions, Set, Sorted, Step};
use super::script::Script;
use crate::oracle::analysis::Answer;
use crate::oracle::limits::DOCUMENTS;

/// The test for any leaf.
const LEAF: u8 = 2;

pub fn analyse(first: &Script, second: &Script) -> Answer {
    if first.upward || second.upward {
        return Answer::Upward;
    }
    let mut first = Positions::of(first, Listed(Vec::with_capacity(first.count)));
    let second = Positions::of(second, Sorted::default());
    match meet(&mut first, &second) {
        true => Answer::Meet,
        false => Answer::Free,
    }
}

/// For one position of the first script, the positions of the second that
/// share an element with it in some plan. 'On' is on a path of a position,
/// 'in' is on a path that it starts from, or below one.
#[derive(Clone, Copy, Default)]
struct Shared {
    on_on: Set,
    on_in: Set,
}

/// Can a row be on a path that one script modifies and the other traverses?
fn meet(first: &mut Positions<'_, Listed<Shared>>, second: &Positions<'_, Sorted>) -> bool {
    if first.modified == 0 && second.modified == 0 {
        return false;
    }
    let list = &mut first.sink.0;
    for index in 0..list.len() {
        // `any` shares any row: on a path of both.
        let (shared, any) = match list[index].0 {
            Position::Document(document) => with_document(document, &second.sink),
            Position::Step(step, from) => {
                let mut above = Shared::default();
                let mut rest = from;
                while rest != 0 {
                    let (_, shared) = list[rest.trailing_zeros() as usize];
                    above.on_on |= shared.on_on;
                    above.on_in |= shared.on_in;
                    rest &= rest - 1;
                }
                match above.on_on | above.on_in {
                    0 => Default::default(),
                    _ => with_step(step, above, &second.sink),
                }
            }
        };
        let modifies = first.modified >> index & 1 == 1;
        let traverses = first.traversed >> index & 1 == 1;
        if (modifies && any & second.traversed != 0) || (traverses && any & second.modified != 0) {
            return true;
        }
        list[index].1 = shared;
    }
    false
}

/// What shares a row with a document's place, which is its root alone.
fn with_document(document: u8, second: &Sorted) -> (Shared, Set) {
    let on_on = second.documents[usize::from(document) % DOCUMENTS];
    let on_in = second.starting_from(on_on);
    (Shared { on_on, on_in }, on_on)
}

/// What shares a row with a step; `above` is what those it starts from share.
fn with_step(step: Step, above: Shared, second: &Sorted) -> (Shared, Set) {
    let [nodes, elements, leaves, named] = second.tests;
    // The steps that can end at an element, and those that can with this test,
    // or at a leaf.
    let hold_rows = nodes | elements | named;
    let (to_element, to_leaf) = match step.test {
        0 => (hold_rows, nodes | leaves),
        1 => (hold_rows, 0),
        LEAF => (0, nodes | leaves),
        _ => (nodes | elements | second.named(step.name), 0),
    };
    let (to_children, to_descendants) = (second.children, !second.children);

    // In the first, on the second: on both above; or below such a row.
    let begun = above.on_on | (hold_rows & to_descendants & above.on_in);
    let in_on = closed(begun, hold_rows, second);
    let from_in_on = second.starting_from(in_on);
    let in_in = above.on_in | from_in_on;
    // The parent of a row that is on both.
    let parent = match step.child {
        true => (to_children & second.starting_from(above.on_on)) | (to_descendants & above.on_in),
        false => (to_children & from_in_on) | (to_descendants & in_in),
    };
    let on_on = parent & to_element;
    // A leaf holds no rows.
    let inside = match (step.test, step.child) {
        (LEAF, _) => 0,
        (_, true) => above.on_in,
        (_, false) => in_in,
    };
    let on_in = second.starting_from(on_on) | inside;
    (Shared { on_on, on_in }, on_on | (parent & to_leaf))
}

/// A set, with all that start from one of it by steps of `through`.
fn closed(mut set: Set, through: Set, second: &Sorted) -> Set {
    loop {
        // Along chains of positions, each of which starts from the one before.
        let mut chain = through & second.next;
        let mut places = 1;
        while chain != 0 {
            set |= chain & set << places;
            chain &= chain << places;
            places *= 2;
        }
        let more = through & second.starting_elsewhere(set) & !set;
        if more == 0 {
            return set;
        }
        set |= more;
    }
}

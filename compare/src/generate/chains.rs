//! Short scripts on document 0 that often concern the same rows.

use super::random::Random;
use super::values;
use crate::oracle::script::kind;

/// Names are 1 to this.
const NAMES: usize = 2;
const DOCUMENT_0: [u8; 2] = [kind::DOCUMENT, 0];

/// Some downward steps from document 0's root.
pub fn chain(random: &mut Random, steps: usize) -> Vec<u8> {
    let mut script = Vec::new();
    for _ in 0..steps {
        let test = random.choose(&[0, 1, 2, 3, 3, 3]);
        let name = if test == 3 {
            random.between(1, NAMES) as u8
        } else {
            0
        };
        script.extend([kind::STEP, random.below(2) as u8, test, name]);
    }
    script.extend(DOCUMENT_0);
    script
}

/// A delete or insert on chains of at most this many steps.
pub fn update(random: &mut Random, most_steps: usize) -> Vec<u8> {
    let mut next = |least: usize| {
        let steps = random.between(least, most_steps);
        chain(random, steps)
    };
    let (one, two) = (next(1), next(0));
    match random.below(4) {
        0 | 1 => [&[kind::DELETE][..], &one].concat(),
        2 => [&[kind::INSERT, kind::ELEMENT, 1][..], &two].concat(),
        _ => [&[kind::INSERT][..], &one, &two].concat(),
    }
}

/// A read or an update, sometimes two joined.
pub fn script(random: &mut Random, most_steps: usize) -> Vec<u8> {
    match random.below(6) {
        0 => {
            let (left, right) = (script(random, most_steps), script(random, most_steps));
            [&[kind::JOIN][..], &left, &right].concat()
        }
        1 | 2 => {
            let steps = random.between(0, most_steps);
            chain(random, steps)
        }
        _ => update(random, most_steps),
    }
}

/// A pick from what a chain of at most this many steps reaches, the last of
/// which goes to leaves too. What is picked is read, deleted or inserted.
pub fn picking(random: &mut Random, most_steps: usize) -> Vec<u8> {
    let [steps, to_target] = [1, 0].map(|least| random.between(least, most_steps));
    let pick = values::pick(random, values::COMMON);
    let step = [kind::STEP, random.below(2) as u8, random.choose(&[0, 2]), 0];
    let picked = [&pick[..], &step, &chain(random, steps - 1)].concat();
    match random.below(4) {
        0 => [&[kind::DELETE][..], &picked].concat(),
        1 => [&[kind::INSERT][..], &picked, &chain(random, to_target)].concat(),
        _ => picked,
    }
}

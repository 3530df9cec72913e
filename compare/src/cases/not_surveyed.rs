//! Request (a) of document 02: what pick does with leaves of −128.

use super::{Given, Run, CHILDREN, ROOT};

/// A root, and below it the leaves −128, −127, 0 and 127 and, second, an element
/// that is named 128, whose name is stored as −128 is.
const PLAN: [[u8; 4]; 7] = [
    [0x11, 0x01, 0xFF, 0xFF],
    [0x12, 0x80, 0x00, 0x00],
    [0x11, 0x80, 0x00, 0x00],
    [0x12, 0x81, 0x00, 0x00],
    [0x12, 0x00, 0x00, 0x00],
    [0x12, 0x7F, 0x00, 0x00],
    [0x13, 0x00, 0x00, 0x00],
];
/// A new leaf, not surveyed.
const NEW: &[u8] = &[0x0A, 0x80];
/// The new leaf as row 6, and its copy below the root as row 7.
const NEW_ROWS: [[u8; 4]; 2] = [[0x12, 0x80, 0xFF, 0xFF], [0x12, 0x80, 0x00, 0x00]];

const EQUAL: &str = "relation 0 keeps -128 for the constant -128 only, and no element";
const LESS: &str = "relation 1 never keeps -128";
const GREATER: &str = "relation 2 never keeps -128, and keeps all others for the constant -128";

pub fn not_surveyed() -> Vec<Run> {
    let plan = PLAN.concat();
    let case = |rule, plan: &[u8], script: &[&[u8]], answer: &[u16], rows: &[[u8; 4]]| Run {
        rule,
        plan: plan.to_vec(),
        script: script.concat(),
        end: Ok(Given::with_rows(plan, answer, rows)),
    };
    // Relation and constant, and which of rows 1 to 5 are kept.
    let picks: [(_, [u8; 2], &[u16]); 11] = [
        (EQUAL, [0x00, 0x80], &[1]),
        (EQUAL, [0x00, 0x81], &[3]),
        (EQUAL, [0x00, 0x00], &[4]),
        (EQUAL, [0x00, 0x7F], &[5]),
        (LESS, [0x01, 0x80], &[]),
        (LESS, [0x01, 0x81], &[]),
        (LESS, [0x01, 0x00], &[3]),
        (LESS, [0x01, 0x7F], &[3, 4]),
        (GREATER, [0x02, 0x80], &[3, 4, 5]),
        (GREATER, [0x02, 0x81], &[4, 5]),
        (GREATER, [0x02, 0x7F], &[]),
    ];
    let mut runs: Vec<Run> = picks
        .into_iter()
        .map(|(rule, body, kept)| case(rule, &plan, &[&[0x0D], &body, CHILDREN], kept, &[]))
        .collect();

    // The first leaf is −1 instead; that and −127 are less than 0.
    let mut surveyed = plan.clone();
    surveyed[5] = 0xFF;
    let rule = "surveyed leaves are compared as before";
    runs.push(case(
        rule,
        &surveyed,
        &[&[0x0D, 0x01, 0x00], CHILDREN],
        &[1, 3],
        &[],
    ));

    // A new leaf is picked from at once, or inserted and then picked from with
    // the other children.
    let rule = "a leaf of -128 that the script makes is not surveyed";
    let insert = [&[0x05, 0x0C][..], NEW, ROOT].concat();
    let made: [([u8; 2], &[u16], &[u16]); 3] = [
        ([0x00, 0x80], &[6], &[1, 7]),
        ([0x01, 0x7F], &[], &[3, 4]),
        ([0x02, 0x80], &[], &[3, 4, 5]),
    ];
    for (body, alone, below) in made {
        let pick = [&[0x0D][..], &body].concat();
        runs.push(case(rule, &plan, &[&pick, NEW], alone, &NEW_ROWS[..1]));
        let script = [&insert[..], &pick, CHILDREN];
        runs.push(case(rule, &plan, &script, below, &NEW_ROWS));
    }
    runs
}

//! Hand-made inputs: at, below and above each limit.

use super::scripts::Wanted;
use crate::oracle::limits::{BINDERS, DEPTH, DOCUMENTS, NO_PARENT, ROWS, SCRIPT_RECORDS};
use crate::oracle::plan::{ELEMENT, LEAF, MARK};
use crate::oracle::script::kind;

/// A record of a stored plan.
fn record(kind: u8, tag: u8, field: u16) -> [u8; 4] {
    let [low, high] = field.to_le_bytes();
    [kind, tag, low, high]
}

/// Elements without parent.
pub fn roots(count: usize) -> Vec<u8> {
    record(ELEMENT, 1, NO_PARENT).repeat(count)
}

/// Marks of documents from 0, of rows from 0.
fn marks(count: usize) -> Vec<u8> {
    (0..count)
        .flat_map(|document| record(MARK, document as u8, document as u16))
        .collect()
}

/// Plans around the limit of rows, with all that may follow.
pub fn plans() -> Vec<Vec<u8>> {
    let mut plans = vec![Vec::new()];
    let tails = [
        Vec::new(),
        record(ELEMENT, 1, NO_PARENT).to_vec(),
        record(ELEMENT, 0, NO_PARENT).to_vec(),
        record(LEAF, 0, 0).to_vec(),
        record(LEAF, 0, 600).to_vec(),
        record(MARK, 0, 0).to_vec(),
        record(MARK, 8, 0).to_vec(),
        record(MARK, 0, ROWS as u16).to_vec(),
        record(0x10, 0, 0).to_vec(),
        record(0x14, 0, 0).to_vec(),
        [record(MARK, 0, 0), record(ELEMENT, 1, NO_PARENT)].concat(),
        [record(MARK, 0, 0), record(ELEMENT, 0, NO_PARENT)].concat(),
        [record(MARK, 0, 0), record(LEAF, 1, 9999)].concat(),
        [record(MARK, 0, 0), record(0, 1, 0)].concat(),
    ];
    for rows in [0, 1, 2, ROWS - 1, ROWS, ROWS + 1] {
        for marked in [0, 1, DOCUMENTS - 1, DOCUMENTS, DOCUMENTS + 1] {
            for tail in &tails {
                for length in 0..=tail.len() {
                    let mut plan = roots(rows);
                    plan.extend(marks(marked));
                    plan.extend(&tail[..length]);
                    plans.push(plan);
                }
            }
        }
    }
    plans
}

/// Lets x, variable 0, be a new element, inserts it into itself so many times,
/// and then does other things. Each insert doubles the rows of x's tree.
pub fn doubling(inserts: usize, then: &[&[u8]]) -> Vec<u8> {
    let insert = [kind::INSERT, kind::VARIABLE, 0, kind::VARIABLE, 0];
    let parts = inserts + then.len();
    [
        &[kind::LET, kind::ELEMENT, 1][..],
        &vec![kind::JOIN; parts - 1],
        &insert.repeat(inserts),
        &then.concat(),
    ]
    .concat()
}

/// Cuts all rows below x from their parents.
pub const CUT_BELOW: [u8; 7] = [kind::DELETE, kind::STEP, 1, 0, 0, kind::VARIABLE, 0];

/// Calls `check` with all sequences of `length` parts from an alphabet.
pub fn sequences<E>(
    alphabet: &[impl AsRef<[u8]>],
    length: usize,
    mut check: impl FnMut(&[u8]) -> Result<(), E>,
) -> Result<(), E> {
    let mut bytes = Vec::new();
    for mut code in 0..alphabet.len().pow(length as u32) {
        bytes.clear();
        for _ in 0..length {
            bytes.extend_from_slice(alphabet[code % alphabet.len()].as_ref());
            code /= alphabet.len();
        }
        check(&bytes)?;
    }
    Ok(())
}

/// All plans of `length` records from a small alphabet.
pub fn small_plans<E>(length: usize, check: impl FnMut(&[u8]) -> Result<(), E>) -> Result<(), E> {
    let alphabet: Vec<[u8; 4]> = if length <= 2 {
        let kinds = [0x00, 0x10, ELEMENT, LEAF, MARK, 0x14, 0xFF];
        let tags = [0, 1, 2, 7, 8, 9, 127, 128, 255];
        let fields = [0, 1, 2, 3, 0x0100, 0xFF00, 0x00FF, 0xFFFE, NO_PARENT];
        product(&kinds, &tags, &fields)
    } else {
        product(&[ELEMENT, LEAF, MARK], &[0, 1, 2], &[0, 1, 2, NO_PARENT])
    };
    sequences(&alphabet, length, check)
}

fn product(kinds: &[u8], tags: &[u8], fields: &[u16]) -> Vec<[u8; 4]> {
    let mut records = Vec::new();
    for &kind in kinds {
        for &tag in tags {
            records.extend(fields.iter().map(|&field| record(kind, tag, field)));
        }
    }
    records
}

/// All scripts of `length` bytes from a small alphabet.
pub fn small_scripts<E>(length: usize, check: impl FnMut(&[u8]) -> Result<(), E>) -> Result<(), E> {
    let alphabet: Vec<u8> = match length {
        0..=2 => (0..=u8::MAX).collect(),
        3 => (0..0x20).chain([0x7F, 0x80, 0xFF]).collect(),
        _ => (0..0x0F).chain([0xFF]).collect(),
    };
    let alphabet: Vec<[u8; 1]> = alphabet.into_iter().map(|byte| [byte]).collect();
    sequences(&alphabet, length, check)
}

/// Wishes for random scripts around each limit, alone and together.
pub fn wanted_scripts() -> Vec<Wanted> {
    let mut wishes = Vec::new();
    for records in SCRIPT_RECORDS - 1..=SCRIPT_RECORDS + 1 {
        for depth in DEPTH - 1..=DEPTH + 1 {
            for binders in [0, BINDERS - 1, BINDERS, BINDERS + 1] {
                wishes.push(Wanted {
                    records,
                    depth,
                    binders,
                    ..Wanted::AT_LIMITS
                });
            }
        }
    }
    wishes
}

/// Scripts built by hand around the limits of depth and binders.
pub fn scripts() -> Vec<Vec<u8>> {
    let mut scripts = Vec::new();
    for levels in DEPTH - 2..=DEPTH + 1 {
        // Deletes inside each other; then a last record, whole, cut or none.
        for last in [
            &[kind::EMPTY][..],
            &[kind::DOCUMENT],
            &[kind::DOCUMENT, 8],
            &[],
            &[0],
        ] {
            scripts.push([&vec![kind::DELETE; levels][..], last].concat());
        }
    }
    for binders in BINDERS - 1..=BINDERS + 1 {
        for binder in [kind::LET, kind::FOR] {
            let nested = [binder, kind::EMPTY].repeat(binders);
            for variable in 0..=binders as u8 + 1 {
                scripts.push([&nested[..], &[kind::VARIABLE, variable]].concat());
            }
            // A binder in the first operand of the innermost one.
            let tail = [binder, binder, kind::EMPTY, kind::EMPTY, kind::EMPTY];
            scripts.push([&nested[..], &tail].concat());
            // Binders in first operands only.
            scripts.push([vec![binder; binders], vec![kind::EMPTY; binders + 1]].concat());
            let first = [
                vec![binder; binders],
                vec![kind::EMPTY],
                [kind::VARIABLE, 0].repeat(binders),
            ];
            scripts.push(first.concat());
        }
    }
    for records in SCRIPT_RECORDS - 1..=SCRIPT_RECORDS + 1 {
        // A balanced tree of joins of `records` records or one fewer, with a
        // last record that is whole or cut off.
        let mut script = joins(records.div_ceil(2));
        scripts.push(script.clone());
        script.pop();
        for last in [&[][..], &[kind::STEP], &[kind::ELEMENT, 0], &[0x0E]] {
            scripts.push([&script, last].concat());
        }
    }
    scripts
}

/// Joins, balanced, with this many empty values: twice as many records less
/// one.
pub fn joins(ends: usize) -> Vec<u8> {
    if ends == 1 {
        return vec![kind::EMPTY];
    }
    [vec![kind::JOIN], joins(ends / 2), joins(ends - ends / 2)].concat()
}

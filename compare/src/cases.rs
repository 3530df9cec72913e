//! Cases with what documents 01 and 02 say of each, found by hand: the runs on
//! plan P of document 01, and some for each of a number of rules. The oracle's
//! own tests ask them of the oracle, the comparisons of the library.

mod longest;
mod not_surveyed;

pub use longest::{longest, Longest};
use not_surveyed::not_surveyed;

use crate::generate::document01::{CHILDREN_NAMED_2, CHILDREN_NAMED_3, PLAN_P, SCRIPT_A, SCRIPT_B};
use crate::oracle::refusal::{Number, Refusal};

/// Plan P's rows and its mark.
const P_ROWS: &[u8] = PLAN_P.split_at(16).0;
const P_MARK: &[u8] = PLAN_P.split_at(16).1;

const ROOT: &[u8] = &[0x02, 0x00];
const TWOS: &[u8] = &CHILDREN_NAMED_2;
const THREES: &[u8] = &CHILDREN_NAMED_3;
/// All children of document 0's root, and all rows below it.
const CHILDREN: &[u8] = &[0x04, 0x00, 0x00, 0x00, 0x02, 0x00];
const BELOW: &[u8] = &[0x04, 0x01, 0x00, 0x00, 0x02, 0x00];

/// A stored plan that is refused.
pub struct Plan {
    pub rule: &'static str,
    pub plan: Vec<u8>,
    pub refusal: Refusal,
}

/// A run of a script on a stored plan.
pub struct Run {
    pub rule: &'static str,
    pub plan: Vec<u8>,
    pub script: Vec<u8>,
    pub end: Result<Given, Refusal>,
}

/// What a run gives that is not refused: its answer, the stored plan after it,
/// and its history.
#[derive(Debug, PartialEq)]
pub struct Given {
    pub answer: Vec<u16>,
    pub plan: Vec<u8>,
    pub history: Vec<u8>,
}

impl Given {
    /// What a run gives that adds these rows to a stored plan, written as they
    /// are stored, and cuts no link: its history has a record for each of them.
    pub fn with_rows(plan: &[u8], answer: &[u16], rows: &[[u8; 4]]) -> Given {
        let is_row = |record: &&[u8]| record[0] != 0x13;
        let old = plan.chunks(4).filter(is_row).count();
        let (old_rows, marks) = plan.split_at(4 * old);
        let history = (old..).zip(rows).flat_map(|(number, row)| {
            let &[kind, tag, low, high] = row;
            let [number_low, number_high] = (number as u16).to_le_bytes();
            [kind - 0x11 + 0x41, number_low, number_high, tag, low, high]
        });
        Given {
            answer: answer.to_vec(),
            plan: [old_rows, &rows.concat(), marks].concat(),
            history: history.collect(),
        }
    }
}

/// A history that does not fit a stored plan.
pub struct Undo {
    pub rule: &'static str,
    pub plan: Vec<u8>,
    pub history: Vec<u8>,
    pub refusal: Refusal,
}

/// P with row 1 cut from its parent.
fn p_with_row_1_cut() -> Vec<u8> {
    let mut plan = PLAN_P.to_vec();
    plan[6..8].fill(0xFF);
    plan
}

/// A run on P that gives this answer and these new rows.
fn on_p(rule: &'static str, script: &[&[u8]], answer: &[u16], rows: &[[u8; 4]]) -> Run {
    Run {
        rule,
        plan: PLAN_P.to_vec(),
        script: script.concat(),
        end: Ok(Given::with_rows(&PLAN_P, answer, rows)),
    }
}

/// Plans refused: of a record's checks 4 comes before 6.
pub fn plans() -> Vec<Plan> {
    let root = [0x11, 0x01, 0xFF, 0xFF];
    let case = |rule, record: [u8; 4]| Plan {
        rule,
        plan: [root, record].concat(),
        refusal: Number::Field.at(4),
    };
    vec![
        // There is one row, and so no row 5 and no row 9.
        case("name 0 and a wrong parent", [0x11, 0x00, 0x05, 0x00]),
        case("document 8 and a wrong row", [0x13, 0x08, 0x09, 0x00]),
    ]
}

/// The runs of 'Worked on plan P'.
pub fn worked() -> Vec<Run> {
    let twin = [&[0x0D, 0x02, 0x00], &SCRIPT_A[3..]].concat();
    let b_rows = [[0x11, 0x04, 0xFF, 0xFF], [0x11, 0x04, 0x03, 0x00]];
    let copies = [
        [0x11, 0x02, 0x03, 0x00],
        [0x12, 0xFE, 0x04, 0x00],
        [0x11, 0x02, 0x03, 0x00],
        [0x12, 0xFE, 0x06, 0x00],
    ];
    let mut runs = vec![
        on_p("A answers row 2", &[&SCRIPT_A], &[2], &[]),
        on_p("its relation 2 twin answers nothing", &[&twin], &[], &[]),
        on_p("B makes rows 4 and 5", &[&SCRIPT_B], &[], &b_rows),
        on_p("delete of the root", &[&[0x0B], ROOT], &[], &[]),
        on_p(
            "insert of row 1 twice into row 3",
            &[&[0x0C, 0x05], TWOS, TWOS, THREES],
            &[],
            &copies,
        ),
        Run {
            end: Err(Number::Short.at(0)),
            ..on_p("the empty script", &[], &[], &[])
        },
        Run {
            rule: "the empty plan",
            plan: Vec::new(),
            script: vec![0x01],
            end: Ok(Given::with_rows(&[], &[], &[])),
        },
    ];
    // Leaves under x: row 2 is a child of row 1, and so below it.
    for axis in [0x00, 0x01] {
        let body = [0x05, 0x0B, 0x03, 0x00, 0x04, axis, 0x02, 0x00, 0x03, 0x00];
        runs.push(Run {
            end: Ok(Given {
                answer: vec![2],
                plan: p_with_row_1_cut(),
                history: vec![0x43, 0x01, 0x00, 0x00, 0x00],
            }),
            ..on_p(
                "let x be the children named 2, join (delete x, leaves under x)",
                &[&[0x06], TWOS, &body],
                &[],
                &[],
            )
        });
    }
    runs
}

/// Runs that single rules decide.
pub fn rules() -> Vec<Run> {
    // P, and below its row 3 a leaf 2, below its root a leaf 3.
    let leaves = [[0x12, 0x02, 0x03, 0x00], [0x12, 0x03, 0x00, 0x00]].concat();
    let with_leaves = [P_ROWS, &leaves, P_MARK].concat();
    let finds = |rule, script: &[&[u8]], answer: &[u16]| Run {
        rule,
        plan: with_leaves.clone(),
        script: script.concat(),
        end: Ok(Given::with_rows(&with_leaves, answer, &[])),
    };

    let mut runs = Vec::new();

    // Operands run left to right: the source's new row is 4, the target's 5.
    let rule = "insert runs its source before its target";
    let new_rows = [
        [0x11, 0x04, 0xFF, 0xFF],
        [0x11, 0x05, 0xFF, 0xFF],
        [0x11, 0x04, 0x05, 0x00],
    ];
    runs.push(on_p(
        rule,
        &[&[0x0C, 0x09, 0x04, 0x09, 0x05]],
        &[],
        &new_rows,
    ));
    // The source cuts row 3, so that no child named 3 is left as a target.
    runs.push(Run {
        end: Err(Number::Target.at(0)),
        ..on_p(rule, &[&[0x0C, 0x0B], THREES, THREES], &[], &[])
    });

    // Rows 1, 3 and the leaf 5 are the children; row 2 is below 1, row 4 below 3.
    let rule = "a child step goes from each item";
    let child: &[u8] = &[0x04, 0x00, 0x00, 0x00];
    runs.push(finds(rule, &[child, CHILDREN], &[2, 4]));
    // Falling and repeated items change nothing.
    let falling = [&[0x05][..], THREES, &[0x05], TWOS, TWOS].concat();
    runs.push(finds(rule, &[child, &falling], &[2, 4]));

    // The elements' names are 2 and 3, and the one leaf is -2.
    let rule = "pick drops elements, whatever their name";
    runs.push(on_p(rule, &[&[0x0D, 0x00, 0x02], CHILDREN], &[], &[]));
    runs.push(on_p(rule, &[&[0x0D, 0x01, 0x7F], BELOW], &[2], &[]));
    runs.push(on_p(rule, &[&[0x0D, 0x02, 0x80], BELOW], &[2], &[]));

    // Row 1 twice into itself: each copy is of rows 1 and 2, as the table was
    // before the insert, though the first copy is below row 1 by then.
    let rule = "a second copy takes in no rows of the first";
    let copies = [
        [0x11, 0x02, 0x01, 0x00],
        [0x12, 0xFE, 0x04, 0x00],
        [0x11, 0x02, 0x01, 0x00],
        [0x12, 0xFE, 0x06, 0x00],
    ];
    runs.push(on_p(rule, &[&[0x0C, 0x05], TWOS, TWOS, TWOS], &[], &copies));

    // Bound are row 0, then row 1, then row 3; asked are variables 2, 0, 1.
    let rule = "variable 0 is the outermost binder";
    let (bind, asked) = (
        &[0x06][..],
        [0x05, 0x03, 0x02, 0x05, 0x03, 0x00, 0x03, 0x01],
    );
    let lets = [bind, ROOT, bind, TWOS, bind, THREES, &asked];
    runs.push(on_p(rule, &lets, &[3, 0, 1], &[]));
    // For x in rows 1, 3 and for y in rows 3, 1: x and then y.
    let both = [0x05, 0x03, 0x00, 0x03, 0x01];
    let fors = [&[0x07][..], CHILDREN, &[0x07, 0x05], THREES, TWOS, &both];
    runs.push(on_p(rule, &fors, &[1, 3, 1, 1, 3, 3, 3, 1], &[]));

    // Row 4 is a leaf 2 and row 5 a leaf 3; in P the leaf -2 is stored as FE.
    let rule = "a named test passes no leaf whose value is the name";
    runs.push(finds(rule, &[&[0x04, 0x01, 0x03, 0x02], ROOT], &[1]));
    runs.push(finds(rule, &[THREES], &[3]));
    runs.push(on_p(rule, &[&[0x04, 0x01, 0x03, 0xFE], ROOT], &[], &[]));

    runs.extend(not_surveyed());
    runs
}

/// Histories that do not fit.
pub fn undos() -> Vec<Undo> {
    // P and two more rows that are equal, the elements 4 and 5.
    let equal = [0x11, 0x05, 0xFF, 0xFF];
    let two_more = [P_ROWS, &equal, &equal, P_MARK].concat();
    let made = |row: u8| [0x41, row, 0x00, 0x05, 0xFF, 0xFF];
    let case = |rule, plan: &[u8], history: &[u8], place: usize| Undo {
        rule,
        plan: plan.to_vec(),
        history: history.to_vec(),
        refusal: Number::Link.at(place),
    };
    let not_last = "a made row must be the last, not only equal";
    vec![
        case(not_last, &two_more, &made(4), 0),
        // Back to front, row 4 comes first.
        case(not_last, &two_more, &[made(5), made(4)].concat(), 6),
        // Row 3 is an element, and higher than row 1.
        case(
            "a cut row's old parent must be lower",
            &p_with_row_1_cut(),
            &[0x43, 0x01, 0x00, 0x03, 0x00],
            0,
        ),
    ]
}

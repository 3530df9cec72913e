//! Cases with what the documents say of each: those found by hand, each value
//! of a leaf with each pick, and those at the limits.

use compare::cases::{self, Given, Run};
use compare::generate::document01::PLAN_P;
use compare::generate::edges::joins;
use compare::generate::plans::{star, star_of};
use compare::generate::random::Random;
use compare::generate::scripts::{script, Wanted};
use compare::interface::{Answer, WHICH_SCRIPT};
use compare::oracle::limits::{BINDERS, DEPTH, ITEMS, ROWS, SCRIPT_RECORDS};
use compare::oracle::plan::to_vec;
use compare::oracle::refusal::{Number, Refusal};
use compare::oracle::run::Tally;
use compare::oracle::script::kind;

use super::check::Runs;
use crate::harness::checker::{difference, document_says};
use crate::harness::tally::Call;
use crate::harness::Difference;

pub fn test(runs: &mut Runs<'_>) -> Result<(), Difference> {
    by_hand(runs)?;
    longest(runs)?;
    every_value(runs)?;
    full_tables(runs)?;
    long_values(runs)?;
    limits_of_scripts(runs)
}

/// Runs a script, and compares its end with what the documents say.
fn ends(
    runs: &mut Runs<'_>,
    plan: &[u8],
    script: &[u8],
    end: &Result<Given, Refusal>,
) -> Result<(), Difference> {
    let answer = runs.run_and_back(plan, script)?;
    let expected = match end {
        Ok(_) => Answer::accepted(0),
        Err(refusal) => Answer::refused(WHICH_SCRIPT, *refusal),
    };
    document_says(expected, answer, Call::Run, &[plan, script])?;
    let Ok(given) = end else { return Ok(()) };
    let left = runs.left();
    if left.answer != given.answer || left.plan != given.plan || left.history != given.history {
        let message = format!("the documents say {given:?}, not {left:?}");
        return Err(difference(Call::Run, &[plan, script], &message));
    }
    Ok(())
}

/// Runs a script that gives this answer and these new rows.
fn gives(
    runs: &mut Runs<'_>,
    plan: &[u8],
    script: &[u8],
    answer: &[u16],
    rows: &[[u8; 4]],
) -> Result<(), Difference> {
    let given = Given::with_rows(plan, answer, rows);
    ends(runs, plan, script, &Ok(given))
}

/// Runs a script that is refused.
fn refuses(
    runs: &mut Runs<'_>,
    plan: &[u8],
    script: &[u8],
    refusal: Refusal,
) -> Result<(), Difference> {
    ends(runs, plan, script, &Err(refusal))
}

/// Document 01's own cases, and those of single rules.
fn by_hand(runs: &mut Runs<'_>) -> Result<(), Difference> {
    let mut cases = cases::worked().into_iter().chain(cases::rules());
    cases.try_for_each(|case| {
        ends(runs, &case.plan, &case.script, &case.end)
            .map_err(|message| format!("{}: {message}", case.rule))
    })
}

/// The longest histories, and the runs that are refused where one more row
/// would be made. The numbers handed back are those counted by hand.
fn longest(runs: &mut Runs<'_>) -> Result<(), Difference> {
    for case in cases::longest() {
        let Run {
            rule,
            plan,
            script,
            end,
        } = &case.run;
        ends(runs, plan, script, end).map_err(|message| format!("{rule}: {message}"))?;
        let left = runs.left();
        let Tally {
            rows_made,
            links_cut,
            records_written,
        } = left.tally;
        let counts = [rows_made, links_cut, records_written, left.history.len()];
        if counts != case.counts {
            let expected = case.counts;
            let message = format!("{rule}: counted by hand {expected:?}, not {counts:?}");
            return Err(difference(Call::Run, &[plan, script], &message));
        }
    }
    Ok(())
}

/// Each relation with each constant, over a leaf of each value: the leaf with
/// value v is row v + 129, so that row 1 is the one that is not surveyed.
fn every_value(runs: &mut Runs<'_>) -> Result<(), Difference> {
    let plan = to_vec(&star_of(i8::MIN..=i8::MAX));
    for constant in i8::MIN..=i8::MAX {
        let row = (i16::from(constant) + 129) as u16;
        let kept = [row..row + 1, 2..row, row + 1..257];
        for (relation, kept) in (0..).zip(kept) {
            let pick = [kind::PICK, relation, constant as u8];
            let script = [&pick[..], &[kind::STEP, 0, 0, 0, kind::DOCUMENT, 0]].concat();
            gives(runs, &plan, &script, &kept.collect::<Vec<_>>(), &[])?;
        }
    }
    Ok(())
}

/// With 512 rows: an empty value is inserted, and a new row is 10. With 511
/// rows: one new row.
fn full_tables(runs: &mut Runs<'_>) -> Result<(), Difference> {
    let root: &[u8] = &[0x02, 0x00];
    let [full, almost] = [ROWS, ROWS - 1].map(|rows| to_vec(&star(rows)));
    let insert = |what: &[u8]| [&[0x0C][..], what, root].concat();
    gives(runs, &full, &insert(&[0x01]), &[], &[])?;
    refuses(runs, &full, &[0x09, 0x01], Number::Table.at(0))?;
    refuses(runs, &full, &[0x0A, 0x01], Number::Table.at(0))?;
    // The first copy is refused; so is the second, where one row is left.
    let leaf: &[u8] = &[0x0D, 0x00, 0x01, 0x04, 0x00, 0x02, 0x00, 0x02, 0x00];
    refuses(runs, &full, &insert(leaf), Number::Table.at(0))?;
    refuses(runs, &almost, &insert(&[0x09, 0x01]), Number::Table.at(0))?;
    gives(runs, &almost, &insert(leaf), &[], &[[0x12, 1, 0, 0]])?;
    gives(
        runs,
        &almost,
        &[0x09, 0x07],
        &[511],
        &[[0x11, 7, 0xFF, 0xFF]],
    )?;
    // 7 comes before 10.
    refuses(
        runs,
        &full,
        &[&[0x0C][..], root, &[0x01]].concat(),
        Number::Target.at(0),
    )?;
    let two = [&[0x0C][..], root, &[0x05], root, root].concat();
    refuses(runs, &full, &two, Number::Target.at(0))?;
    refuses(
        runs,
        &full,
        &[&[0x0C][..], root, leaf].concat(),
        Number::Target.at(0),
    )
}

/// 511 and 512 items pass in a join and in a 'for', 513 are 8 at that record.
fn long_values(runs: &mut Runs<'_>) -> Result<(), Difference> {
    let (root, below): (&[u8], &[u8]) = (&[0x02, 0x00], &[0x04, 0x01, 0x00, 0x00, 0x02, 0x00]);
    let pick_one: &[u8] = &[0x0D, 0x00, 0x01];
    // All rows, the root last.
    let join = [&[0x05][..], below, root].concat();
    // All rows, and row 1, which is the one with value 1, once more: at the
    // end, and beside itself.
    let more = [&[0x05][..], &join, pick_one, below].concat();
    let body = [&[0x05][..], pick_one, &[0x03, 0x00, 0x03, 0x00]].concat();
    let each_more = [&[0x07][..], &join, &body].concat();
    for items in [ITEMS - 1, ITEMS] {
        let rows = items as u16 - 1;
        let plan = to_vec(&star(items - 1));
        let answer: Vec<u16> = (1..rows).chain([0, 1]).collect();
        gives(runs, &plan, &more, &answer, &[])?;
        let answer: Vec<u16> = [1].into_iter().chain(1..rows).chain([0]).collect();
        gives(runs, &plan, &each_more, &answer, &[])?;
    }
    let plan = to_vec(&star(ROWS));
    refuses(runs, &plan, &more, Number::Items.at(0))?;
    refuses(runs, &plan, &each_more, Number::Items.at(0))?;
    // The inner of two joins has 513 items.
    let inner = [&[0x05][..], &more, root].concat();
    refuses(runs, &plan, &inner, Number::Items.at(1))?;
    // Of 512 rows each once.
    let all: Vec<u16> = (1..ROWS as u16).chain([0]).collect();
    gives(runs, &plan, &join, &all, &[])?;
    let each = [&[0x07][..], &join, &[0x03, 0x00]].concat();
    gives(runs, &plan, &each, &all, &[])?;
    // 8 stops the 'for' before what a later item would refuse with 7.
    let root_only: &[u8] = &[0x04, 0x02, 0x00, 0x00, 0x03, 0x00];
    let late = [
        &[0x08][..],
        root_only,
        &[0x05],
        root,
        root,
        &[0x0C, 0x01, 0x01],
    ]
    .concat();
    let script = [&[0x07][..], &join, &late].concat();
    refuses(runs, &plan, &script, Number::Items.at(0))
}

/// 64 records pass, 65 are 5; depth 16 passes, 17 is 5; so for eight binders.
fn limits_of_scripts(runs: &mut Runs<'_>) -> Result<(), Difference> {
    let most = joins(SCRIPT_RECORDS / 2);
    assert_eq!(most.len(), SCRIPT_RECORDS - 1);
    let pick: &[u8] = &[kind::PICK, 0, 0];
    let accepted = [pick, &most].concat();
    gives(runs, &PLAN_P, &accepted, &[], &[])?;
    let refused = [pick, pick, &most].concat();
    refuses(runs, &PLAN_P, &refused, Number::Size.at(refused.len() - 1))?;
    // Joins nested on the left.
    let nested = |depth: usize| [vec![kind::JOIN; depth - 1], vec![kind::EMPTY; depth]].concat();
    gives(runs, &PLAN_P, &nested(DEPTH), &[], &[])?;
    refuses(runs, &PLAN_P, &nested(DEPTH + 1), Number::Size.at(DEPTH))?;
    let binders = |count: usize| {
        let lets = [kind::LET, kind::DOCUMENT, 0].repeat(count);
        [&lets[..], &[kind::VARIABLE, 0]].concat()
    };
    gives(runs, &PLAN_P, &binders(BINDERS), &[0], &[])?;
    refuses(
        runs,
        &PLAN_P,
        &binders(BINDERS + 1),
        Number::Size.at(3 * BINDERS),
    )?;
    let mut random = Random::new(1);
    for records in SCRIPT_RECORDS - 1..=SCRIPT_RECORDS + 1 {
        let wanted = Wanted {
            records,
            binders: 2,
            ..Wanted::AT_LIMITS
        };
        for _ in 0..50 {
            runs.run(&PLAN_P, &script(&mut random, wanted))?;
        }
    }
    Ok(())
}

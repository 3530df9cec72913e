//! The cases found by hand.

use super::*;
use crate::cases::{self, Given};
use crate::oracle::history::Record;
use crate::oracle::pick::{of_run, Pick};
use crate::oracle::run::Tally;
use crate::oracle::script::Relation;
use crate::oracle::undo::undo;

#[test]
fn plans_are_refused_as_document_01_says() {
    for case in cases::plans() {
        assert_eq!(plan::read(&case.plan), Err(case.refusal), "{}", case.rule);
    }
}

/// The tally counts the records of each kind.
#[test]
fn runs_end_as_the_documents_say() {
    for case in cases::worked().into_iter().chain(cases::rules()) {
        let table = plan::read(&case.plan).expect("a plan");
        let left = run_on(&table, &case.script);
        if let Ok(left) = &left {
            let records = left.records();
            let is_cut = |record: &&Record| matches!(record, Record::Cut { .. });
            let cut = records.iter().filter(is_cut).count();
            let tally = Tally {
                rows_made: records.len() - cut,
                links_cut: cut,
                records_written: records.len(),
            };
            assert_eq!(left.ran.tally, tally, "{}", case.rule);
        }
        let given = left.map(|left| Given {
            answer: left.answer,
            plan: plan::to_vec(&left.table),
            history: left.history,
        });
        assert_eq!(given, case.end, "{}", case.rule);
    }
}

/// A on plan P, whose leaf is −2, and then a pick from a new leaf of −128.
#[test]
fn picks_of_a_run_are_told() {
    let both = [&[0x05][..], &SCRIPT_A, &[0x0D, 0x02, 0x80, 0x0A, 0x80]].concat();
    let pick = |relation, constant, over_unsurveyed| Pick {
        relation,
        constant,
        over_unsurveyed,
    };
    let told = [
        pick(Relation::Less, 0, false),
        pick(Relation::Greater, -128, true),
    ];
    assert_eq!(of_run(&PLAN_P, &both), told);
    let refused = [&[0x05][..], &SCRIPT_A, &[0x0C, 0x01, 0x01]].concat();
    assert_eq!(of_run(&PLAN_P, &refused), []);
}

#[test]
fn histories_are_refused_as_document_01_says() {
    for case in cases::undos() {
        let mut table = plan::read(&case.plan).expect("a plan");
        let undone = undo(&mut table, &case.history);
        assert_eq!(undone, Err(case.refusal), "{}", case.rule);
        assert_eq!(plan::to_vec(&table), case.plan, "{}", case.rule);
    }
}

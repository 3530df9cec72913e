//! Request (h) of document 02: what a run's history can hold at most.

use super::*;
use crate::cases::{self, Given};
use crate::generate::edges::{doubling, CUT_BELOW};
use crate::oracle::bound::count;
use crate::oracle::history::Record;
use crate::oracle::run::Tally;
use crate::oracle::script;
use crate::oracle::table::Row;
use crate::oracle::undo::undo;

/// The history of rows that are made, and of rows whose links are cut.
fn history_of(made: impl Iterator<Item = u16>, cut: impl Iterator<Item = u16>) -> Vec<u8> {
    let made = made.map(|number| Record::Made {
        number,
        row: Row::leaf(1, None),
    });
    let cut = cut.map(|number| Record::Cut {
        number,
        old: Some(0),
    });
    history::to_vec(&made.chain(cut).collect::<Vec<_>>())
}

#[test]
fn doubling_is_a_script() {
    // Let x be an element 1, join (insert x into x, delete x/descendant).
    let once = [
        0x06, 0x09, 0x01, 0x05, 0x0C, 0x03, 0x00, 0x03, 0x00, 0x0B, 0x04, 0x01, 0x00, 0x00, 0x03,
        0x00,
    ];
    assert_eq!(doubling(1, &[&CUT_BELOW]), once);
    // Let and element; for each of nine inserts itself, two variables and a
    // join; delete, step and variable.
    let nine = script::read(&doubling(9, &[&CUT_BELOW])).expect("a script");
    assert_eq!(nine.records().len(), 2 + 9 * 4 + 3);
}

#[test]
fn the_longest_histories() {
    for case in cases::longest() {
        let cases::Run {
            rule,
            plan,
            script,
            end,
        } = case.run;
        let mut table = plan::read(&plan).expect("a plan");
        let mut areas = OwnedAreas::default();
        let ran = run(&mut table, &script, areas.lend());
        let (mut given, mut counts) = (None, [0; 4]);
        if let Ok(ran) = ran {
            let Tally {
                rows_made,
                links_cut,
                records_written,
            } = ran.tally;
            counts = [rows_made, links_cut, records_written, ran.history_length];
            given = Some(Given {
                answer: areas.answer[..ran.items].to_vec(),
                plan: plan::to_vec(&table),
                history: areas.history[..ran.history_length].to_vec(),
            });
            assert_eq!(count(&areas.history[..ran.history_length]), Ok(ran.tally));
            let undone = undo(&mut table, &areas.history[..ran.history_length]);
            assert_eq!(undone, Ok(()), "{rule}");
        } else {
            assert!(areas.history.iter().all(|&byte| byte == 0), "{rule}");
        }
        assert_eq!(counts, case.counts, "{rule}");
        assert_eq!(ran.map(|_| given.expect("it ran")), end, "{rule}");
        assert_eq!(plan::to_vec(&table), plan, "{rule}");
    }
}

#[test]
fn what_no_history_of_a_run_holds() {
    let tally = |rows_made, links_cut| Tally {
        rows_made,
        links_cut,
        records_written: rows_made + links_cut,
    };
    assert_eq!(count(&[]), Ok(tally(0, 0)));
    assert_eq!(count(&history_of(3..5, 2..5)), Ok(tally(2, 3)));
    let full = history_of(0..512, 0..512);
    assert_eq!(full.len(), 5632);
    assert_eq!(count(&full), Ok(tally(512, 512)));

    let made_twice = history_of([3, 4, 3].into_iter(), 0..0);
    assert_eq!(count(&made_twice), Err("two records make the same row"));
    let cut_twice = history_of(0..3, [2, 1, 2].into_iter());
    assert_eq!(
        count(&cut_twice),
        Err("two records cut the same row's link")
    );
    // Rows that no table has, so that none stands twice.
    let records = history_of(0..0, 0..1025);
    assert_eq!(count(&records), Err("a run has more than 1,024 records"));
    let bytes = history_of(0..513, 0..511);
    let message = "a run's history has more than 5,632 bytes";
    assert_eq!(bytes.len(), 5633);
    assert_eq!(count(&bytes), Err(message));
    assert_eq!(count(&[0x44]), Err("a history is ill formed"));
    assert_eq!(count(&full[1..]), Err("a history is ill formed"));
}

//! Runs: refusals and the content of the lent areas.

use super::*;
use crate::generate::plans::star;
use crate::oracle::refusal::Number;
use crate::oracle::run::Areas;
use crate::oracle::table::Row;

/// Areas longer than needed, filled with ones.
fn dirty() -> OwnedAreas {
    OwnedAreas {
        answer: vec![1; 515],
        work: vec![1; 32_770],
        history: vec![1; 12_290],
    }
}

fn is_zero(areas: &OwnedAreas) -> bool {
    areas.answer.iter().all(|&number| number == 0)
        && areas.work.iter().all(|&number| number == 0)
        && areas.history.iter().all(|&byte| byte == 0)
}

fn is_untouched(areas: &OwnedAreas) -> bool {
    areas.answer.iter().all(|&number| number == 1)
        && areas.work.iter().all(|&number| number == 1)
        && areas.history.iter().all(|&byte| byte == 1)
}

#[test]
fn a_short_area_touches_nothing() {
    let lengths = [
        (511, 32_768, 12_288),
        (512, 32_767, 12_288),
        (512, 32_768, 12_287),
    ];
    for (answer, work, history) in lengths {
        let mut areas = dirty();
        // The table is ill formed too, and the script refused: 11 comes first.
        let mut table = Table {
            rows: vec![Row::element(0, None)],
            ..Table::default()
        };
        let before = table.clone();
        let lent = Areas {
            answer: &mut areas.answer[..answer],
            work: &mut areas.work[..work],
            history: &mut areas.history[..history],
        };
        assert_eq!(run(&mut table, &[], lent), Err(Number::Lent.at(0)));
        assert!(is_untouched(&areas));
        assert_eq!(table, before);
    }
}

#[test]
fn refused_runs_leave_zeros() {
    let ill_formed = Table {
        rows: vec![Row::leaf(0, Some(0))],
        ..Table::default()
    };
    let late = [
        &[0x05, 0x0B][..],
        &CHILDREN_NAMED_2,
        &[0x0C, 0x09, 0x05, 0x01],
    ]
    .concat();
    let cases: [(Table, &[u8], Refusal); 3] = [
        (ill_formed, &[], Number::Link.at(0)),
        (table_p(), &[0x05, 0x01], Number::Short.at(2)),
        (table_p(), &late, Number::Target.at(8)),
    ];
    for (mut table, script, refusal) in cases {
        let before = table.clone();
        let mut areas = dirty();
        assert_eq!(run(&mut table, script, areas.lend()), Err(refusal));
        assert!(is_zero(&areas));
        assert_eq!(table, before);
    }
}

#[test]
fn areas_are_zero_past_what_is_given_back() {
    let mut table = table_p();
    let mut areas = dirty();
    let script = [&[0x05][..], &SCRIPT_B, &SCRIPT_A].concat();
    let ran = run(&mut table, &script, areas.lend()).unwrap();
    assert_eq!((ran.items, ran.history_length), (1, 12));
    assert_eq!(areas.answer[0], 2);
    assert_eq!(areas.history[0], 0x41);
    areas.answer[..1].fill(0);
    areas.history[..12].fill(0);
    assert!(is_zero(&areas));
}

/// A root, marked, with this many leaves below.
fn leaves(count: usize) -> Table {
    star(count + 1)
}

const CHILDREN: [u8; 6] = [0x04, 0x00, 0x00, 0x00, 0x02, 0x00];

#[test]
fn items_of_a_join() {
    let join = [&[0x05][..], &CHILDREN, &CHILDREN].concat();
    assert_eq!(run_on(&leaves(256), &join).unwrap().answer.len(), 512);
    assert_eq!(
        run_on(&leaves(257), &join).unwrap_err(),
        Number::Items.at(0)
    );
    let three = [&[0x05, 0x05, 0x02, 0, 0x02, 0][..], &CHILDREN].concat();
    assert_eq!(run_on(&leaves(510), &three).unwrap().answer.len(), 512);
    assert_eq!(
        run_on(&leaves(511), &three).unwrap_err(),
        Number::Items.at(0)
    );
    let join_of_512 = [&[0x0B, 0x05, 0x02, 0x00][..], &CHILDREN].concat();
    assert!(run_on(&leaves(511), &join_of_512).is_ok());
}

#[test]
fn items_of_a_for() {
    // For each child, all children.
    let square = [&[0x0B, 0x07][..], &CHILDREN, &CHILDREN].concat();
    assert!(run_on(&leaves(22), &square).is_ok());
    assert_eq!(
        run_on(&leaves(23), &square).unwrap_err(),
        Number::Items.at(1)
    );
    // Each item twice, and thrice: 512 and 513 items.
    let twice = [&[0x07][..], &CHILDREN, &[0x05, 0x03, 0, 0x03, 0]].concat();
    assert_eq!(run_on(&leaves(256), &twice).unwrap().answer.len(), 512);
    let thrice = [
        &[0x07][..],
        &CHILDREN,
        &[0x05, 0x03, 0, 0x05, 0x03, 0, 0x03, 0],
    ]
    .concat();
    assert_eq!(run_on(&leaves(170), &thrice).unwrap().answer.len(), 510);
    assert_eq!(
        run_on(&leaves(171), &thrice).unwrap_err(),
        Number::Items.at(0)
    );
    // The body's own refusal comes first: a join that is too long.
    let join = [&[0x07][..], &CHILDREN, &[0x05], &CHILDREN, &CHILDREN].concat();
    assert_eq!(
        run_on(&leaves(257), &join).unwrap_err(),
        Number::Items.at(7)
    );
}

#[test]
fn a_for_binds_each_item_and_joins() {
    // For each child of the root, the child and its own children.
    let script = [
        0x07, 0x04, 0, 0, 0, 0x02, 0, 0x05, 0x03, 0, 0x04, 0, 0, 0, 0x03, 0,
    ];
    assert_eq!(run_on_p(&script).unwrap().answer, [1, 2, 3]);
}

#[test]
fn targets_of_an_insert() {
    let refused = Err(Number::Target.at(0));
    let insert = |target: &[u8]| run_on_p(&[&[0x0C, 0x01][..], target].concat()).map(|_| ());
    assert_eq!(insert(&[0x01]), refused);
    assert_eq!(insert(&[0x0A, 0x05]), refused);
    assert_eq!(insert(&[0x05, 0x02, 0, 0x02, 0]), refused);
    assert_eq!(insert(&[0x02, 1]), refused);
    assert_eq!(insert(&[0x02, 0]), Ok(()));
}

#[test]
fn an_insert_into_its_own_source_copies_the_table_as_it_was() {
    // Document 0's root into its child named 3.
    let script = [&[0x0C, 0x02, 0x00][..], &CHILDREN_NAMED_3].concat();
    let left = run_on_p(&script).unwrap();
    let new_rows = [
        Row::element(1, Some(3)),
        Row::element(2, Some(4)),
        Row::leaf(-2, Some(5)),
        Row::element(3, Some(4)),
    ];
    assert_eq!(left.table.rows[4..], new_rows);
    assert_eq!(left.table.marks, table_p().marks);
}

#[test]
fn a_target_comes_before_a_full_table() {
    let full = leaves(511);
    let into_nothing = [&[0x0C][..], &CHILDREN, &[0x01]].concat();
    assert_eq!(
        run_on(&full, &into_nothing).unwrap_err(),
        Number::Target.at(0)
    );
    let into_root = [&[0x0C][..], &CHILDREN, &[0x02, 0]].concat();
    assert_eq!(run_on(&full, &into_root).unwrap_err(), Number::Table.at(0));
}

#[test]
fn steps_answer_rising_rows_once() {
    let step = |axis: u8, test: u8, name: u8, from: &[u8]| {
        let script = [&[0x04, axis, test, name][..], from].concat();
        run_on_p(&script).unwrap().answer
    };
    let root = [0x02, 0x00];
    assert_eq!(step(0, 0, 0, &root), [1, 3]);
    assert_eq!(step(1, 0, 0, &root), [1, 2, 3]);
    assert_eq!(step(1, 1, 0, &root), [1, 3]);
    assert_eq!(step(1, 2, 0, &root), [2]);
    assert_eq!(step(1, 3, 3, &root), [3]);
    let all = [0x04, 0x01, 0x00, 0x00, 0x02, 0x00];
    assert_eq!(step(2, 0, 0, &all), [0, 1]);
    assert_eq!(step(3, 0, 0, &all), [0, 1]);
    assert_eq!(step(3, 3, 1, &all), [0]);
    assert_eq!(step(2, 0, 0, &DESCENDANT_LEAVES), [1]);
    assert_eq!(step(3, 1, 0, &DESCENDANT_LEAVES), [0, 1]);
    assert_eq!(step(3, 2, 0, &DESCENDANT_LEAVES), []);
}

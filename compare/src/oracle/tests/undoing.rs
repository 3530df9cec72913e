//! Undo: what it takes back and what it refuses.

use super::*;
use crate::oracle::refusal::Number;
use crate::oracle::table::Row;
use crate::oracle::undo::undo;

fn is_refused(table: &Table, history: &[u8], number: Number, place: usize) {
    let mut left = table.clone();
    assert_eq!(undo(&mut left, history), Err(number.at(place)));
    assert_eq!(&left, table);
}

#[test]
fn takes_back_a_run() {
    let script = [&[0x05, 0x0B][..], &CHILDREN_NAMED_2, &SCRIPT_B].concat();
    let left = run_on_p(&script).unwrap();
    assert_eq!(left.ran.tally.records_written, 3);
    let mut table = left.table;
    assert_eq!(undo(&mut table, &left.history), Ok(()));
    assert_eq!(table, table_p());
}

#[test]
fn form_comes_first_and_front_to_back() {
    let table = table_p();
    let does_not_fit = [0x43, 0x09, 0x00, 0x00, 0x00];
    let with = |tail: &[u8]| [&does_not_fit[..], tail].concat();
    is_refused(&table, &does_not_fit, Number::Link, 0);
    is_refused(&table, &with(&[0x44]), Number::Kind, 5);
    is_refused(&table, &with(&[0x00]), Number::Kind, 5);
    is_refused(&table, &with(&[0x41, 0, 0, 0, 0]), Number::Short, 5);
    is_refused(&table, &with(&[0x41, 0, 0, 0, 0, 0]), Number::Field, 5);
    is_refused(&table, &with(&[0x42, 0, 0, 0, 0, 0]), Number::Link, 5);
    is_refused(&table, &does_not_fit.repeat(2049), Number::Size, 5 * 2048);
    let cut_off = [&does_not_fit.repeat(2048)[..], &[0x41]].concat();
    is_refused(&table, &cut_off, Number::Size, 5 * 2048);
    is_refused(&table, &does_not_fit.repeat(2048), Number::Link, 5 * 2047);
}

#[test]
fn an_ill_formed_table_comes_before_the_form() {
    let ill_formed = Table {
        rows: vec![Row::element(0, None)],
        ..Table::default()
    };
    is_refused(&ill_formed, &[0x00], Number::Link, 0);
}

#[test]
fn made_rows_that_do_not_fit() {
    let mut table = table_p();
    table.rows.push(Row::element(5, None));
    let made = [0x41, 0x04, 0x00, 0x05, 0xFF, 0xFF];
    let changed = |place: usize, value: u8| {
        let mut bytes = made;
        bytes[place] = value;
        bytes
    };
    assert_eq!(undo(&mut table.clone(), &made), Ok(()));
    for (place, value) in [(0, 0x42), (1, 3), (1, 5), (2, 1), (3, 6), (4, 0), (5, 0)] {
        is_refused(&table, &changed(place, value), Number::Link, 0);
    }
    table.marks[3] = Some(4);
    is_refused(&table, &made, Number::Link, 0);
}

#[test]
fn cut_links_that_do_not_fit() {
    let mut table = table_p();
    table.rows[3] = table.rows[3].with_parent(None);
    let cut = |row: u8, old: u16| {
        let [low, high] = old.to_le_bytes();
        [0x43, row, 0, low, high]
    };
    let mut back = table.clone();
    assert_eq!(undo(&mut back, &cut(3, 0)), Ok(()));
    assert_eq!(back, table_p());
    // Not lower, not an element, none, no such row, still a parent.
    is_refused(&table, &cut(3, 3), Number::Link, 0);
    is_refused(&table, &cut(3, 2), Number::Link, 0);
    is_refused(&table, &cut(3, 0xFFFF), Number::Link, 0);
    is_refused(&table, &cut(4, 0), Number::Link, 0);
    is_refused(&table, &cut(1, 0), Number::Link, 0);
    table.marks[1] = Some(3);
    is_refused(&table, &cut(3, 0), Number::Link, 0);
}

#[test]
fn nothing_changes_when_a_later_step_back_is_refused() {
    let mut table = table_p();
    table.rows.push(Row::element(5, None));
    let history = [
        0x43, 0x09, 0x00, 0x00, 0x00, 0x41, 0x04, 0x00, 0x05, 0xFF, 0xFF,
    ];
    is_refused(&table, &history, Number::Link, 0);
}

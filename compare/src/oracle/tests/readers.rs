//! The readers' refusals, number and place.

use super::*;
use crate::oracle::refusal::Number;
use crate::oracle::script;
use crate::oracle::sweep::sweep;
use crate::oracle::table::Row;

const ROOT: [u8; 4] = [0x11, 0x01, 0xFF, 0xFF];

fn plan_is_refused(parts: &[&[u8]], number: Number, place: usize) {
    assert_eq!(plan::read(&parts.concat()), Err(number.at(place)));
}

fn script_is_refused(script: &[u8], number: Number, place: usize) {
    assert_eq!(script::read(script), Err(number.at(place)));
}

#[test]
fn plans_refused() {
    plan_is_refused(&[&[0x10]], Number::Kind, 0);
    plan_is_refused(&[&ROOT, &[0x14, 0, 0, 0]], Number::Kind, 4);
    plan_is_refused(&[&ROOT[..3]], Number::Short, 0);
    plan_is_refused(&[&ROOT, &[0x13]], Number::Short, 4);
    plan_is_refused(&[&[0x11, 0, 0xFF, 0xFF]], Number::Field, 0);
    plan_is_refused(&[&ROOT, &[0x13, 8, 0, 0]], Number::Field, 4);
    plan_is_refused(&[&[0x11, 1, 0, 0]], Number::Link, 0);
    plan_is_refused(&[&ROOT, &[0x12, 1, 1, 0]], Number::Link, 4);
    plan_is_refused(&[&[0x12, 0, 0xFF, 0xFF], &[0x12, 0, 0, 0]], Number::Link, 4);
}

#[test]
fn marks_refused() {
    let mark = |document: u8, row: u8| [0x13, document, row, 0];
    plan_is_refused(&[&mark(0, 0)], Number::Link, 0);
    plan_is_refused(&[&[0x12, 0, 0xFF, 0xFF], &mark(0, 0)], Number::Link, 4);
    plan_is_refused(&[&ROOT, &[0x11, 1, 0, 0], &mark(0, 1)], Number::Link, 8);
    plan_is_refused(&[&ROOT, &mark(0, 0), &mark(1, 0)], Number::Link, 8);
    plan_is_refused(&[&ROOT, &ROOT, &mark(1, 0), &mark(0, 1)], Number::Link, 12);
    plan_is_refused(&[&ROOT, &ROOT, &mark(1, 0), &mark(1, 1)], Number::Link, 12);
    plan_is_refused(&[&ROOT, &mark(0, 0), &ROOT], Number::Link, 8);
    assert!(plan::read(&[ROOT, ROOT, mark(2, 1), mark(7, 0)].concat()).is_ok());
}

#[test]
fn rows_past_the_limit() {
    let full = ROOT.repeat(512);
    assert!(plan::read(&full).is_ok());
    plan_is_refused(&[&full, &ROOT[..1]], Number::Size, 2048);
    plan_is_refused(&[&full, &[0x13, 0, 0, 0], &ROOT], Number::Size, 2052);
    plan_is_refused(&[&full, &[0]], Number::Kind, 2048);
    plan_is_refused(&[&full, &[0x13]], Number::Short, 2048);
    let marks: Vec<u8> = (0..8).flat_map(|mark| [0x13, mark, mark, 0]).collect();
    assert!(plan::read(&[&full[..], &marks].concat()).is_ok());
    plan_is_refused(&[&full, &marks, &[0x13, 7, 9, 0]], Number::Link, 2080);
    plan_is_refused(&[&full, &marks, &[0x13, 8, 9, 0]], Number::Field, 2080);
}

#[test]
fn scripts_refused() {
    script_is_refused(&[0x00], Number::Kind, 0);
    script_is_refused(&[0x0E], Number::Kind, 0);
    script_is_refused(&[0x05, 0x01, 0x0E], Number::Kind, 2);
    script_is_refused(&[0x05, 0x01], Number::Short, 2);
    script_is_refused(&[0x05, 0x01, 0x04, 0, 0], Number::Short, 2);
    script_is_refused(&[0x01, 0x00], Number::Tail, 1);
    script_is_refused(&[0x02, 8], Number::Field, 0);
    script_is_refused(&[0x03, 0], Number::Field, 0);
    script_is_refused(&[0x04, 4, 0, 0, 0x01], Number::Field, 0);
    script_is_refused(&[0x04, 0, 4, 0, 0x01], Number::Field, 0);
    script_is_refused(&[0x04, 0, 0, 1, 0x01], Number::Field, 0);
    script_is_refused(&[0x04, 0, 3, 0, 0x01], Number::Field, 0);
    script_is_refused(&[0x09, 0], Number::Field, 0);
    script_is_refused(&[0x0D, 3, 0, 0x01], Number::Field, 0);
    // A variable is not bound in its binder's first operand, nor after it.
    script_is_refused(&[0x06, 0x03, 0, 0x01], Number::Field, 1);
    script_is_refused(&[0x05, 0x06, 0x01, 0x03, 0, 0x03, 0], Number::Field, 5);
}

#[test]
fn size_of_scripts() {
    let deep = |last: &[u8]| [&[0x0B; 16][..], last].concat();
    script_is_refused(&deep(&[]), Number::Short, 16);
    script_is_refused(&deep(&[0x00]), Number::Kind, 16);
    script_is_refused(&deep(&[0x02]), Number::Size, 16);
    let binders = |count: usize, last: &[u8]| [&[0x07, 0x01].repeat(count)[..], last].concat();
    assert!(script::read(&binders(8, &[0x03, 7])).is_ok());
    script_is_refused(&binders(8, &[0x03, 8]), Number::Field, 16);
    script_is_refused(&binders(9, &[0x01]), Number::Size, 16);
    // Binders in first operands have nothing in scope.
    let first_operands = [vec![0x06; 10], vec![0x01; 11]].concat();
    assert!(script::read(&first_operands).is_ok());
    // In the eighth binder's first operand one more may stand.
    let in_first = [0x06, 0x06, 0x01, 0x01, 0x01];
    assert!(script::read(&binders(7, &in_first)).is_ok());
    script_is_refused(&binders(8, &in_first), Number::Size, 16);
}

#[test]
fn the_sweep_keeps_what_is_marked_and_below() {
    let mut table = Table {
        rows: vec![
            Row::element(9, None),
            Row::element(1, None),
            Row::leaf(5, Some(0)),
            Row::element(2, Some(1)),
            Row::leaf(-7, Some(3)),
            Row::leaf(1, None),
            Row::element(3, None),
        ],
        ..Table::default()
    };
    table.marks[2] = Some(6);
    table.marks[5] = Some(1);
    assert_eq!(sweep(&mut table), Ok(()));
    let kept = [
        Row::element(1, None),
        Row::element(2, Some(0)),
        Row::leaf(-7, Some(1)),
        Row::element(3, None),
    ];
    assert_eq!(table.rows, kept);
    assert_eq!((table.marks[2], table.marks[5]), (Some(3), Some(0)));

    let mut ill_formed = Table {
        rows: vec![Row::element(0, None)],
        ..Table::default()
    };
    assert_eq!(sweep(&mut ill_formed), Err(Number::Link.at(0)));
}

#[test]
fn the_writer_checks_the_table_before_the_area() {
    let table = table_p();
    let mut out = [7; 24];
    assert_eq!(plan::write(&table, &mut out[..19]), Err(Number::Lent.at(0)));
    assert_eq!(out, [7; 24]);
    assert_eq!(plan::write(&table, &mut out), Ok(20));
    assert_eq!(out[..20], PLAN_P);
    assert_eq!(out[20..], [7; 4]);
    let mut ill_formed = table;
    ill_formed.marks[1] = Some(0);
    assert_eq!(plan::write(&ill_formed, &mut []), Err(Number::Link.at(0)));
}

//! The cases of 'Worked on plan P' that are not runs, those at the limits, and
//! the program `pair`.

use super::*;
use crate::generate::edges::joins;
use crate::generate::plans::star;
use crate::oracle::analysis::{analyse, Answer};
use crate::oracle::pair::pair;
use crate::oracle::refusal::Number;
use crate::oracle::script;
use crate::oracle::table::Row;

/// A delete of the children named 2.
fn delete_children_named_2() -> Vec<u8> {
    [&[0x0B][..], &CHILDREN_NAMED_2].concat()
}

#[test]
fn plan_p_is_read() {
    let table = table_p();
    let rows = [
        Row::element(1, None),
        Row::element(2, Some(0)),
        Row::leaf(-2, Some(1)),
        Row::element(3, Some(0)),
    ];
    assert_eq!(table.rows, rows);
    assert_eq!(table.marks[0], Some(0));
    assert!(table.marks[1..].iter().all(Option::is_none));
}

#[test]
fn delete_of_children_meets_a() {
    let delete = delete_children_named_2();
    assert_eq!(analyse(&delete, &SCRIPT_A), Ok(Answer::Meet));
    assert_eq!(analyse(&SCRIPT_A, &delete), Ok(Answer::Meet));
}

#[test]
fn delete_of_children_meets_a_read_of_descendant_leaves() {
    assert_eq!(
        analyse(&delete_children_named_2(), &DESCENDANT_LEAVES),
        Ok(Answer::Meet)
    );
}

#[test]
fn b_is_free_of_b() {
    assert_eq!(analyse(&SCRIPT_B, &SCRIPT_B), Ok(Answer::Free));
}

#[test]
fn a_is_free_of_b() {
    assert_eq!(analyse(&SCRIPT_A, &SCRIPT_B), Ok(Answer::Free));
}

#[test]
fn an_upward_step_is_upward_even_where_it_never_runs() {
    let never = [0x08, 0x01, 0x04, 0x02, 0x00, 0x00, 0x01, 0x01];
    assert_eq!(analyse(&never, &[0x01]), Ok(Answer::Upward));
    assert_eq!(analyse(&[0x01], &never), Ok(Answer::Upward));
}

#[test]
fn the_empty_script_and_the_empty_plan() {
    assert_eq!(script::read(&[]), Err(Number::Short.at(0)));
    assert_eq!(plan::read(&[]), Ok(Table::default()));
}

#[test]
fn a_full_table() {
    let full = star(512);
    assert!(run_on(&full, &[0x0C, 0x01, 0x02, 0x00]).is_ok());
    assert_eq!(
        run_on(&full, &[0x09, 0x01]).unwrap_err(),
        Number::Table.at(0)
    );
    // One row fewer leaves place for one.
    let almost = star(511);
    assert!(run_on(&almost, &[0x09, 0x01]).is_ok());
    assert_eq!(
        run_on(&almost, &[0x05, 0x09, 0x01, 0x09, 0x01]).unwrap_err(),
        Number::Table.at(3)
    );
}

#[test]
fn sixty_four_records_pass() {
    let records_64 = [vec![0x0B], joins(32)].concat();
    assert_eq!(records_64.len(), 64);
    assert!(script::read(&records_64).is_ok());
    let records_65 = joins(33);
    assert_eq!(records_65.len(), 65);
    assert_eq!(script::read(&records_65), Err(Number::Size.at(64)));
}

#[test]
fn depth_sixteen_passes() {
    let nested = |deletes: usize| [vec![0x0B; deletes], vec![0x01]].concat();
    assert!(script::read(&nested(15)).is_ok());
    assert_eq!(script::read(&nested(16)), Err(Number::Size.at(16)));
}

fn pair_prints(plan: &[u8], first: &[u8], second: &[u8], expected: &str) {
    let output = String::from_utf8(pair(plan, first, second)).unwrap();
    assert_eq!(output, expected);
}

#[test]
fn pair_on_p_a_and_b() {
    pair_prints(
        &PLAN_P,
        &SCRIPT_A,
        &SCRIPT_B,
        "answer free\none-two 1 0 6\ntwo-one 1 0 6\n",
    );
}

#[test]
fn pair_tells_the_first_file_refused() {
    pair_prints(&PLAN_P, &[], &[], "file first 2 0\n");
    pair_prints(&PLAN_P, &SCRIPT_A, &[0x01, 0x01], "file second 3 1\n");
    pair_prints(&PLAN_P[..19], &[], &[], "file plan 2 16\n");
    pair_prints(
        &[0x11, 1, 0xFF, 0xFF].repeat(2000),
        &[],
        &[],
        "file plan 5 2048\n",
    );
    pair_prints(&PLAN_P, &[0x01; 5000], &[], "file first 3 1\n");
}

#[test]
fn pair_runs_both_orders_after_any_answer() {
    let delete = delete_children_named_2();
    pair_prints(
        &PLAN_P,
        &SCRIPT_A,
        &delete,
        "answer meet\none-two 1 0 4\ntwo-one 0 0 4\n",
    );
    // The parent of document 0's root: nothing.
    let parent = [0x04, 0x02, 0x00, 0x00, 0x02, 0x00];
    pair_prints(
        &PLAN_P,
        &parent,
        &SCRIPT_A,
        "answer upward\none-two 0 1 4\ntwo-one 0 1 4\n",
    );
}

#[test]
fn pair_tells_which_run_is_refused() {
    // An insert into nothing: the second file's script in either order.
    pair_prints(
        &PLAN_P,
        &SCRIPT_A,
        &[0x0C, 0x01, 0x01],
        "answer free\none-two refused 2 7\ntwo-one refused 2 7\n",
    );
    // B's target is gone once its road is deleted.
    let delete = [&[0x0B][..], &CHILDREN_NAMED_3].concat();
    pair_prints(
        &PLAN_P,
        &delete,
        &SCRIPT_B,
        "answer meet\none-two refused 2 7\ntwo-one 0 0 6\n",
    );
}

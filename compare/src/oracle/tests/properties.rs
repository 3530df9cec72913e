//! Laws on random inputs.

use super::brute::finds_meeting;
use super::meetings::Meetings;
use super::*;
use crate::generate::chains;
use crate::generate::plans::{any_table, table, Shape};
use crate::generate::random::Random;
use crate::generate::runs::mark_largest;
use crate::generate::scripts::{script, Wanted};
use crate::oracle::analysis::{analyse_read, Answer};
use crate::oracle::bound::count;
use crate::oracle::history::Record;
use crate::oracle::limits::ROWS;
use crate::oracle::orders::{orders_are_equal, run_order};
use crate::oracle::path::{count_at_most, infer, Which};
use crate::oracle::pick;
use crate::oracle::script::read;
use crate::oracle::undo::undo;

fn random_table(random: &mut Random, most: usize) -> Table {
    let count = random.between(0, most);
    let shape = Shape {
        names: 3,
        ..Shape::random(random)
    };
    table(random, count, shape)
}

/// Replays the history of a run on the table that it started from.
fn replay(table: &mut Table, records: &[Record]) {
    for &record in records {
        match record {
            Record::Made { number, row } => {
                assert_eq!(usize::from(number), table.rows.len(), "a new row is last");
                table.rows.push(row);
            }
            Record::Cut { number, old } => {
                let row = &mut table.rows[usize::from(number)];
                assert_eq!(row.parent(), old, "the link is the one that was cut");
                *row = row.with_parent(None);
            }
        }
    }
}

#[test]
fn histories_replay_and_are_taken_back() {
    let mut random = Random::new(1);
    let (mut ran, mut changed) = (0, 0);
    for _ in 0..3000 {
        let before = random_table(&mut random, ROWS);
        let wanted = Wanted {
            names: 3,
            ..Wanted::random(&mut random)
        };
        let bytes = script(&mut random, wanted);
        let Ok(left) = run_on(&before, &bytes) else {
            continue;
        };
        ran += 1;
        changed += usize::from(left.table != before);
        assert!(left.table.is_well_formed());
        let records = left.records();
        assert_eq!(records.len(), left.ran.tally.records_written);
        assert_eq!(count(&left.history), Ok(left.ran.tally));
        let mut replayed = before.clone();
        replay(&mut replayed, &records);
        assert_eq!(replayed, left.table);
        let mut back = left.table;
        assert_eq!(undo(&mut back, &left.history), Ok(()));
        assert_eq!(back, before);
    }
    assert!(ran > 500 && changed > 100, "{ran} ran, {changed} changed");
}

#[test]
fn refused_runs_restore_the_table() {
    let mut random = Random::new(2);
    let mut refused = 0;
    let mut areas = OwnedAreas::default();
    for _ in 0..2000 {
        let mut table = random_table(&mut random, ROWS);
        let before = table.clone();
        let wanted = Wanted::random(&mut random);
        let bytes = script(&mut random, wanted);
        if run(&mut table, &bytes, areas.lend()).is_err() {
            refused += 1;
            assert_eq!(table, before);
        }
    }
    assert!(refused > 100, "{refused} refused");
}

#[test]
fn plans_pass_through_reader_and_writer() {
    let mut random = Random::new(3);
    for _ in 0..500 {
        let table = any_table(&mut random);
        let bytes = plan::to_vec(&table);
        match plan::read(&bytes) {
            Ok(read) => {
                assert!(read.is_well_formed());
                assert_eq!(read, table);
            }
            Err(_) => assert!(!table.is_well_formed()),
        }
    }
}

/// The analysis finds a meeting in a plan of some rows exactly when trying all
/// plans of that many rows finds one.
#[test]
fn brute_force_agrees_with_the_analysis() {
    const NAMES: [u8; 3] = [1, 2, 3];
    let mut random = Random::new(4);
    let mut meetings = Meetings::default();
    for round in 0..400 {
        // Chains of steps need more rows; other scripts have more places.
        let by_chain = round % 2 == 0;
        let size = if by_chain { 4 } else { 3 };
        let mut next = || {
            let bytes = if by_chain {
                chains::script(&mut random, 2)
            } else {
                let wanted = Wanted::small(&mut random);
                script(&mut random, wanted)
            };
            read(&bytes)
        };
        let (Ok(first), Ok(second)) = (next(), next()) else {
            continue;
        };
        if count_at_most(&first) + count_at_most(&second) > 60 {
            continue;
        }
        let first = infer(&first, Which::First);
        let second = infer(&second, Which::Second);
        let found = finds_meeting(&first, &second, size, &NAMES);
        meetings.compare([&first, &second], size, found);
    }
    meetings.require_more_than(80);
}

/// A pair of small scripts and a table to run them on.
fn small_pair(random: &mut Random, round: usize) -> (Vec<u8>, Vec<u8>, Table) {
    let mut next = || {
        if round % 2 == 0 {
            return chains::script(random, 3);
        }
        let wanted = Wanted {
            records: random.between(2, 14),
            depth: random.between(2, 8),
            names: 3,
            ..Wanted::small(random)
        };
        script(random, wanted)
    };
    let (first, mut second) = (next(), next());
    // Full tables too, where new rows are refused.
    let most = if round % 4 < 2 { 20 } else { ROWS };
    let mut table = random_table(random, most);
    if table.marks[0].is_none() {
        table.marks.rotate_left(1);
    }
    if round % 8 == 0 {
        second = chains::picking(random, 2);
        mark_largest(&mut table);
    }
    (first, second, table)
}

/// Free scripts give equal orders. Meeting ones do not always.
#[test]
fn free_scripts_commute() {
    let mut random = Random::new(5);
    let mut areas = OwnedAreas::default();
    let (mut free, mut ended, mut edited, mut unequal) = (0, 0, 0, 0);
    // Free and ended, with a pick over a leaf that is not surveyed.
    let mut unsurveyed = 0;
    for round in 0..10_000 {
        let (first, second, table) = small_pair(&mut random, round);
        let (Ok(first_read), Ok(second_read)) = (read(&first), read(&second)) else {
            continue;
        };
        let answer = analyse_read(&first_read, &second_read);
        let one_two = run_order(&table, &first, &second, Which::First, &mut areas);
        let two_one = run_order(&table, &first, &second, Which::Second, &mut areas);
        let equal = match (&one_two, &two_one) {
            (Ok(one_two), Ok(two_one)) => {
                if answer == Answer::Free {
                    let plan = plan::to_vec(&table);
                    let picks = [&first, &second].map(|script| pick::of_run(&plan, script));
                    let over = picks.iter().flatten().any(|pick| pick.over_unsurveyed);
                    ended += 1;
                    unsurveyed += usize::from(over);
                }
                orders_are_equal(table.rows.len(), one_two, two_one)
            }
            (Err(_), Err(_)) => true,
            _ => false,
        };
        if answer == Answer::Free {
            free += 1;
            assert!(equal, "{table:?} {first:02X?} {second:02X?}");
            edited += usize::from(one_two.is_ok_and(|order| order.table != table));
        } else {
            unequal += usize::from(!equal);
        }
    }
    assert!(
        free > 1000 && ended > 1000 && edited > 500 && unequal > 100 && unsurveyed > 50,
        "{free} free, {ended} ended, {edited} edited, {unequal} unequal, {unsurveyed} unsurveyed"
    );
}

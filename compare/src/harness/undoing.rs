//! Undo: `yegnabit_undo`.

use compare::cases;
use compare::generate::damage::{self, Values};
use compare::generate::histories::{append, long, of_changes, of_run, Recorded};
use compare::generate::plans;
use compare::generate::random::Random;
use compare::interface::{Answer, WHICH_HISTORY};
use compare::oracle::history::{Record, CUT_BYTES, ELEMENT_MADE, LEAF_MADE, LINK_CUT, MADE_BYTES};
use compare::oracle::limits::{DOCUMENTS, HISTORY_RECORDS, NO_PARENT, PLAN_BYTES, ROWS};
use compare::oracle::plan::to_vec;
use compare::oracle::run::OwnedAreas;
use compare::oracle::table::{Row, Table};

use super::area::out_lengths;
use super::checker::{difference, document_says, Checker};
use super::tally::Call;
use super::{on_stack, Difference, Volume};
use crate::ffi;

const SEED: u64 = 0x41;
/// Plans up to this length are damaged byte by byte.
const SMALL_PLAN: usize = 200;
/// Histories of random bytes are at most this long.
const NOISE: usize = 40;
/// Undo, and reading and sweeping a plan, need no more stack than this, in
/// bytes.
const STACK: usize = 32 * 1024;

pub fn test(checker: &mut Checker, volume: Volume) -> Result<(), Difference> {
    let mut random = Random::new(SEED);
    worked(checker)?;
    small_stack(checker)?;
    small_histories(checker)?;
    limits(checker)?;
    let mut areas = OwnedAreas::default();
    for round in 0..volume.of(6000) {
        let recorded = recorded(&mut random, &mut areas, round);
        fits(checker, &mut random, &recorded)?;
    }
    for round in 0..volume.of(300) {
        let recorded = recorded(&mut random, &mut areas, round);
        damaged(checker, &mut random, &recorded)?;
    }
    for _ in 0..volume.of(3) {
        let recorded = long(&mut random);
        fits(checker, &mut random, &recorded)?;
        damaged(checker, &mut random, &recorded)?;
    }
    for _ in 0..volume.of(200) {
        lengths(checker, &mut random, &mut areas)?;
    }
    for _ in 0..volume.of(100_000) {
        let plan = to_vec(&plans::any_table(&mut random));
        checker.undo(&plan, &noise(&mut random))?;
    }
    Ok(())
}

/// A long history taken back, and its plan read and swept, on a small stack:
/// an overflow ends the program.
fn small_stack(checker: &mut Checker) -> Result<(), Difference> {
    let recorded = long(&mut Random::new(SEED));
    let after = to_vec(&recorded.after);
    checker.plan(&after)?;
    checker.undo(&after, &recorded.history)?;
    let calls = || {
        let mut outs = [(); 3].map(|()| vec![0; PLAN_BYTES]);
        let answers = [
            ffi::plan(&after, &mut outs[0]),
            ffi::sweep(&after, &mut outs[1]),
            ffi::undo(&after, &recorded.history, &mut outs[2]),
        ];
        (answers, outs)
    };
    if on_stack(STACK, calls) != calls() {
        let message = "another answer on a small stack";
        return Err(difference(
            Call::Undo,
            &[&after, &recorded.history],
            message,
        ));
    }
    Ok(())
}

/// Histories that document 01 refuses, with what it says.
fn worked(checker: &mut Checker) -> Result<(), Difference> {
    for case in cases::undos() {
        let expected = Answer::refused(WHICH_HISTORY, case.refusal);
        let answer = checker.undo(&case.plan, &case.history)?;
        document_says(expected, answer, Call::Undo, &[&case.plan, &case.history])
            .map_err(|message| format!("{}: {message}", case.rule))?;
    }
    Ok(())
}

/// A history of a run or of changes, in turn.
fn recorded(random: &mut Random, areas: &mut OwnedAreas, round: usize) -> Recorded {
    match round % 2 {
        0 => of_run(random, areas),
        _ => of_changes(random),
    }
}

/// A history on the plan it left, and then each time with one thing wrong.
fn fits(checker: &mut Checker, random: &mut Random, recorded: &Recorded) -> Result<(), Difference> {
    let (before, after) = (to_vec(&recorded.before), to_vec(&recorded.after));
    checker.taken_back(&before, &after, &recorded.history)?;
    checker.undo(&before, &recorded.history)?;
    let other = to_vec(&plans::any_table(random));
    checker.undo(&other, &recorded.history)?;
    checker.undo(&after, &damage::appended(&recorded.history, random))?;
    let several = damage::several(&recorded.history, random);
    checker.undo(&after, &several)?;
    let broken = damage::several(&after, random);
    checker.undo(&broken, &recorded.history)?;
    checker.undo(&broken, &several)?;
    checker.undo(&after, &recorded.history.repeat(2))?;
    checker.undo(&after, &other)?;
    checker.undo(&recorded.history, &after)?;

    let mut more = recorded.after.clone();
    more.rows.push(Row::element(1, None));
    checker.undo(&to_vec(&more), &recorded.history)?;
    wrong_marks(checker, random, recorded)?;
    wrong_cuts(checker, random, recorded)
}

/// A document marks a row of the plan that was made or cut, or any other.
fn wrong_marks(
    checker: &mut Checker,
    random: &mut Random,
    recorded: &Recorded,
) -> Result<(), Difference> {
    let mut marked = recorded.after.clone();
    let rows = marked.rows.len();
    let (old, document) = (recorded.before.rows.len(), random.below(DOCUMENTS));
    let free = (0..rows as u16).filter(|&number| {
        let cut = recorded
            .before
            .row(number)
            .is_some_and(|row| row.parent().is_some());
        marked.takes_mark(number) && (usize::from(number) >= old || cut)
    });
    let free: Vec<u16> = free.collect();
    if !free.is_empty() {
        marked.marks[document] = Some(random.choose(&free));
        checker.undo(&to_vec(&marked), &recorded.history)?;
    }
    Ok(())
}

/// One more cut, of any row, from no parent, a leaf, itself, a higher row, an
/// element or no row at all; in front of the history, inside, or after it.
fn wrong_cuts(
    checker: &mut Checker,
    random: &mut Random,
    recorded: &Recorded,
) -> Result<(), Difference> {
    let after = to_vec(&recorded.after);
    let rows = recorded.after.rows.len();
    let number = random.below(rows + 2) as u16;
    let others = [
        NO_PARENT,
        NO_PARENT - 1,
        number,
        number + 1,
        number.saturating_sub(1),
        rows as u16,
        random.below(rows + 1) as u16,
        random.number() as u16,
    ];
    for old in others {
        let mut cut = Vec::new();
        append(
            &mut cut,
            Record::Cut {
                number,
                old: Some(old),
            },
        );
        checker.undo(&after, &[&recorded.history[..], &cut].concat())?;
        checker.undo(&after, &[&cut[..], &recorded.history].concat())?;
    }
    // The old parents of the history's own cuts.
    if let Some(start) = some_cut(random, &recorded.history) {
        let mut changed = recorded.history.clone();
        for old in others {
            changed[start + 3..start + CUT_BYTES].copy_from_slice(&old.to_le_bytes());
            checker.undo(&after, &changed)?;
        }
    }
    Ok(())
}

/// Where one of the cuts in a sound history starts.
fn some_cut(random: &mut Random, history: &[u8]) -> Option<usize> {
    let mut cuts = Vec::new();
    let mut place = 0;
    while place < history.len() {
        let cut = history[place] == LINK_CUT;
        cuts.extend(cut.then_some(place));
        place += if cut { CUT_BYTES } else { MADE_BYTES };
    }
    (!cuts.is_empty()).then(|| random.choose(&cuts))
}

/// A history with each byte changed, cut at each length, and its plan damaged.
fn damaged(
    checker: &mut Checker,
    random: &mut Random,
    recorded: &Recorded,
) -> Result<(), Difference> {
    let after = to_vec(&recorded.after);
    let history = &recorded.history;
    let mut check = |plan: &[u8], history: &[u8]| checker.undo(plan, history).map(|_| ());
    damage::each_byte(
        history,
        Values::for_length(history.len()),
        random,
        |damaged| check(&after, damaged),
    )?;
    damage::each_cut(history, |cut| check(&after, cut))?;
    (0..8).try_for_each(|_| check(&after, &damage::appended(history, random)))?;
    if after.len() <= SMALL_PLAN {
        damage::each_byte(&after, Values::Few, random, |plan| check(plan, history))?;
        damage::each_cut(&after, |plan| check(plan, history))?;
    }
    Ok(())
}

/// Areas of awkward lengths, for a sound history, a damaged one and a damaged
/// plan.
fn lengths(
    checker: &mut Checker,
    random: &mut Random,
    areas: &mut OwnedAreas,
) -> Result<(), Difference> {
    let recorded = of_run(random, areas);
    let after = to_vec(&recorded.after);
    let broken = damage::several(&after, random);
    let misfit = damage::several(&recorded.history, random);
    let stored = to_vec(&recorded.before).len();
    for length in out_lengths(stored) {
        checker.undo_in(&after, &recorded.history, length)?;
        checker.undo_in(&after, &misfit, length)?;
        checker.undo_in(&broken, &recorded.history, length)?;
        checker.undo_in(&broken, &misfit, length)?;
    }
    Ok(())
}

/// All histories of one record, and of two from fewer, on some small plans.
fn small_histories(checker: &mut Checker) -> Result<(), Difference> {
    let (root, below) = (Row::element(1, None), Row::element(2, Some(0)));
    let leaf = Row::leaf(2, Some(0));
    let plans = [
        vec![],
        vec![root],
        vec![root, root],
        vec![root, below],
        vec![root, leaf],
        vec![Row::leaf(1, None), root],
        vec![root, Row::leaf(0, None), root],
        vec![root, below, Row::leaf(-1, Some(1))],
    ];
    let one = records(&[0, 1, 2, 3, 0x0100, NO_PARENT], &[0, 1, 2, 0xFF]);
    let of_two = records(&[0, 1, 2, NO_PARENT], &[0, 1, 2]);
    for rows in plans {
        for marked in 0..=rows.len() as u16 {
            let mut table = Table {
                rows: rows.clone(),
                ..Table::default()
            };
            if table.takes_mark(marked) {
                table.marks[7] = Some(marked);
            } else if usize::from(marked) < rows.len() {
                continue;
            }
            let plan = to_vec(&table);
            for record in &one {
                checker.undo(&plan, record)?;
            }
            for first in &of_two {
                for second in &of_two {
                    checker.undo(&plan, &[&first[..], second].concat())?;
                }
            }
        }
    }
    Ok(())
}

/// Records with all these row numbers and tags, of right and wrong kinds.
fn records(numbers: &[u16], tags: &[u8]) -> Vec<Vec<u8>> {
    let mut records = Vec::new();
    for &number in numbers {
        let [low, high] = number.to_le_bytes();
        for &other in numbers {
            let [other_low, other_high] = other.to_le_bytes();
            records.push(vec![LINK_CUT, low, high, other_low, other_high]);
            for &tag in tags {
                for kind in [ELEMENT_MADE, LEAF_MADE] {
                    records.push(vec![kind, low, high, tag, other_low, other_high]);
                }
            }
        }
    }
    for kind in [0x00, 0x11, ELEMENT_MADE - 1, LINK_CUT + 1, 0xFF] {
        records.push(vec![kind, 0, 0, 1, 0xFF, 0xFF]);
    }
    records
}

/// Histories at, below and above the limit of records, and the longest that
/// can be taken back: each row of a full table made and then cut.
fn limits(checker: &mut Checker) -> Result<(), Difference> {
    let mut cuts = Vec::new();
    let mut made = Vec::new();
    let root = Row::element(1, None);
    append(
        &mut made,
        Record::Made {
            number: 0,
            row: root,
        },
    );
    for number in 1..ROWS as u16 {
        let old = Some(number - 1);
        let row = Row::element(1, old);
        append(&mut made, Record::Made { number, row });
        append(&mut cuts, Record::Cut { number, old });
    }
    let full = to_vec(&Table {
        rows: vec![root; ROWS],
        ..Table::default()
    });
    let all = [made, cuts.clone()].concat();
    checker.taken_back(&[], &full, &all)?;

    let tails: [&[u8]; 8] = [
        &[],
        &[LINK_CUT],
        &[LINK_CUT, 1, 0, 0, 0],
        &[ELEMENT_MADE, 0, 0, 0, 0xFF, 0xFF],
        &[ELEMENT_MADE, 0xFF, 1, 1, 0xFF, 0xFF],
        &[LEAF_MADE, 0, 0, 0, 0xFF],
        &[0x40],
        &[LINK_CUT + 1, 1, 0, 0, 0],
    ];
    let cut = &cuts[..CUT_BYTES];
    for count in HISTORY_RECORDS - 2..=HISTORY_RECORDS + 1 {
        let spare = count - (ROWS + ROWS - 1);
        for front in [cut.repeat(count), [&cut.repeat(spare)[..], &all].concat()] {
            for tail in tails {
                let history = [&front[..], tail].concat();
                checker.undo(&full, &history)?;
                checker.undo(&[], &history)?;
            }
            // One record less, and the last one cut off.
            checker.undo(&full, &front[..front.len() - CUT_BYTES])?;
            checker.undo(&full, &front[..front.len() - 1])?;
        }
    }
    Ok(())
}

/// A history of random bytes, mostly kinds and small numbers.
fn noise(random: &mut Random) -> Vec<u8> {
    let length = random.between(0, NOISE);
    let mut history = Vec::with_capacity(length + MADE_BYTES);
    while history.len() < length {
        let kind = random.choose(&[ELEMENT_MADE, LEAF_MADE, LINK_CUT]);
        let record = [
            kind,
            random.below(9) as u8,
            0,
            random.below(4) as u8,
            random.choose(&[0, 0, 0, 0xFF]),
            random.choose(&[0, 0xFF]),
        ];
        match random.below(20) {
            0 => history.push(random.byte()),
            _ if kind == LINK_CUT => history.extend(&record[..CUT_BYTES]),
            _ => history.extend(&record),
        }
    }
    history
}

//! Tables handed in packed: `yegnabit_write_table`, `yegnabit_sweep_table`.

use compare::generate::plans;
use compare::generate::random::Random;
use compare::oracle::limits::{DOCUMENTS, PLAN_BYTES, ROWS};
use compare::oracle::plan::stored_length;
use compare::oracle::table::Table;
use compare::raw::{RawTable, LINK_UNIT, LINK_VALUES, TAG_UNIT};

use super::area::out_lengths;
use super::checker::Checker;
use super::{Difference, Volume};

const SEED: u64 = 0x21;
const ROW_BITS: usize = 32;
const KINDS: u32 = LINK_UNIT;

pub fn test(checker: &mut Checker, volume: Volume) -> Result<(), Difference> {
    let mut random = Random::new(SEED);
    for _ in 0..volume.of(3000) {
        let raw = RawTable::of(&any_table(&mut random));
        checker.table(&raw)?;
        checker.table(&several_changes(&raw, &mut random))?;
    }
    for round in 0..volume.of(8) {
        let table = match round % 4 {
            0 => plans::full_table(&mut random),
            _ => any_table(&mut random),
        };
        let raw = RawTable::of(&table);
        changed_rows(checker, &mut random, &raw)?;
        changed_marks(checker, &raw)?;
        changed_counts(checker, &raw)?;
        areas(checker, &table)?;
    }
    for table in [Table::default(), plans::full_table(&mut random)] {
        changed_marks(checker, &RawTable::of(&table))?;
        changed_counts(checker, &RawTable::of(&table))?;
        areas(checker, &table)?;
    }
    small_tables(checker)
}

/// A random well-formed table.
fn any_table(random: &mut Random) -> Table {
    loop {
        let table = plans::any_table(random);
        if table.rows.len() <= ROWS {
            return table;
        }
    }
}

/// Each packed row changed in turn: single bits, and each field to awkward values.
fn changed_rows(
    checker: &mut Checker,
    random: &mut Random,
    raw: &RawTable,
) -> Result<(), Difference> {
    let mut changed = raw.clone();
    for index in 0..ROWS {
        let old = raw.rows[index];
        let (kind, link, tag) = (old % KINDS, old / LINK_UNIT % LINK_VALUES, old / TAG_UNIT);
        let pack = |kind: u32, link: u32, tag: u32| kind + LINK_UNIT * link + TAG_UNIT * tag;
        let mut numbers: Vec<u32> = (0..KINDS).map(|kind| pack(kind, link, tag)).collect();
        let own = index as u32;
        for link in [0, 1, own, own + 1, own + 2, 512, 513, LINK_VALUES - 1] {
            numbers.push(pack(kind, link % LINK_VALUES, tag));
        }
        for _ in 0..4 {
            numbers.push(pack(kind, random.below(index + 1) as u32, tag));
        }
        for tag in [0, 1, 127, 128, 255, 256, 257, (1 << 20) - 1] {
            numbers.push(pack(kind, link, tag));
        }
        numbers.push(0);
        numbers.push(random.number() as u32);
        numbers.push(old ^ (1 << random.below(ROW_BITS)));
        for packed in numbers {
            changed.rows[index] = packed;
            checker.table(&changed)?;
        }
        changed.rows[index] = old;
    }
    Ok(())
}

/// Each mark changed to rows in and out of the table.
fn changed_marks(checker: &mut Checker, raw: &RawTable) -> Result<(), Difference> {
    let mut changed = raw.clone();
    for document in 0..DOCUMENTS {
        for mark in (0..=ROWS as u16 + 2).chain([0x0300, 0x8000, 0xFFFE, 0xFFFF]) {
            changed.marks[document] = mark;
            checker.table(&changed)?;
        }
        changed.marks[document] = raw.marks[document];
        for other in 0..DOCUMENTS {
            changed.marks.swap(document, other);
            checker.table(&changed)?;
            changed.marks.swap(document, other);
            changed.marks[document] = raw.marks[other];
            checker.table(&changed)?;
            changed.marks[document] = raw.marks[document];
        }
    }
    Ok(())
}

/// The count changed, with the rows as they were.
fn changed_counts(checker: &mut Checker, raw: &RawTable) -> Result<(), Difference> {
    let near = (0..ROWS + 3).map(|count| (raw.count + count) % (ROWS + 3));
    let far = [
        usize::from(u16::MAX),
        1 << 16,
        u32::MAX as usize,
        (1 << 32) + raw.count,
        (1 << 63) + raw.count,
        usize::MAX,
    ];
    for count in near.chain(far) {
        checker.table(&RawTable {
            count,
            ..raw.clone()
        })?;
    }
    Ok(())
}

/// Areas of awkward lengths, for a sound table and ill-formed ones.
fn areas(checker: &mut Checker, table: &Table) -> Result<(), Difference> {
    let raw = RawTable::of(table);
    let mut too_many = raw.clone();
    too_many.count = ROWS + 1;
    let mut bad_mark = raw.clone();
    bad_mark.marks[DOCUMENTS - 1] = u16::MAX;
    let stored = stored_length(table);
    for raw in [&raw, &too_many, &bad_mark] {
        for out_length in out_lengths(stored) {
            checker.write_table(raw, out_length)?;
        }
        for rows in [0, 1, table.rows.len(), ROWS - 1, ROWS, ROWS + 1, 2 * ROWS] {
            for marks in [0, 1, DOCUMENTS - 1, DOCUMENTS, DOCUMENTS + 1] {
                let mut other = raw.clone();
                other.rows.resize(rows, 0);
                other.marks.resize(marks, 0);
                checker.sweep_table(&other)?;
                for out_length in [0, stored, PLAN_BYTES] {
                    checker.write_table(&other, out_length)?;
                }
            }
        }
    }
    Ok(())
}

/// A few packed rows, marks and the count changed at once, mostly near the rows.
fn several_changes(raw: &RawTable, random: &mut Random) -> RawTable {
    let mut changed = raw.clone();
    let near = (raw.count + 2).min(ROWS);
    for _ in 0..random.between(1, 3) {
        match random.below(6) {
            0 => {
                let document = random.below(DOCUMENTS);
                changed.marks[document] = random.below(near + 1) as u16;
            }
            1 => changed.count = changed.count.wrapping_add(random.below(3)).wrapping_sub(1),
            2 => {
                let (from, to) = (random.below(near), random.below(near));
                changed.rows.swap(from, to);
            }
            3 => changed.rows[random.below(ROWS)] = random.number() as u32,
            _ => {
                let index = random.below(near);
                changed.rows[index] ^= 1 << random.below(ROW_BITS);
            }
        }
    }
    changed
}

/// All tables of two rows and two marks from a small alphabet, with counts 0
/// to 3.
fn small_tables(checker: &mut Checker) -> Result<(), Difference> {
    let mut numbers = Vec::new();
    for kind in 0..KINDS {
        for link in 0..4 {
            numbers.extend([0, 1, 255, 256].map(|tag| kind + LINK_UNIT * link + TAG_UNIT * tag));
        }
    }
    let mut raw = RawTable::of(&Table::default());
    for &first in &numbers {
        for &second in &numbers {
            for marks in 0..16 {
                raw.rows[0] = first;
                raw.rows[1] = second;
                raw.marks[0] = marks % 4;
                raw.marks[7] = marks / 4;
                for count in 1..=2 {
                    raw.count = count;
                    checker.table(&raw)?;
                }
            }
            raw.marks.fill(0);
            for count in [0, 3] {
                raw.count = count;
                checker.table(&raw)?;
            }
        }
    }
    Ok(())
}

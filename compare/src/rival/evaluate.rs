//! The evaluator. Values lie on a stack in the work area: an expression leaves
//! its items on top of what was there. A bound variable is a span of it.

use super::script::Script;
use super::step::{step, Bits};
use super::table::{at, is_element, pack, parent, Table, PARENT};
use crate::oracle::history::{CUT_BYTES, ELEMENT_MADE, LINK_CUT, MADE_BYTES};
use crate::oracle::limits::{BINDERS, ITEMS, NO_PARENT, ROWS};
use crate::oracle::pick::NOT_SURVEYED;
use crate::oracle::plan::{ELEMENT, LEAF};
use crate::oracle::refusal::{Number, Refusal};
use crate::oracle::script::kind;

/// A value: a start and a length on the stack.
#[derive(Clone, Copy, Default)]
struct Span {
    start: usize,
    length: usize,
}

impl Span {
    fn range(self) -> std::ops::Range<usize> {
        self.start..self.start + self.length
    }
}

pub struct Evaluator<'a> {
    script: &'a Script,
    pub table: &'a mut Table,
    stack: &'a mut [u16],
    top: usize,
    history: &'a mut [u8],
    pub history_length: usize,
    pub rows_made: usize,
    pub links_cut: usize,
    /// The variables in scope, the outermost first, and those out of scope.
    variables: [Span; BINDERS],
}

impl<'a> Evaluator<'a> {
    pub fn new(
        script: &'a Script,
        table: &'a mut Table,
        stack: &'a mut [u16],
        history: &'a mut [u8],
    ) -> Evaluator<'a> {
        Evaluator {
            script,
            table,
            stack,
            top: 0,
            history,
            history_length: 0,
            rows_made: 0,
            links_cut: 0,
            variables: Default::default(),
        }
    }

    /// Runs the script. The answer is so many items at the bottom of the stack.
    pub fn run(&mut self) -> Result<usize, Refusal> {
        self.expression(0, 0)
    }

    /// Evaluates the expression whose record has this index, with so many
    /// variables bound, and answers the items it leaves on top.
    fn expression(&mut self, index: usize, bound: usize) -> Result<usize, Refusal> {
        let start = self.top;
        let [kind, body @ ..] = self.script.record(index);
        let first = index + 1;
        match kind {
            kind::EMPTY => {}
            kind::DOCUMENT => {
                let mark = self.table.marks[usize::from(body[0] % 8)];
                self.stack[start] = mark;
                self.top += usize::from(mark != NO_PARENT);
            }
            kind::VARIABLE => {
                let span = self.variables[usize::from(body[0]) % BINDERS];
                if span.length == 1 {
                    self.stack[start] = self.stack[span.start];
                } else {
                    self.stack.copy_within(span.range(), start);
                }
                self.top += span.length;
            }
            kind::STEP => {
                let items = self.expression(first, bound)?;
                let [axis, test, name] = body;
                self.step(start, items, axis, Bits::of(test, name));
            }
            kind::JOIN => {
                let left = self.expression(first, bound)?;
                let right = self.expression(self.script.after(first), bound)?;
                if left + right > ITEMS {
                    return Err(self.refused(Number::Items, index));
                }
            }
            kind::LET => {
                let length = self.expression(first, bound)?;
                let value = Span { start, length };
                self.variables[bound % BINDERS] = value;
                let length = self.expression(self.script.after(first), bound + 1)?;
                self.move_down(value.range().end, length, start);
            }
            kind::FOR => {
                let length = self.expression(first, bound)?;
                self.for_each(Span { start, length }, index, bound)?;
            }
            kind::IF => {
                let condition = self.expression(first, bound)?;
                self.top = start;
                let then = self.script.after(first);
                let taken = match condition {
                    0 => self.script.after(then),
                    _ => then,
                };
                self.expression(taken, bound)?;
            }
            kind::ELEMENT | kind::LEAF => {
                let made = match kind {
                    kind::ELEMENT => ELEMENT,
                    _ => LEAF,
                };
                self.stack[start] = self.table.count as u16;
                self.make(pack(made, body[0], NO_PARENT), index)?;
                self.top += 1;
            }
            kind::DELETE => {
                let length = self.expression(first, bound)?;
                self.delete(Span { start, length });
                self.top = start;
            }
            kind::INSERT => {
                let length = self.expression(first, bound)?;
                let source = Span { start, length };
                let targets = self.expression(self.script.after(first), bound)?;
                self.insert(source, targets, index)?;
                self.top = start;
            }
            _ => {
                let items = self.expression(first, bound)?;
                self.pick(start, items, body[0], body[1] as i8);
            }
        }
        Ok(self.top - start)
    }

    /// Runs the body once for each item of the first operand.
    fn for_each(&mut self, value: Span, record: usize, bound: usize) -> Result<(), Refusal> {
        let body = self.script.after(record + 1);
        let results = self.top;
        for start in value.range() {
            self.variables[bound % BINDERS] = Span { start, length: 1 };
            self.expression(body, bound + 1)?;
            if self.top - results > ITEMS {
                return Err(self.refused(Number::Items, record));
            }
        }
        self.move_down(results, self.top - results, value.start);
        Ok(())
    }

    /// Moves a value down, over what was below it.
    fn move_down(&mut self, from: usize, length: usize, start: usize) {
        if from != start {
            self.stack.copy_within(from..from + length, start);
        }
        self.top = start + length;
    }

    /// Replaces the value on top by what a step reaches from it. The work area
    /// has room for one more value wherever a value begins.
    fn step(&mut self, start: usize, items: usize, axis: u8, test: Bits) {
        let area = self.stack[start..].first_chunk_mut();
        let area = area.expect("a value has room for 512 items");
        self.top = start + step(self.table, axis, test, items, area);
    }

    /// Keeps the leaves of the value on top whose value is in a range. Those
    /// not surveyed are below all others.
    fn pick(&mut self, start: usize, items: usize, relation: u8, constant: i8) {
        // A row as a number: its kind, and its value from 0 on.
        let number = |low: u16| low.swap_bytes() ^ 0x80;
        let leaf = |value: i8| number(u16::from_le_bytes([LEAF, value as u8]));
        let constant = leaf(constant);
        let (least, past) = match relation {
            0 => (constant, constant + 1),
            1 => (leaf(NOT_SURVEYED) + 1, constant),
            _ => (constant + 1, leaf(i8::MAX) + 1),
        };
        // Nothing is less than a leaf that is not surveyed.
        let span = past.saturating_sub(least);
        let value = &mut self.stack[start..start + items];
        let mut kept = 0;
        for index in 0..value.len() {
            let item = value[index];
            let row = number(self.table.rows[at(item)] as u16);
            value[kept] = item;
            kept += usize::from(row.wrapping_sub(least) < span);
        }
        self.top = start + kept;
    }

    /// Cuts each row of a value from its parent. The history area has room for
    /// the records: a row is made at most once and cut at most once.
    fn delete(&mut self, value: Span) {
        for &item in &self.stack[value.range()] {
            let row = &mut self.table.rows[at(item)];
            let old = parent(*row);
            if old != NO_PARENT {
                *row |= PARENT;
                let ([low, high], [old_low, old_high]) = (item.to_le_bytes(), old.to_le_bytes());
                let end = self.history_length + CUT_BYTES;
                self.history[self.history_length..end]
                    .copy_from_slice(&[LINK_CUT, low, high, old_low, old_high]);
                self.history_length = end;
                self.links_cut += 1;
            }
        }
    }

    /// Copies each item of the source under the one element on top.
    fn insert(&mut self, source: Span, targets: usize, record: usize) -> Result<(), Refusal> {
        let target = self.stack[source.range().end];
        if targets != 1 || !is_element(self.table.rows[at(target)]) {
            return Err(self.refused(Number::Target, record));
        }
        let old_count = self.table.count.min(ROWS);
        for index in source.range() {
            let item = self.stack[index];
            self.copy(item, target, old_count, record)?;
        }
        Ok(())
    }

    /// Copies one item and its descendants among the first `old_count` rows.
    fn copy(
        &mut self,
        item: u16,
        target: u16,
        old_count: usize,
        record: usize,
    ) -> Result<(), Refusal> {
        let top = self.table.rows[at(item)];
        let number = self.table.count;
        self.make(top & !PARENT | u32::from(target) << 16, record)?;
        if !is_element(top) {
            return Ok(());
        }
        // The copy of each row that is the item or below it, or none; the last
        // is that of no parent.
        let mut copies = [NO_PARENT; ROWS + 1];
        copies[at(item)] = number as u16;
        for original in usize::from(item) + 1..old_count {
            let row = self.table.rows[original];
            let above = copies[usize::from(parent(row)).min(ROWS)];
            if above != NO_PARENT {
                copies[original] = self.table.count as u16;
                self.make(row & !PARENT | u32::from(above) << 16, record)?;
            }
        }
        Ok(())
    }

    /// Adds a row.
    fn make(&mut self, row: u32, record: usize) -> Result<(), Refusal> {
        let number = self.table.count;
        if number >= ROWS {
            return Err(self.refused(Number::Table, record));
        }
        self.table.rows[number] = row;
        self.table.count += 1;
        self.rows_made += 1;
        let [kind, tag, parent_low, parent_high] = row.to_le_bytes();
        let [low, high] = (number as u16).to_le_bytes();
        let kind = kind + (ELEMENT_MADE - ELEMENT);
        let end = self.history_length + MADE_BYTES;
        self.history[self.history_length..end].copy_from_slice(&[
            kind,
            low,
            high,
            tag,
            parent_low,
            parent_high,
        ]);
        self.history_length = end;
        Ok(())
    }

    /// Refuses the record with this index.
    fn refused(&self, number: Number, record: usize) -> Refusal {
        number.at(self.script.place(record))
    }
}

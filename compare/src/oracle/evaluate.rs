//! Document 01, 'The scripts': the evaluator. A value is a list of its own.

use super::history::Record;
use super::limits::{ITEMS, ROWS};
use super::pick::{is_surveyed, keeps, Pick};
use super::refusal::{Number, Refusal};
use super::script::{Expression, Operation, Relation};
use super::step::step;
use super::table::{Kind, Row, Table};

/// "A value is a list of row numbers."
pub type Value = Vec<u16>;

/// What comes back of a script that is not refused.
pub struct Evaluated {
    pub answer: Value,
    pub history: Vec<Record>,
    pub picks: Vec<Pick>,
}

/// Runs a script on a well-formed table, which it changes, refused or not.
pub fn evaluate(script: &Expression, table: &mut Table) -> Result<Evaluated, Refusal> {
    let mut evaluator = Evaluator {
        table,
        history: Vec::new(),
        picks: Vec::new(),
    };
    let answer = evaluator.value(script, &mut Vec::new())?;
    Ok(Evaluated {
        answer,
        history: evaluator.history,
        picks: evaluator.picks,
    })
}

struct Evaluator<'a> {
    table: &'a mut Table,
    history: Vec<Record>,
    /// The picks that ran so far.
    picks: Vec<Pick>,
}

impl Evaluator<'_> {
    /// The value of an expression. "Operands run left to right and updates act
    /// immediately."
    fn value(
        &mut self,
        expression: &Expression,
        variables: &mut Vec<Value>,
    ) -> Result<Value, Refusal> {
        let (place, operands) = (expression.place, &expression.operands[..]);
        match expression.operation {
            // "empty value"
            Operation::Empty => Ok(Value::new()),
            // "its marked row, or empty"
            Operation::Document(document) => {
                let mark = self.table.marks[usize::from(document)];
                Ok(mark.into_iter().collect())
            }
            // "its value; 0 is the outermost binder"
            Operation::Variable(variable) => Ok(variables[usize::from(variable)].clone()),
            // "step from 1 operand"
            Operation::Step(axis, test) => {
                let value = self.value(&operands[0], variables)?;
                Ok(step(self.table, axis, test, &value))
            }
            // "2, joined in order, repeats kept"
            Operation::Join => {
                let left = self.value(&operands[0], variables)?;
                let right = self.value(&operands[1], variables)?;
                joined(left, &right, place)
            }
            // "let: bind the 1st, answer the 2nd"
            Operation::Let => {
                let bound = self.value(&operands[0], variables)?;
                self.value_with(bound, &operands[1], variables)
            }
            // "A 'for' runs its second expression once for each item of the
            // first, with that item bound, and joins the results; it stops
            // with 8 after the item that passes the limit."
            Operation::For => {
                let mut answer = Value::new();
                for item in self.value(&operands[0], variables)? {
                    let more = self.value_with(vec![item], &operands[1], variables)?;
                    answer = joined(answer, &more, place)?;
                }
                Ok(answer)
            }
            // "if the 1st is not empty the 2nd, else the 3rd"
            Operation::If => {
                let condition = self.value(&operands[0], variables)?;
                let branch = if condition.is_empty() { 2 } else { 1 };
                self.value(&operands[branch], variables)
            }
            // "new element without parent", "new leaf without parent"
            Operation::Element(name) => self.make(Row::element(name, None), place),
            Operation::Leaf(value) => self.make(Row::leaf(value, None), place),
            // "delete 1": "its answer is empty"
            Operation::Delete => {
                for item in self.value(&operands[0], variables)? {
                    self.cut(item);
                }
                Ok(Value::new())
            }
            // "insert 1st into 2nd": "its answer is empty"
            Operation::Insert => {
                let source = self.value(&operands[0], variables)?;
                let target = self.value(&operands[1], variables)?;
                self.insert(&source, &target, place)?;
                Ok(Value::new())
            }
            // "pick from 1 operand"
            Operation::Pick(relation, constant) => {
                let value = self.value(&operands[0], variables)?;
                Ok(self.picked(&value, relation, constant))
            }
        }
    }

    /// The value of a binder's second operand, with one more variable bound.
    fn value_with(
        &mut self,
        bound: Value,
        body: &Expression,
        variables: &mut Vec<Value>,
    ) -> Result<Value, Refusal> {
        variables.push(bound);
        let answer = self.value(body, variables);
        variables.pop();
        answer
    }

    /// "Pick keeps the leaves" that `pick.rs` says; "elements are dropped".
    fn picked(&mut self, value: &[u16], relation: Relation, constant: i8) -> Value {
        let row = |item: u16| self.table.rows[usize::from(item)];
        let mut leaves = value.to_vec();
        leaves.retain(|&item| row(item).kind == Kind::Leaf);
        let mut kept = leaves.clone();
        kept.retain(|&leaf| keeps(row(leaf).value(), relation, constant));
        let over_unsurveyed = leaves.iter().any(|&leaf| !is_surveyed(row(leaf).value()));
        self.picks.push(Pick {
            relation,
            constant,
            over_unsurveyed,
        });
        kept
    }

    /// "Delete cuts each row of its value from its parent, and does nothing to
    /// a row without one."
    fn cut(&mut self, number: u16) {
        let old = self.table.parent(number);
        if old.is_some() {
            self.history.push(Record::Cut { number, old });
            let row = &mut self.table.rows[usize::from(number)];
            *row = row.with_parent(None);
        }
    }

    /// "Insert needs a target value of exactly one item, an element, even when
    /// there is nothing to copy. It copies each item in order, the item first
    /// and then its descendants in rising number, as the table was before the
    /// insert; tops hang under the target."
    fn insert(&mut self, source: &[u16], target: &[u16], place: usize) -> Result<(), Refusal> {
        let &[target] = target else {
            return Err(Number::Target.at(place));
        };
        if !self.table.rows[usize::from(target)].is_element() {
            return Err(Number::Target.at(place));
        }
        let before = self.table.clone();
        for &item in source {
            // The item is above the others, and so has the lowest number.
            let mut originals = subtree(&before, item);
            originals.sort_unstable();
            let first_copy = self.table.rows.len();
            for &original in &originals {
                // A row that is not the top hangs under its parent's copy.
                let parent = match before.parent(original) {
                    Some(parent) if original != item => {
                        let at = originals.iter().position(|&other| other == parent);
                        (first_copy + at.expect("it is copied before")) as u16
                    }
                    _ => target,
                };
                let row = before.rows[usize::from(original)].with_parent(Some(parent));
                self.make(row, place)?;
            }
        }
        Ok(())
    }

    /// "New rows take the next numbers", and 10 is "new rows pass 512".
    fn make(&mut self, row: Row, place: usize) -> Result<Value, Refusal> {
        if self.table.rows.len() == ROWS {
            return Err(Number::Table.at(place));
        }
        let number = self.table.rows.len() as u16;
        self.history.push(Record::Made { number, row });
        self.table.rows.push(row);
        Ok(vec![number])
    }
}

/// 8: "a join or 'for' passes 512 items".
fn joined(mut left: Value, right: &[u16], place: usize) -> Result<Value, Refusal> {
    left.extend(right);
    if left.len() > ITEMS {
        return Err(Number::Items.at(place));
    }
    Ok(left)
}

/// A row and all below it, by recursion: those of each of its children.
fn subtree(table: &Table, number: u16) -> Vec<u16> {
    let mut rows = vec![number];
    for (child, row) in (0u16..).zip(&table.rows) {
        if row.parent() == Some(number) {
            rows.extend(subtree(table, child));
        }
    }
    rows
}

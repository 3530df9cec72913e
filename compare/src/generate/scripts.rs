//! Scripts of a wanted number of records, depth and nesting of binders.

use super::random::Random;
use super::values;
use crate::oracle::limits::{BINDERS, DEPTH, DOCUMENTS, SCRIPT_RECORDS};
use crate::oracle::script::kind;

/// What a script is to look like.
#[derive(Clone, Copy, Debug)]
pub struct Wanted {
    pub records: usize,
    /// The depth, reached exactly if the records are enough for it.
    pub depth: usize,
    /// Binders nested on the deepest branch, as far as it is deep enough.
    pub binders: usize,
    /// Percent of variables that are one past the scope.
    pub unbound: usize,
    /// Percent of steps that are upward.
    pub upward: usize,
    /// Percent of new leaves that are not surveyed.
    pub unsurveyed: usize,
    /// Percent of picks that have a common constant.
    pub common: usize,
    /// Names are 1 to this, documents 0 to one less.
    pub names: u8,
}

impl Wanted {
    /// At all limits, with some upward steps and few names.
    pub const AT_LIMITS: Wanted = Wanted {
        records: SCRIPT_RECORDS,
        depth: DEPTH,
        binders: BINDERS,
        unbound: 0,
        upward: 10,
        unsurveyed: values::UNSURVEYED,
        common: values::COMMON,
        names: 3,
    };

    /// Anything, often near or just past a limit.
    pub fn random(random: &mut Random) -> Wanted {
        let near = |random: &mut Random, limit: usize, low: usize| match random.below(4) {
            0 => random.between(limit - 1, limit + 1),
            _ => random.between(low, limit),
        };
        Wanted {
            records: near(random, SCRIPT_RECORDS, 1),
            depth: near(random, DEPTH, 1),
            binders: near(random, BINDERS, 0),
            unbound: random.choose(&[0, 0, 0, 0, 2]),
            upward: random.choose(&[0, 20]),
            unsurveyed: values::UNSURVEYED,
            common: values::COMMON,
            names: random.choose(&[1, 3, 8]),
        }
    }

    /// Small, within all limits, downward only, with few names.
    pub fn small(random: &mut Random) -> Wanted {
        Wanted {
            records: random.between(1, 8),
            depth: random.between(2, 5),
            binders: random.between(0, 2),
            unbound: 0,
            upward: 0,
            unsurveyed: values::UNSURVEYED,
            common: values::COMMON,
            names: 2,
        }
    }
}

/// A script as wanted. It is accepted unless a limit is passed or a variable
/// is not bound.
pub fn script(random: &mut Random, wanted: Wanted) -> Vec<u8> {
    let mut writer = Writer {
        random,
        wanted,
        bytes: Vec::new(),
    };
    let records = wanted.records.min(capacity(wanted.depth));
    writer.expression(Part {
        records,
        height: wanted.depth,
        spine: records >= wanted.depth,
        scope: 0,
    });
    writer.bytes
}

/// The most records of an expression of this height: three operands each.
fn capacity(height: usize) -> usize {
    (3usize.pow(height as u32) - 1) / 2
}

/// An expression still to be written.
#[derive(Clone, Copy)]
struct Part {
    records: usize,
    /// The most levels it may take.
    height: usize,
    /// Must it take all of them?
    spine: bool,
    scope: usize,
}

struct Writer<'a> {
    random: &'a mut Random,
    wanted: Wanted,
    bytes: Vec<u8>,
}

impl Writer<'_> {
    fn expression(&mut self, part: Part) {
        if part.records == 1 {
            self.without_operands(part.scope);
            return;
        }
        let below = capacity(part.height - 1);
        let rest = part.records - 1;
        // The spine's operand needs a record for each level below.
        let for_spine = if part.spine { part.height - 1 } else { 1 };
        let possible: Vec<usize> = (1..=3)
            .filter(|operands| operands - 1 + for_spine <= rest && operands * below >= rest)
            .collect();
        let wants_binder = part.spine && part.scope < self.wanted.binders && possible.contains(&2);
        let operands = if wants_binder {
            2
        } else {
            self.random.choose(&possible)
        };
        let kind = match operands {
            1 => self.one_operand(),
            2 if wants_binder => self.random.choose(&[kind::LET, kind::FOR]),
            2 if part.scope < BINDERS.min(self.wanted.binders) => {
                self.random
                    .choose(&[kind::JOIN, kind::INSERT, kind::LET, kind::FOR])
            }
            2 => self.random.choose(&[kind::JOIN, kind::JOIN, kind::INSERT]),
            _ => kind::IF,
        };
        if operands > 1 {
            self.bytes.push(kind);
        }
        self.operands(part, operands, matches!(kind, kind::LET | kind::FOR));
    }

    /// Shares the records out among the operands and writes them.
    fn operands(&mut self, part: Part, operands: usize, binder: bool) {
        let below = capacity(part.height - 1);
        let mut rest = part.records - 1;
        let spine = match (part.spine, binder) {
            (false, _) => None,
            (true, true) => Some(1),
            (true, false) => Some(self.random.below(operands)),
        };
        // The spine's operand keeps a record for each level below and for the
        // first operand of each binder still wanted, as far as there are some.
        let binders_left = self
            .wanted
            .binders
            .saturating_sub(part.scope + usize::from(binder));
        let for_spine = (part.height - 1 + binders_left)
            .min(rest - (operands - 1))
            .min(below);
        let least = |operand: usize| {
            if spine == Some(operand) {
                for_spine
            } else {
                1
            }
        };
        for operand in 0..operands {
            let later: usize = (operand + 1..operands).map(least).sum();
            let later_most = below * (operands - 1 - operand);
            let low = least(operand).max(rest.saturating_sub(later_most));
            let high = (rest - later).min(below);
            // Low shares are likelier, so that records are left for the spine.
            let share = self.random.between(low, high);
            let share = share.min(self.random.between(low, high));
            let share = if operand + 1 == operands { rest } else { share };
            rest -= share;
            self.expression(Part {
                records: share,
                height: part.height - 1,
                spine: spine == Some(operand),
                scope: part.scope + usize::from(binder && operand == 1),
            });
        }
    }

    /// Writes a record with one operand and answers its kind.
    fn one_operand(&mut self) -> u8 {
        let kind =
            self.random
                .choose(&[kind::STEP, kind::STEP, kind::STEP, kind::DELETE, kind::PICK]);
        match kind {
            kind::STEP => {
                let upward = self.random.chance(self.wanted.upward);
                let axis = self.random.below(2) as u8 + 2 * u8::from(upward);
                let test = self.random.below(4) as u8;
                let name = if test == 3 { self.name() } else { 0 };
                self.bytes.extend([kind::STEP, axis, test, name]);
            }
            kind::PICK => self
                .bytes
                .extend(values::pick(self.random, self.wanted.common)),
            _ => self.bytes.push(kind),
        }
        kind
    }

    fn without_operands(&mut self, scope: usize) {
        if self.random.chance(self.wanted.unbound) {
            self.bytes.extend([kind::VARIABLE, scope as u8]);
            return;
        }
        let variables = if scope == 0 { 0 } else { 5 };
        match self.random.below(8 + variables) {
            0 => self.bytes.push(kind::EMPTY),
            1 => {
                let name = self.name();
                self.bytes.extend([kind::ELEMENT, name]);
            }
            2 => {
                let value = values::leaf(self.random, self.wanted.unsurveyed);
                self.bytes.extend([kind::LEAF, value as u8]);
            }
            3..=7 => {
                let documents = usize::from(self.wanted.names).min(DOCUMENTS);
                let document = self.random.below(documents) as u8;
                self.bytes.extend([kind::DOCUMENT, document]);
            }
            _ => {
                let variable = self.random.below(scope) as u8;
                self.bytes.extend([kind::VARIABLE, variable]);
            }
        }
    }

    fn name(&mut self) -> u8 {
        self.random.between(1, usize::from(self.wanted.names)) as u8
    }
}

#[cfg(test)]
mod tests {
    use super::*;
    use crate::oracle::refusal::Number;
    use crate::oracle::script::read;

    #[test]
    fn scripts_at_the_limits_are_accepted() {
        let mut random = Random::new(1);
        for _ in 0..200 {
            let script = read(&script(&mut random, Wanted::AT_LIMITS)).expect("within the limits");
            assert_eq!(script.records().len(), SCRIPT_RECORDS);
        }
    }

    #[test]
    fn scripts_past_a_limit_are_refused() {
        let mut random = Random::new(2);
        let past = [
            Wanted {
                records: SCRIPT_RECORDS + 1,
                ..Wanted::AT_LIMITS
            },
            Wanted {
                depth: DEPTH + 1,
                ..Wanted::AT_LIMITS
            },
            Wanted {
                binders: BINDERS + 1,
                ..Wanted::AT_LIMITS
            },
        ];
        for wanted in past {
            for _ in 0..200 {
                let refusal = read(&script(&mut random, wanted)).expect_err("past a limit");
                assert_eq!(refusal.number, Number::Size);
            }
        }
    }
}

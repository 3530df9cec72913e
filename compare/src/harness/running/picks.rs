//! The picks of the runs that ended: how many had a leaf in their operand that
//! is not surveyed, and what was asked of it.

use std::fmt::Write;

use compare::interface::Answer;
use compare::oracle::pick::{keeps, of_run, Pick, NOT_SURVEYED};
use compare::oracle::script::kind;

use crate::harness::tally::percent;
use crate::harness::Difference;

const RELATIONS: [&str; 3] = ["equal", "less", "greater"];
/// The constants that are counted by themselves: not surveyed, and the least
/// and the greatest value that a surveyed leaf has.
const CONSTANTS: [i8; 3] = [NOT_SURVEYED, -127, 127];
/// At least so many of the picks are over a leaf not surveyed, in percent.
const LEAST_OVER: f64 = 10.0;
/// At least so many are over one with each relation and each of the constants.
const LEAST_OF_EACH: f64 = 0.2;

#[derive(Default)]
pub struct Picks {
    ran: u64,
    /// Those over a leaf not surveyed.
    over: u64,
    /// Of these, those with each relation, and with each constant or another.
    each: [[u64; CONSTANTS.len() + 1]; RELATIONS.len()],
    /// Those that −128 as the least value would have given another answer.
    changed: u64,
}

impl Picks {
    /// Counts the picks of a run, if it was not refused.
    pub fn count(&mut self, plan: &[u8], script: &[u8], answer: Answer) {
        if answer.number() == 0 && script.contains(&kind::PICK) {
            for pick in of_run(plan, script) {
                self.count_one(pick);
            }
        }
    }

    fn count_one(&mut self, pick: Pick) {
        self.ran += 1;
        let Pick {
            relation, constant, ..
        } = pick;
        if pick.over_unsurveyed {
            self.over += 1;
            let known = CONSTANTS.iter().position(|&known| known == constant);
            self.each[relation as usize][known.unwrap_or(CONSTANTS.len())] += 1;
            let kept_before = relation.holds(NOT_SURVEYED, constant);
            self.changed += u64::from(kept_before != keeps(NOT_SURVEYED, relation, constant));
        }
    }

    /// How many picks were over a leaf not surveyed.
    pub fn over(&self) -> u64 {
        self.over
    }

    /// Refuses a test in which such picks are rare, or none was answered
    /// otherwise than before request (a).
    pub fn require(&self) -> Result<(), Difference> {
        let over = percent(self.over, self.ran);
        if over < LEAST_OVER {
            return Err(format!("only {over:.2}% of the picks have a leaf of -128"));
        }
        for (name, counts) in RELATIONS.iter().zip(self.each) {
            for (constant, count) in CONSTANTS.iter().zip(counts) {
                let percent = percent(count, self.ran);
                if percent < LEAST_OF_EACH {
                    return Err(format!(
                        "only {percent:.2}% of the picks, '{name} {constant}', have a leaf of -128"
                    ));
                }
            }
        }
        match self.changed {
            0 => Err("no pick shows that -128 is not the least value".into()),
            _ => Ok(()),
        }
    }

    /// Two lines for the summary.
    pub fn lines(&self) -> String {
        let Picks {
            ran, over, changed, ..
        } = self;
        let mut lines = format!(
            "of {ran} picks in runs that ended, with a leaf of -128: {over} ({:.1}%), \
             of another answer than with -128 as the least value: {changed}\n\
             picks with a leaf of -128, by constant {CONSTANTS:?} and others:",
            percent(*over, *ran)
        );
        for (name, counts) in RELATIONS.iter().zip(self.each) {
            write!(lines, " {name} {counts:?}").expect("a string takes all");
        }
        lines.push('\n');
        lines
    }
}

//! Pairs of path positions: `yegnabit_analyse` where its table of pairs is full,
//! and where a row or a mark of the table could be left out.
//!
//! Here the rival is asked too. All scripts are accepted and go downward only,
//! so that each answer is `free` or `meet`. These pairs are not in the tally,
//! whose shares are those of random pairs.

mod corners;
mod dead;
mod leaves;
mod limits;

use std::fmt;

use compare::interface::Answer;
use compare::oracle::analysis::Answer::{self as Analysed, Free, Meet};
use compare::oracle::calls as oracle;
use compare::oracle::script::kind;
use compare::rival::calls as rival;

use super::checker::{self, difference, document_says, Checker};
use super::tally::Call;
use super::{Difference, Volume};
use crate::ffi;

pub fn test(checker: &mut Checker, volume: Volume) -> Result<(), Difference> {
    checker.notes += &limits::test(volume)?;
    checker.notes += &leaves::test()?;
    checker.notes += &dead::test()?;
    Ok(())
}

/// How many pairs were compared, by their answer.
#[derive(Clone, Copy, Default)]
struct Counts {
    free: u64,
    meet: u64,
}

impl Counts {
    /// Compares the library with the oracle and with the rival.
    fn compare(&mut self, first: &[u8], second: &[u8]) -> Result<Analysed, Difference> {
        let told = |message: String| difference(Call::Analyse, &[first, second], &message);
        let library = ffi::analyse(first, second);
        checker::compare((library, oracle::analyse(first, second))).map_err(told)?;
        let rival = rival::analyse(first, second);
        if rival != library {
            return Err(told(format!("library {library:?}; rival {rival:?}")));
        }
        for (analysed, count) in [(Free, &mut self.free), (Meet, &mut self.meet)] {
            if library == Answer::analysed(analysed) {
                *count += 1;
                return Ok(analysed);
            }
        }
        Err(told(format!("{library:?}, where free or meet is meant")))
    }

    /// Compares a pair of which the answer is known by hand.
    fn compare_with(
        &mut self,
        first: &[u8],
        second: &[u8],
        expected: Analysed,
    ) -> Result<(), Difference> {
        let analysed = Answer::analysed(self.compare(first, second)?);
        let expected = Answer::analysed(expected);
        document_says(expected, analysed, Call::Analyse, &[first, second])
    }

    fn add(&mut self, more: Counts) {
        self.free += more.free;
        self.meet += more.meet;
    }

    /// Refuses a test in which one of the answers comes up less often.
    fn require_at_least(&self, least: u64, test: &str) -> Result<(), Difference> {
        match self.free >= least && self.meet >= least {
            true => Ok(()),
            false => Err(format!("{test}: too few of one answer: {self}")),
        }
    }
}

impl fmt::Display for Counts {
    fn fmt(&self, formatter: &mut fmt::Formatter<'_>) -> fmt::Result {
        let Counts { free, meet } = self;
        write!(formatter, "{} pairs, free {free}, meet {meet}", free + meet)
    }
}

const JOIN: [u8; 1] = [kind::JOIN];
const IF: [u8; 1] = [kind::IF];
const DELETE: [u8; 1] = [kind::DELETE];
const INSERT: [u8; 1] = [kind::INSERT];
const NEW_ELEMENT: [u8; 2] = [kind::ELEMENT, 1];
const CHILDREN: [u8; 4] = [kind::STEP, 0, 0, 0];
const CHILD_ELEMENTS: [u8; 4] = [kind::STEP, 0, 1, 0];
const LEAVES: [u8; 4] = [kind::STEP, 0, 2, 0];
const ALL_BELOW: [u8; 4] = [kind::STEP, 1, 0, 0];

const fn document(document: u8) -> [u8; 2] {
    [kind::DOCUMENT, document]
}

const fn named(name: u8) -> [u8; 4] {
    [kind::STEP, 0, 3, name]
}

/// What a script does with a path.
type Use = fn(&[u8]) -> Vec<u8>;

/// A record and its operands.
fn of(record: &[u8], operands: &[&[u8]]) -> Vec<u8> {
    [record, &operands.concat()].concat()
}

//! What the C interface of the library passes: answers and lent areas.

use crate::oracle::analysis;
use crate::oracle::limits::{ANSWER_NUMBERS, HISTORY_BYTES, PLAN_BYTES, WORK_NUMBERS};
use crate::oracle::refusal::{Number, Refusal};

/// Whose refusal it is.
pub const WHICH_AREA: u64 = 0;
pub const WHICH_PLAN: u64 = 1;
pub const WHICH_SCRIPT: u64 = 2;
pub const WHICH_HISTORY: u64 = 2;
pub const WHICH_FIRST: u64 = 1;
pub const WHICH_SECOND: u64 = 2;

/// Numbers that a run hands back: the items of the answer, rows made, links
/// cut, records written, bytes of the history, bytes of the plan.
pub const DONE_NUMBERS: usize = 6;

const WHICH_UNIT: u64 = 256;
const PLACE_UNIT: u64 = 65_536;

/// What a call answers: number + 256 * which + 65,536 * place. Number 0 means
/// not refused.
#[derive(Clone, Copy, PartialEq, Eq)]
pub struct Answer(pub u64);

impl Answer {
    pub fn accepted(place: usize) -> Answer {
        Answer(PLACE_UNIT * place as u64)
    }

    /// What an analysis says stands where a refusal has its input.
    pub fn analysed(answer: analysis::Answer) -> Answer {
        let which = match answer {
            analysis::Answer::Free => 0,
            analysis::Answer::Upward => 1,
            analysis::Answer::Meet => 2,
        };
        Answer(WHICH_UNIT * which)
    }

    /// A lent area is too short: "11 comes first; it is at place 0".
    pub fn lent() -> Answer {
        Answer::refused(WHICH_AREA, Number::Lent.at(0))
    }

    /// The answer with a place, or with the refusal of this input.
    pub fn of(which: u64, place: Result<usize, Refusal>) -> Answer {
        match place {
            Ok(place) => Answer::accepted(place),
            Err(refusal) => Answer::refused(which, refusal),
        }
    }

    pub fn refused(which: u64, refusal: Refusal) -> Answer {
        let number = u64::from(refusal.number.value());
        Answer(number + WHICH_UNIT * which + PLACE_UNIT * refusal.place as u64)
    }

    pub const fn number(self) -> u64 {
        self.0 % WHICH_UNIT
    }

    /// Is the number one of the table of refusals, or 0? It is not where the
    /// number is 9, which is retired.
    pub fn is_known(self) -> bool {
        let mut numbers = Number::ALL.iter().map(|number| number.value());
        self.number() == 0 || numbers.any(|number| u64::from(number) == self.number())
    }

    pub const fn which(self) -> u64 {
        self.0 / WHICH_UNIT % (PLACE_UNIT / WHICH_UNIT)
    }

    pub const fn place(self) -> u64 {
        self.0 / PLACE_UNIT
    }
}

impl std::fmt::Debug for Answer {
    fn fmt(&self, formatter: &mut std::fmt::Formatter<'_>) -> std::fmt::Result {
        let (number, which, place) = (self.number(), self.which(), self.place());
        write!(formatter, "number {number}, which {which}, place {place}")
    }
}

/// The areas lent to the call for a run.
pub struct Lent<'a> {
    pub answer: &'a mut [u16],
    pub history: &'a mut [u8],
    pub work: &'a mut [u16],
    pub out: &'a mut [u8],
    pub done: &'a mut [u64],
}

/// Areas of the lengths that a run needs.
#[derive(PartialEq)]
pub struct Areas {
    pub answer: Vec<u16>,
    pub history: Vec<u8>,
    pub work: Vec<u16>,
    pub out: Vec<u8>,
    pub done: Vec<u64>,
}

impl Areas {
    /// Areas that hold nothing but this number.
    pub fn holding(number: u8) -> Areas {
        Areas {
            answer: vec![number.into(); ANSWER_NUMBERS],
            history: vec![number; HISTORY_BYTES],
            work: vec![number.into(); WORK_NUMBERS],
            out: vec![number; PLAN_BYTES],
            done: vec![number.into(); DONE_NUMBERS],
        }
    }

    pub fn lend(&mut self) -> Lent<'_> {
        Lent {
            answer: &mut self.answer,
            history: &mut self.history,
            work: &mut self.work,
            out: &mut self.out,
            done: &mut self.done,
        }
    }
}

#[cfg(test)]
mod tests {
    use super::*;

    /// The table of refusals as request (h) of document 02 leaves it.
    #[test]
    fn known_numbers() {
        let known = |number: &u64| Answer(PLACE_UNIT + WHICH_UNIT + number).is_known();
        let numbers: Vec<u64> = (0..WHICH_UNIT).filter(known).collect();
        assert_eq!(numbers, [0, 1, 2, 3, 4, 5, 6, 7, 8, 10, 11]);
    }
}

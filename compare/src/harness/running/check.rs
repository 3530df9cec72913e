//! The comparison of one run: the answer, the five lent areas, and the laws.

use compare::interface::{Answer, Lent, DONE_NUMBERS};
use compare::oracle::calls;
use compare::oracle::limits::{ANSWER_NUMBERS, HISTORY_BYTES, PLAN_BYTES, WORK_NUMBERS};
use compare::oracle::run::Tally;

use super::histories::{tally, Histories};
use super::picks::Picks;
use super::shares::Shares;
use crate::ffi;
use crate::harness::area::Twin;
use crate::harness::checker::{compare, difference, Checker};
use crate::harness::tally::Call;
use crate::harness::Difference;

/// The lengths of the lent areas.
#[derive(Clone, Copy, Debug)]
pub struct Lengths {
    pub answer: usize,
    pub history: usize,
    pub work: usize,
    pub out: usize,
    pub done: usize,
}

impl Lengths {
    /// What a run needs.
    pub const NEED: Lengths = Lengths {
        answer: ANSWER_NUMBERS,
        history: HISTORY_BYTES,
        work: WORK_NUMBERS,
        out: PLAN_BYTES,
        done: DONE_NUMBERS,
    };
}

/// What a run of the library left.
#[derive(Clone, Debug)]
pub struct Left {
    pub answer: Vec<u16>,
    pub history: Vec<u8>,
    pub plan: Vec<u8>,
    pub tally: Tally,
}

pub struct Runs<'a> {
    pub checker: &'a mut Checker,
    pub shares: Shares,
    pub histories: Histories,
    pub picks: Picks,
    answer: Twin<u16>,
    history: Twin<u8>,
    work: Twin<u16>,
    out: Twin<u8>,
    done: Twin<u64>,
    /// Changes with each run, so that what the areas hold before does.
    salt: usize,
}

impl Runs<'_> {
    pub fn new(checker: &mut Checker) -> Runs<'_> {
        Runs {
            checker,
            shares: Shares::default(),
            histories: Histories::default(),
            picks: Picks::default(),
            answer: Twin::new(),
            history: Twin::new(),
            work: Twin::new(),
            out: Twin::new(),
            done: Twin::new(),
            salt: 0,
        }
    }

    /// Compares a run in areas that suffice.
    pub fn run(&mut self, plan: &[u8], script: &[u8]) -> Result<Answer, Difference> {
        self.run_in(plan, script, Lengths::NEED)
    }

    /// Compares a run in areas of any lengths.
    pub fn run_in(
        &mut self,
        plan: &[u8],
        script: &[u8],
        lengths: Lengths,
    ) -> Result<Answer, Difference> {
        self.fill(lengths);
        let library = ffi::run(
            plan,
            script,
            Lent {
                answer: self.answer.halves().0,
                history: self.history.halves().0,
                work: self.work.halves().0,
                out: self.out.halves().0,
                done: self.done.halves().0,
            },
        );
        let oracle = calls::run(
            plan,
            script,
            Lent {
                answer: self.answer.halves().1,
                history: self.history.halves().1,
                work: self.work.halves().1,
                out: self.out.halves().1,
                done: self.done.halves().1,
            },
        );
        let named = |name: &'static str| move |message: String| format!("{name}: {message}");
        compare((library, oracle))
            .and_then(|()| self.answer.compare().map_err(named("answer")))
            .and_then(|()| self.history.compare().map_err(named("history")))
            .and_then(|()| self.work.compare().map_err(named("work")))
            .and_then(|()| self.out.compare().map_err(named("out")))
            .and_then(|()| self.done.compare().map_err(named("done")))
            .map_err(|message| difference(Call::Run, &[plan, script], &message))?;
        self.checker.tally.count(Call::Run, library);
        self.picks.count(plan, script, library);
        if lengths.done >= DONE_NUMBERS {
            let done = &self.done.library()[..DONE_NUMBERS];
            self.shares.count(script, library, done);
            let counted = self.histories.count(library, self.history.library(), done);
            counted.map_err(|message| difference(Call::Run, &[plan, script], &message))?;
        }
        Ok(library)
    }

    /// Other content in each area for each run.
    fn fill(&mut self, lengths: Lengths) {
        self.salt = (self.salt + 1) % 65_521;
        let salt = self.salt;
        let number = move |index: usize| index.wrapping_mul(40_503) ^ salt.wrapping_mul(30_011);
        let number_at = move |index| number(index) as u16;
        let byte = move |index| (number(index) >> 3) as u8;
        self.answer.fill((0..lengths.answer).map(number_at), 0xA5A5);
        self.history.fill((0..lengths.history).map(byte), 0xA5);
        self.work.fill((0..lengths.work).map(number_at), 0xA5A5);
        self.out.fill((0..lengths.out).map(byte), 0xA5);
        let long = move |index| number(index + 1) as u64 * 0x0001_0001_0001;
        self.done.fill((0..lengths.done).map(long), u64::MAX);
    }

    /// What the library's last run left: nothing, where it was refused.
    pub fn left(&self) -> Left {
        let done = self.done.library();
        let [items, bytes, length] = [0, 4, 5].map(|at| done[at] as usize);
        Left {
            answer: self.answer.library()[..items].to_vec(),
            history: self.history.library()[..bytes].to_vec(),
            plan: self.out.library()[..length].to_vec(),
            tally: tally(done),
        }
    }

    /// Compares a run, and takes it back by its history if it is not refused:
    /// the plan comes back.
    pub fn run_and_back(&mut self, plan: &[u8], script: &[u8]) -> Result<Answer, Difference> {
        let answer = self.run(plan, script)?;
        if answer.number() == 0 {
            let left = self.left();
            self.checker.taken_back(plan, &left.plan, &left.history)?;
        }
        Ok(answer)
    }
}

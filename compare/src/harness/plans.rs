//! Stored plans: `yegnabit_plan` and `yegnabit_sweep`.

use compare::cases;
use compare::generate::damage::{self, Values};
use compare::generate::random::Random;
use compare::generate::{edges, plans};
use compare::oracle::limits::ROWS;
use compare::oracle::plan::to_vec;

use super::area::out_lengths;
use super::checker::Checker;
use super::{Difference, Volume};

const SEED: u64 = 0x11;
/// Plans of random bytes are at most this long.
const NOISE: usize = 64;

pub fn test(checker: &mut Checker, volume: Volume) -> Result<(), Difference> {
    let mut random = Random::new(SEED);
    for case in cases::plans() {
        checker
            .plan_is_refused(&case.plan, case.refusal)
            .map_err(|message| format!("{}: {message}", case.rule))?;
    }
    for plan in edges::plans() {
        checker.plan(&plan)?;
    }
    (0..=3).try_for_each(|length| edges::small_plans(length, |plan| checker.plan(plan)))?;
    for count in 0..=ROWS + 1 {
        let shape = plans::Shape::random(&mut random);
        let plan = to_vec(&plans::table(&mut random, count, shape));
        checker.plan(&plan)?;
    }
    for _ in 0..volume.of(3000) {
        let plan = to_vec(&plans::any_table(&mut random));
        checker.plan(&plan)?;
        checker.plan(&damage::appended(&plan, &mut random))?;
        checker.plan(&damage::several(&plan, &mut random))?;
    }
    for _ in 0..volume.of(100_000) {
        checker.plan(&damage::noise(&mut random, NOISE))?;
    }
    for _ in 0..volume.of(150) {
        let plan = to_vec(&plans::any_table(&mut random));
        damaged(checker, &mut random, &plan)?;
    }
    for _ in 0..volume.of(2) {
        let plan = to_vec(&plans::full_table(&mut random));
        damaged(checker, &mut random, &plan)?;
    }
    for _ in 0..volume.of(20) {
        let plan = to_vec(&plans::any_table(&mut random));
        let broken = damage::several(&plan, &mut random);
        for length in out_lengths(plan.len()) {
            checker.plan_in(&plan, length)?;
            checker.plan_in(&broken, length)?;
        }
    }
    let full = to_vec(&plans::full_table(&mut random));
    out_lengths(full.len()).try_for_each(|length| checker.plan_in(&full, length))
}

/// A plan with each byte changed, cut at each length, and with bytes appended.
fn damaged(checker: &mut Checker, random: &mut Random, plan: &[u8]) -> Result<(), Difference> {
    let values = Values::for_length(plan.len());
    damage::each_byte(plan, values, random, |damaged| checker.plan(damaged))?;
    damage::each_cut(plan, |cut| checker.plan(cut))?;
    (0..8).try_for_each(|_| checker.plan(&damage::appended(plan, random)))
}

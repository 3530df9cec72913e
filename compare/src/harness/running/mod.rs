//! Runs: `yegnabit_run`.

mod check;
mod deep;
mod histories;
mod loops;
mod orders;
mod picks;
mod shares;
mod worked;

use compare::generate::damage::{self, Values};
use compare::generate::document01::PLAN_P;
use compare::generate::edges;
use compare::generate::random::Random;
use compare::generate::runs::{case, plan, Case};
use compare::oracle::limits::ROWS;
use compare::oracle::plan::to_vec;
use compare::oracle::script::kind;

use super::checker::Checker;
use super::{Difference, Volume};
use check::{Lengths, Runs};
use picks::Picks;

const SEED: u64 = 0x07;
/// All scripts of at most so many records from a small alphabet are tried.
const ALL_RECORDS: usize = 3;
/// Plans up to this length are damaged byte by byte.
const SMALL_PLAN: usize = 60;
/// Histories up to this length are damaged byte by byte.
const SMALL_HISTORY: usize = 60;

pub fn test(checker: &mut Checker, volume: Volume) -> Result<(), Difference> {
    let mut random = Random::new(SEED);
    let mut runs = Runs::new(checker);
    worked::test(&mut runs)?;
    let by_hand = std::mem::take(&mut runs.histories);
    runs.picks = Picks::default();
    deep::test(&mut runs, &mut random, volume)?;
    for _ in 0..volume.of(120_000) {
        let Case { plan, script } = case(&mut random);
        runs.run_and_back(&to_vec(&plan), &script)?;
    }
    for _ in 0..volume.of(20_000) {
        loops::test(&mut runs, &mut random)?;
    }
    for _ in 0..volume.of(7500) {
        refused(&mut runs, &mut random)?;
    }
    for _ in 0..volume.of(120) {
        damaged(&mut runs, &mut random)?;
    }
    for _ in 0..volume.of(180) {
        lengths(&mut runs, &mut random)?;
    }
    small_scripts(&mut runs)?;
    let counts = orders::test(&mut runs, &mut random, volume)?;
    let longest = format!(
        "histories of worked runs: {by_hand}\nhistories of other runs: {}\n",
        runs.histories
    );
    let notes = runs.shares.lines() + &runs.picks.lines() + &counts + &longest;
    let required = runs.shares.require().and_then(|()| runs.picks.require());
    required.map_err(|message| message + "\n" + &notes)?;
    checker.notes += &notes;
    Ok(())
}

/// A plan, a script or both damaged, and then histories damaged.
fn refused(runs: &mut Runs<'_>, random: &mut Random) -> Result<(), Difference> {
    let Case { plan, script } = case(random);
    let plan = to_vec(&plan);
    let broken = damage::several(&plan, random);
    let wrong = damage::several(&script, random);
    runs.run(&broken, &script)?;
    runs.run(&plan, &wrong)?;
    runs.run(&broken, &wrong)?;
    runs.run(&plan, &damage::appended(&script, random))?;
    runs.run(&script, &plan)?;
    if random.chance(5) {
        runs.run(&edges::roots(ROWS + 1), &script)?;
    }
    if runs.run(&plan, &script)?.number() == 0 {
        let left = runs.left();
        let misfit = damage::several(&left.history, random);
        runs.checker.undo(&left.plan, &misfit)?;
        runs.checker.undo(&plan, &left.history)?;
        runs.checker.undo(&left.plan, &left.history.repeat(2))?;
    }
    Ok(())
}

/// A script with each byte changed, and cut at each length; a small plan and a
/// small history likewise.
fn damaged(runs: &mut Runs<'_>, random: &mut Random) -> Result<(), Difference> {
    let Case { plan, script } = case(random);
    let plan = to_vec(&plan);
    damage::each_byte(&script, Values::Few, random, |damaged| {
        runs.run(&plan, damaged).map(|_| ())
    })?;
    damage::each_cut(&script, |cut| runs.run(&plan, cut).map(|_| ()))?;
    if plan.len() <= SMALL_PLAN {
        damage::each_byte(&plan, Values::Few, random, |damaged| {
            runs.run(damaged, &script).map(|_| ())
        })?;
        damage::each_cut(&plan, |cut| runs.run(cut, &script).map(|_| ()))?;
    }
    if runs.run(&plan, &script)?.number() == 0 {
        let left = runs.left();
        if left.history.len() <= SMALL_HISTORY {
            let mut undo = |history: &[u8]| runs.checker.undo(&left.plan, history).map(|_| ());
            damage::each_byte(&left.history, Values::Likely, random, &mut undo)?;
            damage::each_cut(&left.history, &mut undo)?;
        }
    }
    Ok(())
}

/// Each area of each awkward length, alone and with another one that is
/// wrong, for runs accepted, refused, and with a refused script or plan.
fn lengths(runs: &mut Runs<'_>, random: &mut Random) -> Result<(), Difference> {
    let Case { plan, script } = case(random);
    let plan = to_vec(&plan);
    let (broken, wrong) = (
        damage::several(&plan, random),
        damage::several(&script, random),
    );
    let need = Lengths::NEED;
    let other = |random: &mut Random, need: usize| {
        random.choose(&[0, 1, need / 2, need - 1, need, need + 1, need + 7, 2 * need])
    };
    let mut tried = vec![need];
    let awkward = |need: usize| [0, 1, need - 1, need, need + 1, need + 100];
    tried.extend(awkward(need.answer).map(|answer| Lengths { answer, ..need }));
    tried.extend(awkward(need.history).map(|history| Lengths { history, ..need }));
    tried.extend(awkward(need.work).map(|work| Lengths { work, ..need }));
    tried.extend(awkward(need.out).map(|out| Lengths { out, ..need }));
    tried.extend(awkward(need.done).map(|done| Lengths { done, ..need }));
    for _ in 0..8 {
        tried.push(Lengths {
            answer: other(random, need.answer),
            history: other(random, need.history),
            work: other(random, need.work),
            out: other(random, need.out),
            done: other(random, need.done),
        });
        tried.push(Lengths {
            answer: random.between(need.answer, 2 * need.answer),
            history: random.between(need.history, 2 * need.history),
            work: random.between(need.work, need.work + 40),
            out: random.between(need.out, 2 * need.out),
            done: random.between(need.done, 2 * need.done),
        });
    }
    for lengths in tried {
        runs.run_in(&plan, &script, lengths)?;
        runs.run_in(&plan, &wrong, lengths)?;
        runs.run_in(&broken, &script, lengths)?;
        runs.run_in(&broken, &wrong, lengths)?;
    }
    Ok(())
}

/// All scripts of few records from a small alphabet, on plan P and another.
fn small_scripts(runs: &mut Runs<'_>) -> Result<(), Difference> {
    let mut random = Random::new(SEED);
    let other = to_vec(&plan(&mut random));
    let alphabet = alphabet();
    (1..=ALL_RECORDS).try_for_each(|count| {
        edges::sequences(&alphabet, count, |script| {
            runs.run(&PLAN_P, script)?;
            if random.chance(10) {
                runs.run(&other, script)?;
            }
            Ok(())
        })
    })
}

/// Records of each kind, with some of their bodies.
fn alphabet() -> Vec<Vec<u8>> {
    let mut records: Vec<Vec<u8>> = vec![
        vec![kind::EMPTY],
        vec![kind::DOCUMENT, 0],
        vec![kind::DOCUMENT, 1],
        vec![kind::VARIABLE, 0],
        vec![kind::JOIN],
        vec![kind::LET],
        vec![kind::FOR],
        vec![kind::IF],
        vec![kind::ELEMENT, 2],
        vec![kind::LEAF, 0xFE],
        vec![kind::DELETE],
        vec![kind::INSERT],
    ];
    records.extend((0..3).map(|relation| vec![kind::PICK, relation, 0xFE]));
    for axis in 0..4 {
        for (test, name) in [(0, 0), (1, 0), (2, 0), (3, 2)] {
            records.push(vec![kind::STEP, axis, test, name]);
        }
    }
    records
}

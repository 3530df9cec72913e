//! Runs on a small stack: the deepest nesting, with full loops.

use compare::generate::plans::star;
use compare::generate::random::Random;
use compare::generate::scripts::{script, Wanted};
use compare::interface::{Answer, Areas};
use compare::oracle::calls;
use compare::oracle::limits::{BINDERS, DEPTH, ROWS};
use compare::oracle::plan::to_vec;
use compare::oracle::script::{kind, read};

use super::check::Runs;
use crate::ffi;
use crate::harness::checker::{compare, difference};
use crate::harness::tally::Call;
use crate::harness::{on_stack, Difference, Volume};

/// A run needs no more stack than this, in bytes.
const STACK: usize = 256 * 1024;
/// Rows of the plan for random scripts at the limits, whose loops are nested.
const FEW_ROWS: usize = 3;
/// All 512 rows: those below the root, and the root.
const ALL: [u8; 9] = [
    kind::JOIN,
    kind::STEP,
    1,
    0,
    0,
    kind::DOCUMENT,
    0,
    kind::DOCUMENT,
    0,
];
const ONE: [u8; 2] = [kind::DOCUMENT, 0];

pub fn test(runs: &mut Runs<'_>, random: &mut Random, volume: Volume) -> Result<(), Difference> {
    let wide = to_vec(&star(ROWS));
    let few = to_vec(&star(FEW_ROWS));
    let tenth = tenth_leaf(&wide);
    let mut cases: Vec<(&[u8], Vec<u8>)> = deepest().map(|script| (&wide[..], script)).collect();
    cases.push((&tenth, most_frames()));
    for _ in 0..volume.of(300) {
        let wanted = Wanted {
            names: 1,
            ..Wanted::AT_LIMITS
        };
        cases.push((&few, script(random, wanted)));
    }
    let run_one = |(plan, script): &(&[u8], Vec<u8>)| {
        let mut areas = Areas::holding(7);
        (ffi::run(plan, script, areas.lend()), areas)
    };
    let ran: Vec<(Answer, Areas)> = on_stack(STACK, || cases.iter().map(run_one).collect());
    for ((plan, script), (answer, areas)) in cases.iter().zip(ran) {
        let mut expected = Areas::holding(7);
        let oracle = calls::run(plan, script, expected.lend());
        compare((answer, oracle))
            .map_err(|message| difference(Call::Run, &[plan, script], &message))?;
        if areas != expected {
            let message = "the areas of a run on a small stack differ";
            return Err(difference(Call::Run, &[plan, script], message));
        }
        let counted = runs.histories.count(answer, &areas.history, &areas.done);
        counted.map_err(|message| difference(Call::Run, &[plan, script], &message))?;
    }
    Ok(())
}

/// The plan with the value 1 in its tenth leaf, and 0 in the others.
fn tenth_leaf(plan: &[u8]) -> Vec<u8> {
    let mut plan = plan.to_vec();
    for (number, row) in plan.chunks_mut(4).enumerate().take(ROWS).skip(1) {
        row[1] = u8::from(number == 10);
    }
    plan
}

/// Eight loops inside one another, each with as many frames as a loop takes:
/// it comes to the tenth of 512 items with most. There the next loop is over
/// all leaves and the item once more, else over the item alone.
fn most_frames() -> Vec<u8> {
    let mut script = [&[kind::FOR][..], &ALL].concat();
    for item in 0..BINDERS as u8 - 1 {
        let from_tenth = [kind::PICK, 0, 1, kind::VARIABLE, item];
        let below_root = [kind::STEP, 1, 0, 0, kind::STEP, 3, 0, 0];
        script.extend([kind::FOR, kind::JOIN]);
        script.extend(below_root.iter().chain(&from_tenth));
        script.extend([kind::VARIABLE, item]);
    }
    script.extend([kind::DELETE; DEPTH - BINDERS - 2]);
    script.extend([kind::INSERT, kind::EMPTY, kind::DOCUMENT, 0]);
    assert!(read(&script).is_ok());
    script
}

/// Eight binders, and below them records of one kind down to depth 16. Where
/// all loops are full, the innermost insert is refused at the first item;
/// where one is, the run ends.
fn deepest() -> impl Iterator<Item = Vec<u8>> {
    let refused: &[u8] = &[kind::INSERT, kind::EMPTY, kind::EMPTY];
    let ends: &[u8] = &[kind::JOIN, kind::EMPTY, kind::EMPTY];
    let levels = DEPTH - BINDERS - 2;
    let chains: Vec<(Vec<u8>, Vec<u8>)> = [
        // What stands before the next level, and what after it.
        (vec![kind::JOIN, kind::EMPTY], vec![]),
        (vec![kind::INSERT, kind::EMPTY], vec![]),
        (vec![kind::IF, kind::EMPTY, kind::EMPTY], vec![]),
        (vec![kind::STEP, 1, 0, 0], vec![]),
        (vec![kind::PICK, 0, 0], vec![]),
        (vec![kind::DELETE], vec![]),
        (vec![kind::JOIN], vec![kind::EMPTY]),
        (vec![kind::INSERT], vec![kind::EMPTY]),
    ]
    .into();
    let mut scripts = Vec::new();
    for (before, after) in chains {
        let inner = |last: &[u8]| [&before.repeat(levels), last, &after.repeat(levels)].concat();
        for binder in [kind::FOR, kind::LET] {
            let nest = |firsts: &[&[u8]; BINDERS], last: &[u8]| {
                let mut script = Vec::new();
                for first in firsts {
                    script.push(binder);
                    script.extend(*first);
                }
                script.extend(inner(last));
                script
            };
            scripts.push(nest(&[&ALL; BINDERS], refused));
            for one in 0..BINDERS {
                let mut firsts: [&[u8]; BINDERS] = [&ONE; BINDERS];
                firsts[one] = &ALL;
                scripts.push(nest(&firsts, ends));
            }
            // Two full loops, where a turn costs little.
            if before[0] == kind::DELETE {
                let mut firsts: [&[u8]; BINDERS] = [&ONE; BINDERS];
                (firsts[0], firsts[BINDERS - 1]) = (&ALL, &ALL);
                scripts.push(nest(&firsts, ends));
            }
        }
    }
    assert!(scripts.iter().all(|script| read(script).is_ok()));
    scripts.into_iter()
}

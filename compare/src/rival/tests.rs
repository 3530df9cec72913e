//! The rival does the same work as the oracle: the same answers, and the same
//! content of each lent area.

use super::calls;
use crate::cases::{longest, rules};
use crate::generate::histories::{long, of_changes, of_run};
use crate::generate::pairs::{most_deletes, most_paths, most_steps, pair};
use crate::generate::plans::{any_table, full_table, star_of};
use crate::generate::random::Random;
use crate::generate::runs::{case, Case};
use crate::generate::scripts::{script, Wanted};
use crate::generate::{damage, edges};
use crate::interface::{Answer, Areas};
use crate::oracle::calls as oracle;
use crate::oracle::limits::{PLAN_BYTES, ROWS};
use crate::oracle::pick;
use crate::oracle::plan::to_vec;
use crate::oracle::run::OwnedAreas;
use crate::oracle::script::{kind, Axis, Operation, Test};
use crate::raw::RawTable;

/// How many inputs were refused, and how many were not.
#[derive(Debug, Default)]
struct Counts {
    refused: usize,
    accepted: usize,
}

impl Counts {
    fn add(&mut self, answer: Answer) {
        match answer.number() {
            0 => self.accepted += 1,
            _ => self.refused += 1,
        }
    }

    fn require_more_than(&self, least: usize) {
        assert!(self.refused > least && self.accepted > least, "{self:?}");
    }
}

/// A call that reads a plan and writes one.
type OnPlan = fn(&[u8], &mut [u8]) -> Answer;

fn same_plan(plan: &[u8], out_length: usize) -> Answer {
    let sweep: [OnPlan; 2] = [calls::sweep, oracle::sweep];
    let back: [OnPlan; 2] = [calls::plan, oracle::plan];
    let [_, answer] = [sweep, back].map(|[rival, oracle]| {
        let (mut ours, mut theirs) = (vec![7; out_length], vec![7; out_length]);
        let answer = rival(plan, &mut ours);
        assert_eq!(answer, oracle(plan, &mut theirs), "{plan:02X?}");
        assert_eq!(ours, theirs, "{plan:02X?}");
        answer
    });
    answer
}

#[test]
fn plans() {
    let mut random = Random::new(1);
    let mut counts = Counts::default();
    for plan in edges::plans() {
        same_plan(&plan, PLAN_BYTES);
    }
    for _ in 0..1500 {
        let plan = to_vec(&any_table(&mut random));
        counts.add(same_plan(&plan, PLAN_BYTES));
        same_plan(&plan, PLAN_BYTES - 1);
        counts.add(same_plan(&damage::several(&plan, &mut random), PLAN_BYTES));
        counts.add(same_plan(&damage::appended(&plan, &mut random), PLAN_BYTES));
        counts.add(same_plan(&damage::noise(&mut random, 64), PLAN_BYTES));
    }
    let full = to_vec(&full_table(&mut random));
    damage::each_cut(&full, |plan| {
        counts.add(same_plan(plan, PLAN_BYTES));
        Ok::<(), String>(())
    })
    .expect("nothing fails");
    counts.require_more_than(500);
}

#[test]
fn packed_tables() {
    let mut random = Random::new(2);
    let mut counts = Counts::default();
    for _ in 0..3000 {
        let table = any_table(&mut random);
        if table.rows.len() > ROWS {
            continue;
        }
        let mut raw = RawTable::of(&table);
        let length = random.choose(&[0, to_vec(&table).len(), PLAN_BYTES]);
        match random.below(6) {
            0 => raw.rows[random.below(ROWS)] ^= 1 << random.below(32),
            1 => raw.rows[random.below(8)] ^= 1 << random.below(21),
            2 => raw.marks[random.below(8)] = random.between(0, 600) as u16,
            3 => raw.count = random.between(0, 600),
            _ => {}
        }
        let (mut ours, mut theirs) = (vec![7; length], vec![7; length]);
        let answer = calls::write_table(raw.count, &raw.rows, &raw.marks, &mut ours);
        let expected = oracle::write_table(raw.count, &raw.rows, &raw.marks, &mut theirs);
        assert_eq!((answer, ours), (expected, theirs), "{raw:?}");
        counts.add(answer);
    }
    counts.require_more_than(300);
}

#[test]
fn scripts() {
    let mut random = Random::new(3);
    let mut counts = Counts::default();
    let mut same = |bytes: &[u8]| {
        let answer = calls::script(bytes);
        assert_eq!(answer, oracle::script(bytes), "{bytes:02X?}");
        counts.add(answer);
    };
    edges::scripts().iter().for_each(|bytes| same(bytes));
    for _ in 0..20_000 {
        let wanted = match random.chance(30) {
            true => random.choose(&edges::wanted_scripts()),
            false => Wanted::random(&mut random),
        };
        let bytes = script(&mut random, wanted);
        same(&bytes);
        same(&damage::several(&bytes, &mut random));
        same(&damage::appended(&bytes, &mut random));
        same(&damage::noise(&mut random, 80));
    }
    counts.require_more_than(5000);
}

#[test]
fn undo() {
    let mut random = Random::new(4);
    let mut counts = Counts::default();
    let mut areas = OwnedAreas::default();
    let mut same = |plan: &[u8], history: &[u8]| {
        let (mut ours, mut theirs) = ([7; PLAN_BYTES], [7; PLAN_BYTES]);
        let answer = calls::undo(plan, history, &mut ours);
        let expected = oracle::undo(plan, history, &mut theirs);
        assert_eq!(answer, expected, "{plan:02X?} {history:02X?}");
        assert_eq!(ours, theirs, "{plan:02X?} {history:02X?}");
        counts.add(answer);
    };
    for round in 0..1500 {
        let recorded = match round % 8 {
            0 => long(&mut random),
            1..=4 => of_changes(&mut random),
            _ => of_run(&mut random, &mut areas),
        };
        let (after, history) = (to_vec(&recorded.after), &recorded.history);
        same(&after, history);
        same(&to_vec(&recorded.before), history);
        same(&after, &history.repeat(5));
        for _ in 0..4 {
            same(&after, &damage::several(history, &mut random));
            same(&damage::several(&after, &mut random), history);
        }
    }
    counts.require_more_than(1000);
}

fn same_run(plan: &[u8], script: &[u8]) -> Answer {
    let (mut ours, mut theirs) = (Areas::holding(7), Areas::holding(7));
    let answer = calls::run(plan, script, ours.lend());
    let expected = oracle::run(plan, script, theirs.lend());
    assert_eq!(answer, expected, "{plan:02X?} {script:02X?}");
    assert!(ours == theirs, "{plan:02X?} {script:02X?}");
    answer
}

#[test]
fn runs() {
    let mut random = Random::new(5);
    let mut counts = Counts::default();
    // Picks over a leaf that is not surveyed, with each relation.
    let mut unsurveyed = [0; 3];
    for longest in longest() {
        same_run(&longest.run.plan, &longest.run.script);
    }
    for round in 0..6000 {
        let Case { plan, script } = case(&mut random);
        let plan = to_vec(&plan);
        counts.add(same_run(&plan, &script));
        let picks = pick::of_run(&plan, &script).into_iter();
        for pick in picks.filter(|pick| pick.over_unsurveyed) {
            unsurveyed[pick.relation as usize] += 1;
        }
        if round % 4 == 0 {
            counts.add(same_run(&plan, &damage::several(&script, &mut random)));
            counts.add(same_run(&damage::several(&plan, &mut random), &script));
        }
    }
    counts.require_more_than(1000);
    assert!(
        unsurveyed.iter().all(|&count| count > 100),
        "{unsurveyed:?}"
    );
    let mut areas = Areas::holding(7);
    areas.done.pop();
    assert_eq!(calls::run(&[], &[1], areas.lend()), Answer::lent());
    assert!(areas.work.iter().all(|&number| number == 7));
}

/// Each relation with each constant, over a leaf of each value.
#[test]
fn picks() {
    let plan = to_vec(&star_of(i8::MIN..=i8::MAX));
    for relation in 0..3 {
        for constant in 0..=u8::MAX {
            let pick = [kind::PICK, relation, constant];
            let children = [kind::STEP, 0, 0, 0, kind::DOCUMENT, 0];
            same_run(&plan, &[&pick[..], &children].concat());
        }
    }
    for case in rules() {
        same_run(&case.plan, &case.script);
    }
}

#[test]
fn analyses() {
    let mut random = Random::new(6);
    let mut counts = [0; 3];
    let mut same = |first: &[u8], second: &[u8]| {
        let answer = calls::analyse(first, second);
        let expected = oracle::analyse(first, second);
        assert_eq!(answer, expected, "{first:02X?} {second:02X?}");
        if answer.number() == 0 {
            counts[answer.which() as usize] += 1;
        }
    };
    for _ in 0..20_000 {
        let [first, second] = pair(&mut random);
        same(&first, &second);
        same(&first, &damage::several(&second, &mut random));
        same(&damage::several(&first, &mut random), &second);
    }
    let tests = [
        Test::Named(2),
        Test::Named(1),
        Test::AnyElement,
        Test::AnyNode,
    ];
    let leaves = Operation::Step(Axis::Child, Test::AnyLeaf);
    for _ in 0..300 {
        let few = random.between(1, tests.len());
        let descendants = random.choose(&[0, 5, 50]);
        let scripts = [(); 4].map(|()| {
            let steps: Vec<(Axis, Test)> = (0..random.between(1, 13))
                .map(|_| match random.chance(descendants) {
                    true => (Axis::Descendant, tests[random.below(few)]),
                    false => (Axis::Child, tests[random.below(few)]),
                })
                .collect();
            let document = u8::from(random.chance(20));
            match random.below(4) {
                0 => most_steps(document, &steps, &[Operation::Delete]),
                1 => most_paths(document, &steps, &[Operation::Delete]),
                2 => most_paths(document, &steps, &[Operation::Delete, leaves]),
                _ => most_steps(document, &steps, &[leaves]),
            }
        });
        for first in &scripts {
            same(first, &most_deletes(0));
            scripts.iter().for_each(|second| same(first, second));
        }
    }
    assert!(counts.iter().all(|&count| count > 1000), "{counts:?}");
}

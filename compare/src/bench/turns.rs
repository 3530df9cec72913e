//! Plans in turn: what the calls cost where the plan is another one each time,
//! so that no branch is learnt by heart.

use std::hint::black_box;

use compare::generate::plans::{full_table, table, Shape};
use compare::generate::random::Random;
use compare::interface::Areas;
use compare::oracle::limits::{PLAN_BYTES, ROWS};
use compare::oracle::plan::to_vec;
use compare::oracle::script::kind;
use compare::oracle::table::Table;
use compare::rival::calls;

use super::{measure, Case, OnPlan};
use crate::ffi;

const SEED: u64 = 0x32;
const PLANS: usize = 256;
/// Plans of 512 rows, most of them below one root, half of them leaves.
const TREE: Shape = Shape {
    leaves: 50,
    unsurveyed: 0,
    roots: 0,
    near: 30,
    marked: 100,
    names: 3,
};

pub fn measure_turns() {
    let random = &mut Random::new(SEED);
    let trees = plans(|| table(random, ROWS, TREE));
    let tables = plans(|| full_table(random));
    let shape = Shape {
        unsurveyed: 25,
        ..TREE
    };
    let some_not_surveyed = plans(|| table(random, ROWS, shape));
    let below = [kind::STEP, 1, 0, 0, kind::DOCUMENT, 0];
    let pick = [&[kind::PICK, 2, 0][..], &below].concat();
    let less = [&[kind::PICK, 1, 0][..], &below].concat();
    let cut_leaves = [kind::DELETE, kind::STEP, 1, 2, 0, kind::DOCUMENT, 0];
    measure(plan_case(
        "plan, 256 in turn",
        &trees,
        (ffi::plan, calls::plan),
    ));
    measure(plan_case(
        "sweep, 256 plans in turn, half kept",
        &tables,
        (ffi::sweep, calls::sweep),
    ));
    let runs: [(_, &[u8]); 3] = [
        ("run, descendant step, 256 plans in turn", &below),
        ("run, pick of descendants, 256 plans in turn", &pick),
        ("run, delete of the leaves, 256 plans in turn", &cut_leaves),
    ];
    for (name, script) in runs {
        measure(run_case(name, &trees, script));
    }
    measure(run_case(
        "run, pick of less, some not surveyed, 256 plans in turn",
        &some_not_surveyed,
        &less,
    ));
}

fn plans(mut table: impl FnMut() -> Table) -> Vec<Vec<u8>> {
    (0..PLANS).map(|_| to_vec(&table())).collect()
}

/// Hands out one plan after the other, again and again.
struct Turns<'a> {
    plans: &'a [Vec<u8>],
    next: usize,
}

impl<'a> Turns<'a> {
    fn of(plans: &'a [Vec<u8>]) -> Turns<'a> {
        Turns { plans, next: 0 }
    }

    fn next(&mut self) -> &'a [u8] {
        let plan = &self.plans[self.next];
        self.next = (self.next + 1) % self.plans.len();
        black_box(plan)
    }
}

fn plan_case<'a>(
    name: &'static str,
    plans: &'a [Vec<u8>],
    (library, rival): (OnPlan, OnPlan),
) -> Case<'a> {
    let (mut ours, mut theirs) = ([0; PLAN_BYTES], [0; PLAN_BYTES]);
    let (mut our_turns, mut their_turns) = (Turns::of(plans), Turns::of(plans));
    same_on_all(Case {
        name,
        number: 0,
        library: Box::new(move || library(our_turns.next(), black_box(&mut ours))),
        rival: Box::new(move || rival(their_turns.next(), black_box(&mut theirs))),
    })
}

fn run_case<'a>(name: &'static str, plans: &'a [Vec<u8>], script: &'a [u8]) -> Case<'a> {
    let (mut ours, mut theirs) = (Areas::holding(0), Areas::holding(0));
    let (mut our_turns, mut their_turns) = (Turns::of(plans), Turns::of(plans));
    same_on_all(Case {
        name,
        number: 0,
        library: Box::new(move || {
            let lent = black_box(&mut ours).lend();
            ffi::run(our_turns.next(), black_box(script), lent)
        }),
        rival: Box::new(move || {
            let lent = black_box(&mut theirs).lend();
            calls::run(their_turns.next(), black_box(script), lent)
        }),
    })
}

/// Both sides answer the same on each of the plans.
fn same_on_all(mut case: Case<'_>) -> Case<'_> {
    for _ in 0..PLANS {
        assert_eq!((case.library)(), (case.rival)(), "{}", case.name);
    }
    case
}

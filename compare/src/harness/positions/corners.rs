//! Pairs that meet by the first or the last positions alone, in tables of given
//! shapes.

use compare::generate::pairs::{with_bodies, Bodies};
use compare::generate::positions::{self, MOST};
use compare::generate::random::Random;
use compare::oracle::analysis::Answer::{Free, Meet};
use compare::oracle::limits::SCRIPT_RECORDS;
use compare::oracle::script::{kind, read};

use super::limits::{bodies, has_shape, small_stack, Scripts, OWN, SHARED};
use super::{document, of, Counts, ALL_BELOW, CHILDREN, DELETE, IF, INSERT, LEAVES};
use crate::harness::Difference;

/// Records of a filler, which leaves room for a corner's; and the most positions
/// that fillers are made for.
const FILLER_RECORDS: usize = SCRIPT_RECORDS - 5;
const FILLED: usize = 72;
/// So many shapes are tried at least, some of them again if there are fewer.
const SHAPES: usize = 20;
/// At least so many pairs are free, and so many meet.
const LEAST: u64 = 40;

/// A part that modifies and one that reads, with the positions of each. They
/// meet if they have the same document.
type Parts = fn(u8) -> [(Vec<u8>, usize); 2];

const PARTS: [Parts; 2] = [
    // At the document's root.
    |number| {
        let root = document(number);
        [(of(&DELETE, &[&root]), 3), (root.to_vec(), 1)]
    },
    // At its leaves alone.
    |number| {
        let root = document(number);
        let (leaves, nodes) = (of(&LEAVES, &[&root]), of(&ALL_BELOW, &[&root]));
        [(of(&DELETE, &[&leaves]), 4), (nodes, 2)]
    },
];

/// What scripts have besides a corner, by its number of positions.
pub fn fillers(random: &mut Random) -> Scripts {
    Scripts::new(FILLED, |positions| loop {
        let script = positions::script(random, positions, FILLER_RECORDS);
        // It must not be too deep for an operand.
        if read(&of(&DELETE, &[&script])).is_ok() {
            return script;
        }
    })
}

/// Catches a table that is one row or column short, or has no room for the last
/// pair, or begins with the second row or column.
pub fn test(
    random: &mut Random,
    fillers: &Scripts,
    shapes: &[[usize; 2]],
    table: &str,
) -> Result<Counts, Difference> {
    let mut counts = Counts::default();
    for index in 0..shapes.len().max(SHAPES) {
        all_corners(&mut counts, random, fillers, shapes[index % shapes.len()])?;
    }
    counts.require_at_least(LEAST, table)?;
    Ok(counts)
}

/// Compares pairs that meet by the first or the last positions of both alone:
/// the others have documents of their script's own.
fn all_corners(
    counts: &mut Counts,
    random: &mut Random,
    fillers: &Scripts,
    shape: [usize; 2],
) -> Result<(), Difference> {
    for parts in PARTS {
        for modifier in [0, 1] {
            for late in [[false, false], [false, true], [true, false], [true, true]] {
                let numbers = [(); 2].map(|()| random.choose(&[4, 5]));
                let [first, second] = [0, 1].map(|which| {
                    let part = parts(numbers[which])[usize::from(which != modifier)].clone();
                    // What the rest is about is the script's own.
                    let bodies = bodies(random, (2 * which as u8, 2));
                    corner(random, fillers, shape[which], part, bodies, late[which])
                });
                let (Some(first), Some(second)) = (first, second) else {
                    continue;
                };
                let pair = [first, second];
                has_shape(&pair, shape)?;
                let expected = if numbers[0] == numbers[1] { Meet } else { Free };
                counts.compare_with(&pair[0], &pair[1], expected)?;
            }
        }
    }
    Ok(())
}

/// A script of so many positions, the first or the last of which are those of a
/// part; none if there is no filler of the others.
fn corner(
    random: &mut Random,
    fillers: &Scripts,
    positions: usize,
    (part, of_part): (Vec<u8>, usize),
    bodies: Bodies,
    late: bool,
) -> Option<Vec<u8>> {
    let filler = fillers.one_of(random, positions.checked_sub(of_part)?)?;
    let filler = with_bodies(random, filler, bodies);
    let [one, two] = if late {
        [&filler, &part]
    } else {
        [&part, &filler]
    };
    Some(of(&IF, &[one, two, &[kind::EMPTY]]))
}

/// The ifs of a script of the most positions.
const MOST_IFS: usize = 15;

/// The same in the largest table. One script modifies what is below a document by
/// its last position alone, and the other reads the children of one, by an early
/// position or a late one.
pub fn of_largest() -> Result<Counts, Difference> {
    let mut counts = Counts::default();
    let [first, second] = OWN.map(|number| rich(MOST_IFS, number));
    let insert = of(&INSERT, &[&of(&CHILDREN, &[&first]), &document(SHARED)]);
    let early = second.iter().position(|&byte| byte == kind::DOCUMENT);
    let early = early.expect("there are documents");
    let late = second.len() - document(0).len();
    for place in [early, late] {
        for (number, expected) in [(SHARED, Meet), (OWN[1], Free)] {
            let children = of(&CHILDREN, &[&document(number)]);
            let after = &second[place + document(0).len()..];
            let second = [&second[..place], &children, after].concat();
            let delete = of(&DELETE, &[&of(&CHILDREN, &[&second])]);
            for pair in [[insert.clone(), delete.clone()], [delete, insert.clone()]] {
                has_shape(&pair, [MOST, MOST])?;
                counts.compare_with(&pair[0], &pair[1], expected)?;
                small_stack(&[pair])?;
            }
        }
    }
    Ok(counts)
}

/// An expression of so many ifs, with five positions for each, in four records.
fn rich(ifs: usize, number: u8) -> Vec<u8> {
    let Some(rest) = ifs.checked_sub(1) else {
        return document(number).to_vec();
    };
    let [one, two, three] = [rest + 2, rest + 1, rest].map(|ifs| rich(ifs / 3, number));
    of(&IF, &[&of(&DELETE, &[&one]), &two, &three])
}

//! Positions of one script that have nothing in common with the other, in unions
//! with positions that have; documents and names that differ.

use compare::oracle::analysis::Answer::{Free, Meet};
use compare::oracle::limits::DOCUMENTS;
use compare::oracle::script::kind;

use super::{document, named, of, Counts, Use};
use super::{ALL_BELOW, CHILDREN, CHILD_ELEMENTS, DELETE, IF, INSERT, JOIN, LEAVES, NEW_ELEMENT};
use crate::harness::Difference;

/// At least so many pairs of each test are free, and so many meet.
const LEAST: u64 = 250;

pub fn test() -> Result<String, Difference> {
    let [mut unions, mut documents, mut names] = [Counts::default(); 3];
    dead_parts(&mut unions)?;
    all_documents(&mut documents)?;
    all_names(&mut names)?;
    for (name, counts) in [
        ("unions", unions),
        ("documents", documents),
        ("names", names),
    ] {
        counts.require_at_least(LEAST, name)?;
    }
    Ok(format!(
        "unions with a dead part: {unions}\ndocuments: {documents}; names: {names}\n"
    ))
}

/// A union of a live part and a dead one or two.
type Union = fn(&[u8], [&[u8]; 2]) -> Vec<u8>;

const UNIONS: [Union; 8] = [
    |live, [dead, _]| of(&JOIN, &[dead, live]),
    |live, [dead, _]| of(&JOIN, &[live, dead]),
    |live, [dead, more]| of(&IF, &[more, dead, live]),
    |live, [dead, more]| of(&IF, &[more, live, dead]),
    |live, [dead, more]| of(&JOIN, &[dead, &of(&JOIN, &[more, live])]),
    |live, [dead, more]| of(&JOIN, &[&of(&JOIN, &[live, dead]), more]),
    |live, [dead, more]| of(&JOIN, &[&of(&JOIN, &[dead, more]), live]),
    |live, [dead, _]| {
        let joined = of(&JOIN, &[dead, live]);
        of(&[kind::LET], &[&joined, &[kind::VARIABLE, 0]])
    },
];

const READ: Use = |path| path.to_vec();
const CUT: Use = |path| of(&DELETE, &[path]);
const COPY: Use = |path| of(&INSERT, &[path, &NEW_ELEMENT]);
const FILL: Use = |path| of(&INSERT, &[&NEW_ELEMENT, path]);
const READ_BELOW: Use = |path| of(&CHILDREN, &[path]);
const CUT_BELOW: Use = |path| of(&DELETE, &[&of(&ALL_BELOW, &[path])]);
const READ_NAMED: Use = |path| of(&named(3), &[path]);
const CUT_NAMED: Use = |path| of(&DELETE, &[&of(&named(3), &[path])]);

/// What two scripts do that meet if they do it with the same path; with leaves
/// only those that concern the rows on it, not those below.
const USES: [([Use; 2], bool); 8] = [
    ([CUT, READ], true),
    ([READ, CUT], true),
    ([CUT, CUT], true),
    ([COPY, CUT], true),
    ([FILL, READ_BELOW], false),
    ([READ_BELOW, FILL], false),
    ([COPY, CUT_BELOW], false),
    ([CUT_NAMED, READ_NAMED], false),
];

/// Catches a row of the table that is left out although only one part of its union
/// is dead, or since the row before it is; and a union that is taken for its first
/// part or for its last. By hand: two scripts meet that use the same live path,
/// whatever one of them has beside it; and they do not if all that one has is of a
/// document that the other has not.
fn dead_parts(counts: &mut Counts) -> Result<(), Difference> {
    let (root, other) = (document(0), document(1));
    let leaves = of(&LEAVES, &[&root]);
    let children_1 = of(&named(1), &[&root]);
    let lives = [
        root.to_vec(),
        children_1.clone(),
        of(&CHILD_ELEMENTS, &[&children_1]),
        of(&ALL_BELOW, &[&children_1]),
        leaves.clone(),
    ];
    // Of another document, of another name, and below a leaf.
    let deads = [
        other.to_vec(),
        of(&CHILDREN, &[&other]),
        of(&LEAVES, &[&of(&ALL_BELOW, &[&other])]),
        of(&CHILDREN, &[&of(&named(9), &[&root])]),
        of(&CHILDREN, &[&leaves]),
    ];
    let of_another_document = |dead: &[u8]| dead.ends_with(&other);
    for live in &lives {
        for ([first_use, second_use], with_leaves) in USES {
            let second = second_use(live);
            for (index, dead) in deads.iter().enumerate() {
                let more = &deads[(index + 1) % deads.len()];
                for union in UNIONS {
                    let first = first_use(&union(live, [dead, more]));
                    let expected = (with_leaves || *live != leaves).then_some(Meet);
                    both_ways(counts, [&first, &second], expected)?;
                    let first = first_use(&union(dead, [more, dead]));
                    let all_dead = of_another_document(dead) && of_another_document(more);
                    let expected = all_dead.then_some(Free);
                    both_ways(counts, [&first, &second], expected)?;
                }
            }
        }
    }
    Ok(())
}

/// Compares a pair in both orders, and with the answer if it is known by hand.
fn both_ways(
    counts: &mut Counts,
    [first, second]: [&[u8]; 2],
    expected: Option<compare::oracle::analysis::Answer>,
) -> Result<(), Difference> {
    for [one, two] in [[first, second], [second, first]] {
        match expected {
            Some(expected) => counts.compare_with(one, two, expected)?,
            None => counts.compare(one, two).map(|_| ())?,
        }
    }
    Ok(())
}

/// Catches documents that are taken for each other. Each is deleted, or its
/// children are, and any set of documents is read: the two meet if it is in the
/// set.
fn all_documents(counts: &mut Counts) -> Result<(), Difference> {
    for read in 1..1u32 << DOCUMENTS {
        let is_read = |number: &u8| read >> number & 1 == 1;
        let documents: Vec<Vec<u8>> = (0..DOCUMENTS as u8)
            .filter(is_read)
            .map(|number| document(number).to_vec())
            .collect();
        let joined = [vec![kind::JOIN; documents.len() - 1], documents.concat()].concat();
        for deleted in 0..DOCUMENTS as u8 {
            let expected = if is_read(&deleted) { Meet } else { Free };
            for [delete, read] in [[CUT, READ], [CUT_NAMED, READ_BELOW]] {
                let (first, second) = (delete(&document(deleted)), read(&joined));
                both_ways(counts, [&first, &second], Some(expected))?;
            }
        }
    }
    Ok(())
}

/// Catches names that are taken for each other: the children of one are deleted,
/// and those of one are read.
fn all_names(counts: &mut Counts) -> Result<(), Difference> {
    let children = |name: u8| of(&named(name), &[&document(0)]);
    for deleted in 1..=u8::MAX {
        let first = CUT(&children(deleted));
        for read in 1..=u8::MAX {
            let expected = if deleted == read { Meet } else { Free };
            counts.compare_with(&first, &children(read), expected)?;
        }
    }
    Ok(())
}

//! Pairs of scripts that need a table of pairs just below, at and just above each
//! of its sizes, and the largest table there is.

use compare::generate::pairs::{with_bodies, Bodies};
use compare::generate::positions::{self, count, MOST};
use compare::generate::random::Random;
use compare::interface::Answer;
use compare::oracle::analysis::Answer::Free;
use compare::oracle::limits::SCRIPT_RECORDS;
use compare::oracle::script::{read, Operation, Test};
use compare::rival::calls as rival;

use super::{corners, Counts};
use crate::ffi;
use crate::harness::analysis::STACK;
use crate::harness::checker::difference;
use crate::harness::tally::{percent, Call};
use crate::harness::{on_stack, Difference, Volume};

const SEED: u64 = 0xE;
/// The table of pairs has a size for at most so many pairs each, and one for all.
const SIZES: [usize; 4] = [64, 1280, 2560, 4608];
/// Scripts made for each number of positions; their bodies change with each use.
const SCRIPTS: usize = 4;
/// Free pairs for each size and side, at the usual volume and at the least.
const FREE_PAIRS: (usize, usize) = (300, 90);
/// At least so many crossings are free, and so many meet.
const LEAST_CROSSINGS: u64 = 100;
/// At least this share of the scripts, in percent, holds each of [`HELD`].
const LEAST_HELD: f64 = 20.0;
/// Free pairs with the largest table, and pairs that are crossed.
const LARGEST: usize = 40;
const LARGEST_CROSSED: usize = 2;
/// So many pairs are tried for one that meets, from which a free one is made.
const MEETING_TRIES: usize = 20;
/// Of each free pair so many that meet are tried, one record apart from it.
const APART: usize = 2;
/// Documents that only one of the scripts of a pair holds. The others are lower.
pub const OWN: [u8; 2] = [6, 7];
/// A document that two scripts both hold.
pub const SHARED: u8 = 0;
/// Documents of two scripts: the first of each and how many.
const DOCUMENTS: [[(u8, u8); 2]; 5] = [
    [(0, 1), (0, 1)],
    [(0, 2), (0, 2)],
    [(0, 6), (0, 6)],
    [(0, 4), (3, 3)],
    [(0, 3), (2, 1)],
];

pub type Pair = [Vec<u8>; 2];

/// On which side of a size a number of pairs is.
#[derive(Clone, Copy)]
enum Side {
    Below,
    At,
    Above,
}

const SIDES: [(Side, &str); 3] = [
    (Side::Below, "below"),
    (Side::At, "at"),
    (Side::Above, "above"),
];

/// For each number of positions of a first script the number of a second with
/// which the pairs are nearest to a size on one side of it.
fn shapes(size: usize, side: Side) -> Vec<[usize; 2]> {
    let nearest = |first: usize| match side {
        Side::Below => Some((size - 1) / first),
        Side::At => (size % first == 0).then_some(size / first),
        Side::Above => Some(size / first + 1),
    };
    (1..=MOST)
        .filter_map(|first| Some([first, nearest(first)?]))
        .filter(|[_, second]| (1..=MOST).contains(second))
        .collect()
}

/// Scripts by their number of positions.
pub struct Scripts(Vec<Vec<Vec<u8>>>);

impl Scripts {
    pub fn new(most: usize, mut script: impl FnMut(usize) -> Vec<u8>) -> Scripts {
        let mut scripts = |positions| (0..SCRIPTS).map(|_| script(positions)).collect();
        Scripts((1..=most).map(&mut scripts).collect())
    }

    /// One of those with so many positions, if there are any.
    pub fn one_of(&self, random: &mut Random, positions: usize) -> Option<&[u8]> {
        let scripts = self.0.get(positions.checked_sub(1)?)?;
        Some(&scripts[random.below(scripts.len())])
    }
}

/// Catches a table that is too short at one of its sizes, a size that is chosen one
/// pair too late, rows that overlap or lie further apart than they are long, marks
/// that are left from another row or were never made.
pub fn test(volume: Volume) -> Result<String, Difference> {
    let mut random = Random::new(SEED);
    let scripts = Scripts::new(MOST, |positions| {
        positions::script(&mut random, positions, SCRIPT_RECORDS)
    });
    let fillers = corners::fillers(&mut random);
    let pairs = volume.of(FREE_PAIRS.0).max(FREE_PAIRS.1);
    let mut held = Held::default();
    let mut all_crossings = Counts::default();
    let mut notes = String::new();
    for size in SIZES {
        for (side, name) in SIDES {
            let shapes = shapes(size, side);
            let [first, second] = nearest(&shapes, size);
            let table = format!("{name} {size} pairs of positions, nearest {first} by {second}");
            let shapes_in_turn = shapes.iter().copied().cycle().take(pairs);
            let (edges, compared) = edges(&mut random, &scripts, shapes_in_turn)?;
            edges.require_at_least(pairs as u64 / 3, &table)?;
            small_stack(&compared)?;
            held.count(&compared);
            let corners = corners::test(&mut random, &fillers, &shapes, &table)?;
            let crossings = crossed(&mut random, &scripts, [first, second])?;
            all_crossings.add(crossings);
            notes += &format!("{table}: {edges}; corners {corners}; crossings {crossings}\n");
        }
    }
    all_crossings.require_at_least(LEAST_CROSSINGS, "crossings")?;
    let mut largest = corners::of_largest()?;
    let shapes = [[MOST, MOST], [MOST, 1], [1, MOST]].repeat(LARGEST);
    let (more, compared) = edges(&mut random, &scripts, shapes)?;
    small_stack(&compared)?;
    largest.add(more);
    for _ in 0..LARGEST_CROSSED {
        largest.add(crossed(&mut random, &scripts, [MOST, MOST])?);
    }
    largest.require_at_least(LARGEST as u64, "the largest tables")?;
    notes += &format!("{MOST} by {MOST}, {MOST} by 1 and 1 by {MOST} positions: {largest}\n");
    Ok(notes + &held.line()?)
}

/// How many scripts hold what a table of pairs depends on.
#[derive(Default)]
struct Held {
    scripts: u64,
    counts: [u64; HELD.len()],
}

type Holds = fn(Operation) -> bool;

const HELD: [(&str, Holds); 6] = [
    ("a delete", |operation| operation == Operation::Delete),
    ("an insert", |operation| operation == Operation::Insert),
    ("a join or an if", |operation| {
        matches!(operation, Operation::Join | Operation::If)
    }),
    ("a binder", |operation| {
        matches!(operation, Operation::Let | Operation::For)
    }),
    ("a name", |operation| {
        matches!(operation, Operation::Step(_, Test::Named(_)))
    }),
    ("a leaf test", |operation| {
        matches!(operation, Operation::Step(_, Test::AnyLeaf))
    }),
];

impl Held {
    fn count(&mut self, pairs: &[Pair]) {
        for bytes in pairs.iter().flatten() {
            let script = read(bytes).expect("within the limits");
            let records = script.records();
            self.scripts += 1;
            for (count, (_, is_held)) in self.counts.iter_mut().zip(HELD) {
                *count += u64::from(records.iter().any(|record| is_held(record.operation)));
            }
        }
    }

    /// A line with the shares, or what is rare.
    fn line(&self) -> Result<String, Difference> {
        let mut line = "scripts of these tables that hold".to_string();
        for (&count, (name, _)) in self.counts.iter().zip(HELD) {
            let percent = percent(count, self.scripts);
            if percent < LEAST_HELD {
                return Err(format!("only {percent:.0}% of the scripts hold {name}"));
            }
            line += &format!(" {name}: {percent:.0}%,");
        }
        line.pop();
        Ok(line + "\n")
    }
}

/// The shape whose pairs are nearest to a size, and of these the squarest.
fn nearest(shapes: &[[usize; 2]], size: usize) -> [usize; 2] {
    let key = |&&[first, second]: &&[usize; 2]| {
        let pairs: usize = first * second;
        (pairs.abs_diff(size), first.abs_diff(second))
    };
    *shapes.iter().min_by_key(key).expect("there are shapes")
}

/// Compares a free pair of each shape, and some pairs that meet and have one
/// document other than it. So these meet by few positions, any of the table.
/// Answers the pairs too.
fn edges(
    random: &mut Random,
    scripts: &Scripts,
    shapes: impl IntoIterator<Item = [usize; 2]>,
) -> Result<(Counts, Vec<Pair>), Difference> {
    let (mut counts, mut compared) = (Counts::default(), Vec::new());
    for shape in shapes {
        let mut pair = meeting(random, scripts, shape);
        let apart = make_free(random, &mut pair);
        has_shape(&pair, shape)?;
        compared.push(pair.clone());
        compared.extend(apart.iter().take(APART).map(|document| {
            let mut pair = pair.clone();
            document.put_back(&mut pair);
            pair
        }));
    }
    for [first, second] in &compared {
        counts.compare(first, second)?;
    }
    Ok((counts, compared))
}

/// A pair of scripts of so many positions each that meets, if one is found.
fn meeting(random: &mut Random, scripts: &Scripts, shape: [usize; 2]) -> Pair {
    let mut pair = dressed(random, scripts, shape);
    for _ in 0..MEETING_TRIES {
        if !is_free(&pair) {
            break;
        }
        pair = dressed(random, scripts, shape);
    }
    pair
}

/// A pair of scripts of so many positions each, with random bodies.
fn dressed(random: &mut Random, scripts: &Scripts, shape: [usize; 2]) -> Pair {
    let documents = random.choose(&DOCUMENTS);
    [0, 1].map(|which| {
        let script = scripts.one_of(random, shape[which]);
        let bodies = bodies(random, documents[which]);
        with_bodies(random, script.expect("made for all"), bodies)
    })
}

fn is_free([first, second]: &Pair) -> bool {
    rival::analyse(first, second) == Answer::analysed(Free)
}

pub fn bodies(random: &mut Random, documents: (u8, u8)) -> Bodies {
    Bodies {
        updates: 100,
        descendants: random.choose(&[0, 10, 40]),
        named: random.choose(&[20, 60, 95]),
        names: random.choose(&[2, 3, 9]),
        documents,
        upward: 0,
    }
}

/// The document of a record: in which script of a pair, and where its number
/// stands.
#[derive(Clone, Copy)]
struct Document {
    which: usize,
    place: usize,
    number: u8,
}

impl Document {
    fn replace(self, pair: &mut Pair, number: u8) {
        pair[self.which][self.place] = number;
    }

    fn put_back(self, pair: &mut Pair) {
        self.replace(pair, self.number);
    }
}

/// Puts documents of the scripts' own for others, just as many as make the pair
/// free, in random order. Answers what was there: any of them makes it meet.
fn make_free(random: &mut Random, pair: &mut Pair) -> Vec<Document> {
    let mut documents = documents(pair);
    for index in 1..documents.len() {
        documents.swap(index, random.below(index + 1));
    }
    let mut put = Vec::new();
    for document in documents {
        if is_free(pair) {
            break;
        }
        document.replace(pair, OWN[document.which]);
        put.push(document);
    }
    put.retain(|document| {
        document.put_back(pair);
        let meets = !is_free(pair);
        if meets {
            document.replace(pair, OWN[document.which]);
        }
        meets
    });
    put
}

/// Compares a pair once for each document record of the first and each of the
/// second: these two have the same document, all others their script's own.
fn crossed(
    random: &mut Random,
    scripts: &Scripts,
    shape: [usize; 2],
) -> Result<Counts, Difference> {
    let mut counts = Counts::default();
    let mut pair = meeting(random, scripts, shape);
    has_shape(&pair, shape)?;
    let documents = documents(&pair);
    for document in &documents {
        document.replace(&mut pair, OWN[document.which]);
    }
    let (firsts, seconds): (Vec<Document>, Vec<Document>) =
        documents.iter().partition(|document| document.which == 0);
    for first in firsts {
        first.replace(&mut pair, SHARED);
        for &second in &seconds {
            second.replace(&mut pair, SHARED);
            counts.compare(&pair[0], &pair[1])?;
            second.replace(&mut pair, OWN[1]);
        }
        first.replace(&mut pair, OWN[0]);
    }
    Ok(counts)
}

/// The documents of a pair of sound scripts.
fn documents(pair: &Pair) -> Vec<Document> {
    let mut documents = Vec::new();
    for (which, bytes) in pair.iter().enumerate() {
        let script = read(bytes).expect("within the limits");
        for record in script.records() {
            if let Operation::Document(number) = record.operation {
                documents.push(Document {
                    which,
                    place: record.place + 1,
                    number,
                });
            }
        }
    }
    documents
}

/// Have the scripts of a pair as many positions as meant?
pub fn has_shape(pair: &Pair, shape: [usize; 2]) -> Result<(), Difference> {
    let counts = [0, 1].map(|which| read(&pair[which]).map(|script| count(&script)));
    match counts == shape.map(Ok) {
        true => Ok(()),
        false => {
            let message = format!("{counts:?} positions, where {shape:?} are meant");
            Err(difference(Call::Analyse, &[&pair[0], &pair[1]], &message))
        }
    }
}

/// The answers are the same on a stack of the size allowed.
pub fn small_stack(pairs: &[Pair]) -> Result<(), Difference> {
    let analyse = |[first, second]: &Pair| ffi::analyse(first, second);
    let small: Vec<Answer> = on_stack(STACK, || pairs.iter().map(analyse).collect());
    for (pair, small) in pairs.iter().zip(small) {
        if small != analyse(pair) {
            let message = "another answer on a small stack";
            return Err(difference(Call::Analyse, &[&pair[0], &pair[1]], message));
        }
    }
    Ok(())
}

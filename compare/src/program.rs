//! Compares the program `pair` with the oracle: what it prints in folders
//! whose files are sound, damaged, missing or too long.

use std::collections::BTreeSet;
use std::fs;
use std::path::{Path, PathBuf};
use std::process::Command;

use compare::generate::document01::{CHILDREN_NAMED_3, PLAN_P, SCRIPT_A, SCRIPT_B};
use compare::generate::random::Random;
use compare::generate::runs::{case, Case};
use compare::generate::{damage, pairs, plans};
use compare::oracle::limits::{FILE_BYTES, ROWS};
use compare::oracle::pair::pair;
use compare::oracle::plan::to_vec;
use compare::oracle::script::kind;
use compare::oracle::table::Table;

/// The environment variable that names the program, and where it is otherwise,
/// from the folder of this crate.
const PROGRAM_VARIABLE: &str = "YEGNABIT_PAIR";
const DEFAULT_PROGRAM: &str = "../crates/pair/out/pair";

const SEED: u64 = 0x7061_6972;
const RANDOM_FOLDERS: usize = 3000;
/// Loops may nest: how many turns a script may come to, about.
const TURNS: usize = 20_000;

const NAMES: [&str; 3] = ["plan", "first", "second"];

/// What stands under a file's name.
#[derive(Debug)]
enum Entry {
    File(Vec<u8>),
    Missing,
    /// Opens, and cannot be read.
    Folder,
}

/// A file with these bytes.
fn file(bytes: &[u8]) -> Entry {
    Entry::File(bytes.to_vec())
}

impl Entry {
    /// The bytes that the program has of it.
    fn bytes(&self) -> &[u8] {
        match self {
            Entry::File(bytes) => bytes,
            Entry::Missing | Entry::Folder => &[],
        }
    }
}

/// The program, and the folder that it is run in.
struct Program {
    path: PathBuf,
    folder: PathBuf,
    /// The kinds of line and of folder seen.
    seen: BTreeSet<String>,
}

impl Program {
    fn find() -> Result<Program, String> {
        let here = Path::new(env!("CARGO_MANIFEST_DIR"));
        let path = std::env::var(PROGRAM_VARIABLE)
            .map_or_else(|_| here.join(DEFAULT_PROGRAM), PathBuf::from);
        let path = fs::canonicalize(&path)
            .map_err(|error| format!("no program {}: {error}", path.display()))?;
        let folder = std::env::temp_dir().join(format!("yegnabit-pair-{}", std::process::id()));
        Ok(Program {
            path,
            folder,
            seen: BTreeSet::new(),
        })
    }

    /// Runs the program on the three entries and compares what it prints.
    fn check(&mut self, entries: &[Entry; 3], expected: &[u8]) -> Result<(), String> {
        let printed = self
            .print(entries)
            .map_err(|error| format!("running {}: {error}", self.path.display()))?;
        if printed != expected {
            return Err(format!(
                "pair printed\n{}instead of\n{}for {entries:02x?}",
                String::from_utf8_lossy(&printed),
                String::from_utf8_lossy(expected)
            ));
        }
        let text = String::from_utf8_lossy(&printed);
        self.seen.extend(text.lines().map(kind_of_line));
        self.seen.extend(refused_alone(&text));
        Ok(())
    }

    fn print(&self, entries: &[Entry; 3]) -> std::io::Result<Vec<u8>> {
        if self.folder.exists() {
            fs::remove_dir_all(&self.folder)?;
        }
        fs::create_dir_all(&self.folder)?;
        for (name, entry) in NAMES.iter().zip(entries) {
            let path = self.folder.join(name);
            match entry {
                Entry::File(bytes) => fs::write(path, bytes)?,
                Entry::Missing => {}
                Entry::Folder => fs::create_dir(path)?,
            }
        }
        let output = Command::new(&self.path)
            .current_dir(&self.folder)
            .output()?;
        fs::remove_dir_all(&self.folder)?;
        if !output.status.success() || !output.stderr.is_empty() {
            return Err(std::io::Error::other(format!("{output:?}")));
        }
        Ok(output.stdout)
    }

    /// The same, with what the oracle prints.
    fn compare(&mut self, entries: &[Entry; 3]) -> Result<(), String> {
        let [plan, first, second] = entries;
        let expected = pair(plan.bytes(), first.bytes(), second.bytes());
        self.check(entries, &expected)
    }
}

/// A line without its counts and place.
fn kind_of_line(line: &str) -> String {
    let parts: Vec<&str> = line.split(' ').collect();
    let kept = match parts[..] {
        ["answer", ..] => 2,
        ["file", ..] => 3,
        [_, "refused", ..] => 4,
        _ => 1,
    };
    parts[..kept].join(" ")
}

/// The kind of a folder in which one order only is refused.
fn refused_alone(text: &str) -> Option<String> {
    let lines = text.lines();
    let mut refused = lines.filter_map(|line| Some(line.split_once(" refused ")?.0));
    match (refused.next(), refused.next()) {
        (Some(order), None) => Some(format!("{order} refused alone")),
        _ => None,
    }
}

/// Every kind of line that there can be, and each order refused alone: the
/// random folders have to bring all about.
fn due() -> BTreeSet<String> {
    let mut due: BTreeSet<String> = ["free", "upward", "meet"]
        .map(|text| format!("answer {text}"))
        .into();
    due.extend([1, 2, 4, 5, 6].map(|number| format!("file plan {number}")));
    for name in ["first", "second"] {
        due.extend((1..=5).map(|number| format!("file {name} {number}")));
    }
    for order in ["one-two", "two-one"] {
        due.insert(order.to_string());
        due.insert(format!("{order} refused alone"));
        for script in [1, 2] {
            due.extend([7, 8, 10].map(|number| format!("{order} refused {script} {number}")));
        }
    }
    due
}

/// Runs all comparisons and answers a summary, or the first difference.
pub fn test() -> Result<String, String> {
    let mut program = Program::find()?;
    documents_own(&mut program)?;
    chosen(&mut program)?;
    program.seen.clear();
    let mut random = Random::new(SEED);
    for _ in 0..RANDOM_FOLDERS {
        program.compare(&random_entries(&mut random))?;
    }
    let seen = &program.seen;
    let due = due();
    if *seen != due {
        return Err(format!("brought about: {seen:?}; due: {due:?}"));
    }
    Ok(format!(
        "pair: {RANDOM_FOLDERS} random folders, {} kinds of line and folder, no difference\n",
        seen.len()
    ))
}

/// What document 01 itself says that the program prints.
fn documents_own(program: &mut Program) -> Result<(), String> {
    program.check(
        &[file(&PLAN_P), file(&SCRIPT_A), file(&SCRIPT_B)],
        b"answer free\none-two 1 0 6\ntwo-one 1 0 6\n",
    )?;
    program.check(
        &[file(&PLAN_P), file(&[]), file(&SCRIPT_B)],
        b"file first 2 0\n",
    )?;
    program.check(
        &[file(&PLAN_P), Entry::Missing, file(&SCRIPT_B)],
        b"file first 2 0\n",
    )
}

/// Files at the limit of what is read, missing files, refusals that are rare,
/// and one order refused alone.
fn chosen(program: &mut Program) -> Result<(), String> {
    // Run first, the delete cuts row 3 and leaves B no child named 3: 7. Run
    // second, it comes after B's rows 4 and 5. Both answers are empty. It
    // modifies the children named 3, which B traverses: meet.
    let delete = [&[kind::DELETE][..], &CHILDREN_NAMED_3].concat();
    let (p, cut, b) = (&PLAN_P[..], &delete[..], &SCRIPT_B[..]);
    program.check(
        &[file(p), file(cut), file(b)],
        b"answer meet\none-two refused 2 7\ntwo-one 0 0 6\n",
    )?;
    program.check(
        &[file(p), file(b), file(cut)],
        b"answer meet\none-two 0 0 6\ntwo-one refused 1 7\n",
    )?;

    let script = || file(&[kind::DOCUMENT, 0]);
    let mut random = Random::new(SEED);
    let full = to_vec(&plans::full_table(&mut random));

    for entries in [
        [Entry::Missing, script(), script()],
        [Entry::Folder, script(), script()],
        [script(), script(), script()],
        [Entry::Missing, script(), Entry::Folder],
        [Entry::Missing, Entry::Folder, Entry::Missing],
        [file(&full), script(), script()],
    ] {
        program.compare(&entries)?;
    }
    for length in [
        FILE_BYTES - 1,
        FILE_BYTES,
        FILE_BYTES + 1,
        2 * FILE_BYTES + 7,
    ] {
        for place in 0..3 {
            let mut entries = [file(&full), script(), script()];
            let mut bytes = entries[place].bytes().to_vec();
            bytes.resize(length, 0x11);
            entries[place] = Entry::File(bytes);
            program.compare(&entries)?;
        }
    }
    // 512 rows: a new row is 10; all rows below the root joined to themselves are 8.
    let star = to_vec(&plans::star(ROWS));
    let all = [kind::STEP, 1, 0, 0, kind::DOCUMENT, 0];
    let many = [&[kind::JOIN][..], &all, &all].concat();
    for refused in [vec![kind::ELEMENT, 4], many] {
        program.compare(&[file(&star), file(&refused), script()])?;
        program.compare(&[file(&star), script(), file(&refused)])?;
    }
    Ok(())
}

fn random_entries(random: &mut Random) -> [Entry; 3] {
    loop {
        let (plan, [first, second]) = match random.below(3) {
            0 => for_runs(random),
            _ => for_analyses(random),
        };
        let rows = plan.rows.len();
        if turns(&first, rows).max(turns(&second, rows)) <= TURNS {
            return [to_vec(&plan), first, second].map(|bytes| entry(random, bytes));
        }
    }
}

/// A plan and two scripts that often change it, as runs have them.
fn for_runs(random: &mut Random) -> (Table, [Vec<u8>; 2]) {
    let Case { plan, script } = case(random);
    let other = case(random).script;
    match random.chance(50) {
        true => (plan, [script, other]),
        false => (plan, [other, script]),
    }
}

/// A plan, sometimes nearly full or with one row too many, and two scripts as
/// analyses have them.
fn for_analyses(random: &mut Random) -> (Table, [Vec<u8>; 2]) {
    let rows = match random.below(10) {
        0 => plans::row_count(random),
        1 => random.between(ROWS - 6, ROWS + 1),
        _ => random.between(0, 30),
    };
    let shape = plans::Shape {
        marked: random.choose(&[80, 100]),
        names: 3,
        ..plans::Shape::random(random)
    };
    (plans::table(random, rows, shape), pairs::pair(random))
}

/// At most about so many turns of loops: the rows, once for each byte that
/// could be a loop's kind.
fn turns(script: &[u8], rows: usize) -> usize {
    let loops = script.iter().filter(|&&byte| byte == kind::FOR).count();
    rows.max(2).saturating_pow(loops as u32)
}

fn entry(random: &mut Random, bytes: Vec<u8>) -> Entry {
    match random.below(40) {
        0 => Entry::Missing,
        1 => Entry::File(damage::several(&bytes, random)),
        2 => Entry::File(damage::noise(random, 12)),
        3 => Entry::File(damage::appended(&bytes, random)),
        _ => Entry::File(bytes),
    }
}

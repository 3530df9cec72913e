//! Document 01, 'The paths': the analysis of two scripts.

use super::meeting;
use super::path::{count_at_most, infer, Inferred, Paths, Which};
use super::refusal::Refusal;
use super::script::{self, Expression};
use super::unlisted;

/// The most paths of a script, as [`count_at_most`] bounds them, for which they
/// are listed.
const LISTED: u64 = 3000;

#[derive(Clone, Copy, Debug, PartialEq, Eq)]
pub enum Answer {
    Free,
    Upward,
    Meet,
}

impl Answer {
    pub const fn text(self) -> &'static str {
        match self {
            Answer::Free => "free",
            Answer::Upward => "upward",
            Answer::Meet => "meet",
        }
    }
}

/// "The analysis reads the first script, then the second, and says which is
/// refused."
pub fn read_both(
    first: &[u8],
    second: &[u8],
) -> Result<(Expression, Expression), (Which, Refusal)> {
    let first = script::read(first).map_err(|refusal| (Which::First, refusal))?;
    let second = script::read(second).map_err(|refusal| (Which::Second, refusal))?;
    Ok((first, second))
}

/// Reads two scripts and analyses them.
pub fn analyse(first: &[u8], second: &[u8]) -> Result<Answer, (Which, Refusal)> {
    let (first, second) = read_both(first, second)?;
    Ok(analyse_read(&first, &second))
}

/// Analyses two scripts that were read: by the explicit sets of paths, unless
/// these are too large to list.
pub fn analyse_read(first: &Expression, second: &Expression) -> Answer {
    if can_be_listed(first) && can_be_listed(second) {
        by_listed_paths(first, second)
    } else {
        by_unlisted_paths(first, second)
    }
}

pub fn can_be_listed(script: &Expression) -> bool {
    count_at_most(script) <= LISTED
}

/// The answer by the explicit sets of paths.
pub fn by_listed_paths(first: &Expression, second: &Expression) -> Answer {
    answer_by(listed_paths_meet, first, second)
}

/// The answer by the second method, which lists no paths.
pub fn by_unlisted_paths(first: &Expression, second: &Expression) -> Answer {
    answer_by(unlisted::meet, first, second)
}

/// "`upward` (either script holds axis 2 or 3, even in a branch never run),
/// else `meet`", where demand 2 does not say `free`. So whether scripts meet is
/// asked of downward ones only.
fn answer_by(
    meet: fn(&Expression, &Expression) -> bool,
    first: &Expression,
    second: &Expression,
) -> Answer {
    if first.has_upward_step() || second.has_upward_step() {
        Answer::Upward
    } else if meet(first, second) {
        Answer::Meet
    } else {
        Answer::Free
    }
}

/// Demand 2: can "a node [be] on a path one script modifies and on a path the
/// other traverses"?
fn listed_paths_meet(first: &Expression, second: &Expression) -> bool {
    let first = infer(first, Which::First);
    let second = infer(second, Which::Second);
    conflicts(&first, &second)
        .iter()
        .any(|(modified, traversed)| {
            modified
                .iter()
                .any(|left| traversed.iter().any(|right| meeting::meet(left, right)))
        })
}

/// What one script modifies and the other traverses, both ways.
pub fn conflicts<'a>(first: &'a Inferred, second: &'a Inferred) -> [(&'a Paths, Paths); 2] {
    [
        (&first.modified, second.traversed()),
        (&second.modified, first.traversed()),
    ]
}

//! Document 01, 'The scripts': pick, as request (a) of document 02 changes it.

use super::evaluate::evaluate;
use super::script::Relation;
use super::{plan, script};

/// "Survey now enters −128 for a road nobody has measured."
pub const NOT_SURVEYED: i8 = -128;

/// "From this request −128 is a mark." A leaf with any other value is surveyed.
pub const fn is_surveyed(value: i8) -> bool {
    value != NOT_SURVEYED
}

/// Does pick keep a leaf with this value?
pub fn keeps(value: i8, relation: Relation, constant: i8) -> bool {
    if is_surveyed(value) {
        // "Pick keeps the leaves whose signed value stands in the relation to
        // the constant." So "a constant of −128 with relation 2 keeps every
        // surveyed leaf".
        relation.holds(value, constant)
    } else {
        // "Pick keeps such a leaf only for relation 0 with constant −128, and
        // relations 1 and 2 never keep it."
        relation == Relation::Equal && constant == NOT_SURVEYED
    }
}

/// A pick that ran, for those who count them.
#[derive(Clone, Copy, Debug, PartialEq, Eq)]
pub struct Pick {
    pub relation: Relation,
    pub constant: i8,
    /// Its operand's value held a leaf that is not surveyed.
    pub over_unsurveyed: bool,
}

/// The picks of a script run on a stored plan; none where the run is refused.
pub fn of_run(plan: &[u8], script: &[u8]) -> Vec<Pick> {
    let (Ok(mut table), Ok(script)) = (plan::read(plan), script::read(script)) else {
        return Vec::new();
    };
    evaluate(&script, &mut table).map_or(Vec::new(), |evaluated| evaluated.picks)
}

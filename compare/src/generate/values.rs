//! The values of leaves and the constants of picks. Each takes one number of
//! the generator, so that what else is in a plan or script does not depend on
//! which of them are common.

use super::random::Random;
use crate::oracle::pick::NOT_SURVEYED;
use crate::oracle::script::kind;

/// Leaves that are not surveyed, in percent, where nothing else is asked for.
pub const UNSURVEYED: usize = 25;
/// Picks with one of the common constants likewise.
pub const COMMON: usize = 67;
const COMMON_CONSTANTS: [i8; 4] = [NOT_SURVEYED, -127, 127, 0];

/// A leaf's value: any, but not surveyed in so many percent.
pub fn leaf(random: &mut Random, unsurveyed: usize) -> i8 {
    let number = random.number();
    if number / 256 % 100 < unsurveyed as u64 {
        NOT_SURVEYED
    } else {
        number as i8
    }
}

/// The record of a pick: with any constant, but a common one in so many
/// percent.
pub fn pick(random: &mut Random, common: usize) -> [u8; 3] {
    let relation = random.below(3) as u8;
    let number = random.number();
    let constant = if number / 256 % 100 < common as u64 {
        COMMON_CONSTANTS[(number / 25_600 % 4) as usize]
    } else {
        number as i8
    };
    [kind::PICK, relation, constant as u8]
}

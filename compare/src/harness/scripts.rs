//! Scripts: `yegnabit_script`.

use compare::generate::damage::{self, Values};
use compare::generate::edges;
use compare::generate::random::Random;
use compare::generate::scripts::{script, Wanted};

use super::checker::Checker;
use super::{Difference, Volume};

const SEED: u64 = 0x01;
/// The longest small scripts of which all are tried.
const ALL_UP_TO: usize = 4;
/// Scripts of random bytes are at most this long.
const NOISE: usize = 80;

pub fn test(checker: &mut Checker, volume: Volume) -> Result<(), Difference> {
    let mut random = Random::new(SEED);
    (0..=ALL_UP_TO)
        .try_for_each(|length| edges::small_scripts(length, |bytes| checker.script(bytes)))?;
    for bytes in edges::scripts() {
        damaged(checker, &mut random, &bytes)?;
    }
    for wanted in edges::wanted_scripts() {
        for _ in 0..volume.of(100) {
            checker.script(&script(&mut random, wanted))?;
        }
        for _ in 0..volume.of(2) {
            let bytes = script(&mut random, wanted);
            damaged(checker, &mut random, &bytes)?;
        }
    }
    for _ in 0..volume.of(60_000) {
        let wanted = Wanted::random(&mut random);
        let bytes = script(&mut random, wanted);
        checker.script(&bytes)?;
        checker.script(&damage::several(&bytes, &mut random))?;
    }
    for _ in 0..volume.of(100) {
        let wanted = Wanted::random(&mut random);
        let bytes = script(&mut random, wanted);
        damaged(checker, &mut random, &bytes)?;
    }
    for _ in 0..volume.of(300_000) {
        checker.script(&damage::noise(&mut random, NOISE))?;
    }
    Ok(())
}

/// A script with each byte changed to all values, cut at each length, and with
/// bytes appended.
fn damaged(checker: &mut Checker, random: &mut Random, bytes: &[u8]) -> Result<(), Difference> {
    checker.script(bytes)?;
    damage::each_byte(bytes, Values::All, random, |damaged| {
        checker.script(damaged)
    })?;
    damage::each_cut(bytes, |cut| checker.script(cut))?;
    (0..16).try_for_each(|_| checker.script(&damage::appended(bytes, random)))
}

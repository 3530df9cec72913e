//! Damage to sound bytes.

use super::random::Random;

/// Values that are likely to matter, besides neighbours of the old one.
const AWKWARD: [u8; 18] = [
    0x00, 0x01, 0x02, 0x03, 0x07, 0x08, 0x09, 0x0A, 0x0D, 0x0E, 0x10, 0x11, 0x12, 0x13, 0x14, 0x7F,
    0x80, 0xFF,
];

/// Bytes up to this length are damaged with all values of each.
const SMALL: usize = 48;
/// Bytes up to this length are damaged with many values of each.
const MIDDLE: usize = 200;

/// Which values a byte takes when it is damaged.
#[derive(Clone, Copy)]
pub enum Values {
    /// All 256.
    All,
    /// The awkward ones, the neighbours and single bits flipped.
    Likely,
    /// A few.
    Few,
}

impl Values {
    /// The longer the bytes, the fewer values of each.
    pub const fn for_length(length: usize) -> Values {
        if length <= SMALL {
            Values::All
        } else if length <= MIDDLE {
            Values::Likely
        } else {
            Values::Few
        }
    }
}

/// Calls `check` with each byte changed in turn.
pub fn each_byte<E>(
    bytes: &[u8],
    values: Values,
    random: &mut Random,
    mut check: impl FnMut(&[u8]) -> Result<(), E>,
) -> Result<(), E> {
    let mut damaged = bytes.to_vec();
    for place in 0..bytes.len() {
        let old = bytes[place];
        let mut try_value = |value: u8| {
            damaged[place] = value;
            check(&damaged)
        };
        match values {
            Values::All => (0..=u8::MAX).try_for_each(try_value)?,
            Values::Likely => {
                AWKWARD.iter().copied().try_for_each(&mut try_value)?;
                (0..8)
                    .map(|bit| old ^ (1 << bit))
                    .try_for_each(&mut try_value)?;
                try_value(old.wrapping_add(1))?;
                try_value(old.wrapping_sub(1))?;
            }
            Values::Few => {
                try_value(random.choose(&AWKWARD))?;
                try_value(old ^ (1 << random.below(8)))?;
                try_value(old.wrapping_add(1))?;
                try_value(random.byte())?;
            }
        }
        damaged[place] = old;
    }
    Ok(())
}

/// Calls `check` with the bytes cut at each length, the whole included.
pub fn each_cut<E>(bytes: &[u8], mut check: impl FnMut(&[u8]) -> Result<(), E>) -> Result<(), E> {
    (0..=bytes.len()).try_for_each(|length| check(&bytes[..length]))
}

/// Bytes with some appended.
pub fn appended(bytes: &[u8], random: &mut Random) -> Vec<u8> {
    let mut longer = bytes.to_vec();
    for _ in 0..random.between(1, 9) {
        longer.push(likely_byte(random));
    }
    longer
}

/// Bytes with some changed, dropped, doubled or put in.
pub fn several(bytes: &[u8], random: &mut Random) -> Vec<u8> {
    let mut damaged = bytes.to_vec();
    for _ in 0..random.between(1, 4) {
        if damaged.is_empty() {
            break;
        }
        let place = random.below(damaged.len());
        match random.below(4) {
            0 => damaged[place] = likely_byte(random),
            1 => {
                damaged.remove(place);
            }
            2 => damaged.insert(place, likely_byte(random)),
            _ => {
                let end = (place + random.between(1, 8)).min(damaged.len());
                let part = damaged[place..end].to_vec();
                damaged.splice(place..place, part);
            }
        }
    }
    damaged
}

/// Random bytes, often of likely values.
pub fn noise(random: &mut Random, longest: usize) -> Vec<u8> {
    let likely = random.chance(50);
    let length = random.between(0, longest);
    (0..length)
        .map(|_| {
            if likely {
                likely_byte(random)
            } else {
                random.byte()
            }
        })
        .collect()
}

fn likely_byte(random: &mut Random) -> u8 {
    if random.chance(80) {
        random.choose(&AWKWARD)
    } else {
        random.byte()
    }
}

//! The longest histories that runs can write. A run makes at most 512 rows, and
//! no row's link is cut twice; row 0 has none, since a parent has the lower
//! number. So a history has at most 512 + 511 = 1,023 records.

use super::{Given, Run};
use crate::generate::edges::{doubling, CUT_BELOW};
use crate::oracle::refusal::Number;

/// The rows below x, which is variable 0.
const BELOW_X: [u8; 6] = [0x04, 0x01, 0x00, 0x00, 0x03, 0x00];
/// A stored plan of one row.
const ONE_ROW: [u8; 4] = [0x11, 0x07, 0xFF, 0xFF];

/// A run with what is counted of it: rows made, links cut, records written, and
/// bytes of the history, all 0 where it is refused.
pub struct Longest {
    pub run: Run,
    pub counts: [usize; 4],
}

/// Runs at the limit of rows made and links cut, below it and above it.
pub fn longest() -> Vec<Longest> {
    let cut = &CUT_BELOW[..];
    let case = |rule, plan: &[u8], script, end, counts| Longest {
        run: Run {
            rule,
            plan: plan.to_vec(),
            script,
            end,
        },
        counts,
    };
    let refused = |place| Err(Number::Table.at(place));
    let mut cases = vec![
        // 512 records of 6 bytes and 511 of 5.
        case(
            "nine doublings make 512 rows, and 511 have a link",
            &[],
            doubling(9, &[cut]),
            Ok(cut_below(&[], 9)),
            [512, 511, 1023, 5627],
        ),
        // 256 records of 6 bytes and 255 of 5.
        case(
            "eight doublings make 256 rows, and 255 have a link",
            &[],
            doubling(8, &[cut]),
            Ok(cut_below(&[], 8)),
            [256, 255, 511, 2811],
        ),
        case(
            "eight doublings beside another row",
            &ONE_ROW,
            doubling(8, &[cut]),
            Ok(cut_below(&ONE_ROW, 8)),
            [256, 255, 511, 2811],
        ),
        case(
            "nine doublings make 512 rows",
            &[],
            doubling(9, &[]),
            Ok(doubled(&[], 9)),
            [512, 0, 512, 3072],
        ),
        // The tenth insert stands after a let of 1 byte, an element of 2, nine
        // joins of 1 and nine inserts of 5.
        case(
            "a tenth doubling makes a 513th row",
            &[],
            doubling(10, &[]),
            refused(1 + 2 + 9 + 9 * 5),
            [0; 4],
        ),
        // Of 512 rows one is there already, and x's tree has 256: the ninth
        // insert is short of one. It stands after eight.
        case(
            "a ninth doubling beside another row makes a 513th",
            &ONE_ROW,
            doubling(9, &[cut]),
            refused(1 + 2 + 9 + 8 * 5),
            [0; 4],
        ),
    ];
    // All that cut the same 511 links, in the same order.
    let each = [&[0x07][..], &BELOW_X, &[0x0B, 0x03, 0x01]].concat();
    let with_x = [&[0x0B, 0x05, 0x03, 0x00][..], &BELOW_X].concat();
    let once = [
        ("a second delete finds no link", doubling(9, &[cut, cut])),
        ("row 0 has no link", doubling(9, &[&with_x])),
        ("each row deleted by itself", doubling(9, &[&each])),
        ("each deleted, then all", doubling(9, &[&each, cut])),
    ];
    cases.extend(once.map(|(rule, script)| {
        let end = Ok(cut_below(&[], 9));
        case(rule, &[], script, end, [512, 511, 1023, 5627])
    }));
    // A value of 510 items, each of 255 rows twice.
    let twice = [&[0x0B, 0x05][..], &BELOW_X, &BELOW_X].concat();
    cases.push(case(
        "a row that stands twice in a value is cut once",
        &[],
        doubling(8, &[&twice]),
        Ok(cut_below(&[], 8)),
        [256, 255, 511, 2811],
    ));
    cases
}

/// The rows of x's tree that have a parent, as numbers from x on, each with its
/// parent. An insert of x into x copies row k to a row whose number is k and
/// one more power of two, higher than all in k; the copy of x itself hangs
/// under x, and every other copy under its parent's copy. So the parent's
/// number lacks the lowest power of two.
fn links(inserts: u32) -> impl Iterator<Item = (u16, u16)> {
    (1..1 << inserts).map(|row: u16| (row, row - (1 << row.trailing_zeros())))
}

/// What a run gives that doubles x's tree so many times, on a plan of which
/// each record is a row: x is the next row.
fn doubled(plan: &[u8], inserts: u32) -> Given {
    let x = plan.len() as u16 / 4;
    let mut rows = vec![[0x11, 0x01, 0xFF, 0xFF]];
    rows.extend(links(inserts).map(|(_, parent)| {
        let [low, high] = (x + parent).to_le_bytes();
        [0x11, 0x01, low, high]
    }));
    Given::with_rows(plan, &[], &rows)
}

/// What a run gives that then cuts all rows below x, in rising number.
fn cut_below(plan: &[u8], inserts: u32) -> Given {
    let x = plan.len() as u16 / 4;
    let mut given = doubled(plan, inserts);
    for row in given.plan.chunks_mut(4) {
        row[2..].fill(0xFF);
    }
    for (row, parent) in links(inserts) {
        let ([low, high], [old_low, old_high]) =
            ((x + row).to_le_bytes(), (x + parent).to_le_bytes());
        given.history.extend([0x43, low, high, old_low, old_high]);
    }
    given
}

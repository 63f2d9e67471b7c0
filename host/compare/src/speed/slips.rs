//! Reading a slip, beside verifying its signature alone.

use super::calls::milliseconds;
use super::table::{Table, cell};
use super::{Best, Turns};
use crate::pool::{Base, Pool, SETS};
use crate::{expect, unit};
use independent::raccoon::Edition;
use std::hint::black_box;

/// One round over both calls at all sets.
pub fn measured(pool: &Pool, turns: Turns) -> Vec<Best> {
    (0..SETS.len())
        .flat_map(|set| {
            let base = pool.base(set, 0, Edition::Printed);
            [verifying(base, turns), reading(base, turns)]
        })
        .collect()
}

pub fn table(slips: &[Best]) -> Table {
    let row = |calls: &[Best]| calls.iter().map(|best| cell(best, milliseconds)).collect();
    Table {
        title: "Slips",
        caption: "milliseconds; a text of 200 bytes",
        corner: "set",
        heads: vec!["verifying", "reading"],
        figures: ["unit", "indep", "ratio"],
        joints: [" / ", " = "],
        rows: SETS.iter().zip(slips.chunks_exact(2)).map(|(set, calls)| (set.to_string(), row(calls))).collect(),
    }
}

/// A slip with a text of 200 bytes.
fn slip(base: &Base) -> &[u8] {
    &base.slips()[2]
}

fn verifying(base: &Base, turns: Turns) -> Best {
    let (message, signature) = slip(base).split_at(slip(base).len() - base.p.sig_bytes);
    let (edition, set) = (base.p.edition, base.p.kappa as u32);
    turns.best(
        || assert_eq!(unit::verify(edition, set, black_box(base.public_key()), message, signature), 0),
        || assert_eq!(expect::verify(edition, set, black_box(base.public_key()), message, signature), 0),
    )
}

fn reading(base: &Base, turns: Turns) -> Best {
    turns.best(
        || assert_eq!(unit::read_slip(black_box(base.public_key()), slip(base)).status, 0),
        || assert_eq!(expect::read_slip(black_box(base.public_key()), slip(base)).status, 0),
    )
}

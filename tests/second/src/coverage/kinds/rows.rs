//! Of rows and of their report.

use super::{Kind, Seen};
use crate::aiger::rows::LANES;
use crate::aiger::step;

/// How many rows there are.
pub const NUMBERS: &[Kind] = &[
    ("0 rows", |seen| rows(seen, 0)),
    ("1 row", |seen| rows(seen, 1)),
    ("63 rows", |seen| rows(seen, LANES - 1)),
    ("64 rows", |seen| rows(seen, LANES)),
    ("65 rows", |seen| seen.refused(13, LANES) && seen.number() == LANES + 1),
    ("without outputs", |seen| seen.accepted(|c| c.outputs.is_empty())),
];

pub const KINDS: &[Kind] = &[
    ("without inputs", |seen| seen.accepted(|c| c.inputs.is_empty())),
    ("without latches", |seen| seen.accepted(|c| c.latches.is_empty())),
    ("a first state that is not 0", |seen| {
        seen.accepted(|c| step::start(c).iter().any(|&value| value != b'0'))
    }),
    ("0, 1 and x among the outputs", |seen| {
        let output = seen.after.bytes[2].lent();
        seen.accepted(|_| b"01x".iter().all(|value| output.contains(value)))
    }),
    ("13 before 12", |seen| {
        let [_, i, l, o, ..] = *seen.before.counts.lent() else {
            return false;
        };
        let mut buffers = seen.before.bytes.iter().zip([l, i, o]);
        let wrong = |length: usize, count: u64| length as u64 != count.wrapping_mul(seen.number());
        seen.refused(13, LANES) && buffers.any(|(buffer, count)| wrong(buffer.lent().len(), count))
    }),
];

pub const OF_REPORTS: &[Kind] = &[
    ("0, 1 and x of one output", |seen| {
        let mut numbers = seen.after.written[0].lent().as_chunks::<3>().0.iter();
        seen.accepted(|_| numbers.clone().len() > 0) && numbers.any(|numbers| !numbers.contains(&0))
    }),
    ("spare words in table 6", |seen| {
        seen.accepted(|c| seen.after.written[0].lent().len() > 3 * c.outputs.len())
    }),
];

fn rows(seen: &Seen, number: u64) -> bool {
    seen.accepted(|c| seen.number() == number && !c.outputs.is_empty())
}

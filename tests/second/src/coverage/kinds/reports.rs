//! Of a needle report.

use super::{Kind, Seen};
use crate::aiger::report::{Numbers, MOST_STEPS};
use crate::aiger::step;

/// Each takes as many steps.
pub const SLOW: &[Kind] = &[("as many vectors as may be", |seen| {
    seen.accepted(|_| seen.number() == MOST_STEPS)
})];

pub const KINDS: &[Kind] = &[
    ("without inputs", |seen| seen.accepted(|c| c.inputs.is_empty())),
    ("without outputs", |seen| seen.accepted(|c| c.outputs.is_empty())),
    ("without latches", |seen| seen.accepted(|c| c.latches.is_empty())),
    ("without vectors", |seen| seen.accepted(|_| seen.number() == 0)),
    ("one vector", |seen| seen.accepted(|_| seen.number() == 1)),
    ("a first state that is not 0", |seen| {
        seen.accepted(|c| step::start(c).iter().any(|&value| value != b'0'))
    }),
    ("0, 1 and x of one place", |seen| {
        some(seen, |[zero, one, x, _]| zero.min(one).min(x) > 0)
    }),
    ("a change to or from x alone", |seen| {
        some(seen, |[zero, one, x, changes]| {
            changes > 0 && x > 0 && (zero == 0 || one == 0)
        })
    }),
    ("a change at every step", |seen| {
        some(seen, |[zero, one, x, changes]| {
            changes > 1 && changes + 1 == zero + one + x
        })
    }),
    ("spare words in table 6", |seen| {
        seen.accepted(|c| seen.after.written[0].lent().len() > 4 * (c.outputs.len() + c.latches.len()))
    }),
    ("one vector too many", |seen| {
        seen.refused(13, MOST_STEPS) && seen.number() == MOST_STEPS + 1
    }),
    ("13 before 12", |seen| {
        let [_, i, ..] = *seen.before.counts.lent() else {
            return false;
        };
        seen.refused(13, MOST_STEPS) && i > 0
    }),
];

/// Whether some output or latch of an accepted report has such numbers.
fn some(seen: &Seen, are: fn(Numbers) -> bool) -> bool {
    let mut numbers = seen.after.written[0].lent().as_chunks().0.iter();
    seen.outcome.is_ok() && numbers.any(|&numbers| are(numbers))
}

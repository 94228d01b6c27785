//! Of a rewired gate.

use super::{Kind, Seen};
use crate::compare::tables::in_order;
use crate::naive;

pub const KINDS: &[Kind] = &[
    ("the first gate of several", |seen| {
        seen.accepted(|c| seen.number() == 0 && c.gates.len() > 1)
    }),
    ("a middle gate", |seen| {
        seen.accepted(|c| seen.number() > 0 && seen.number() + 1 < c.gates.len() as u64)
    }),
    ("the last gate of several", |seen| {
        seen.accepted(|c| seen.number() > 0 && seen.number() + 1 == c.gates.len() as u64)
    }),
    ("the larger side first", |seen| {
        seen.outcome.is_ok() && sides(seen)[0] > sides(seen)[1]
    }),
    ("the smaller side first", |seen| {
        seen.outcome.is_ok() && sides(seen)[0] < sides(seen)[1]
    }),
    ("equal sides", |seen| {
        seen.outcome.is_ok() && sides(seen)[0] == sides(seen)[1]
    }),
    ("an x among the values", |seen| {
        seen.accepted(|_| seen.before.bytes[0].lent().contains(&b'x'))
    }),
    ("values that change", |seen| {
        changed(seen).is_some_and(|changed| changed > 0)
    }),
    ("values of other gates that change", |seen| {
        changed(seen).is_some_and(|changed| changed > 1)
    }),
    ("values that stay", |seen| changed(seen) == Some(0)),
    ("gates after it that do not depend on it", |seen| {
        seen.accepted(|c| {
            let gate = seen.number() as usize;
            c.gates.len() < 40 && naive::depends(c)[gate + 1..].iter().any(|row| !row[gate])
        })
    }),
    ("5 for a side", |seen| seen.refused(5, 4) && in_order(seen.before)),
    ("15 for a side", |seen| seen.refused(15, 0) && in_order(seen.before)),
    ("23 at the constant", |seen| seen.refused(23, 0)),
    ("23 at an input or a latch", |seen| {
        at(seen, |v, sources| v > 0 && v <= sources)
    }),
    ("23 at a gate", |seen| at(seen, |v, sources| v > sources)),
    ("22 for a number beyond 32 bits", |seen| {
        seen.refused(22, seen.number()) && seen.number() >> 32 > 0
    }),
];

fn sides(seen: &Seen) -> [u64; 2] {
    [seen.before.numbers[1], seen.before.numbers[2]]
}

/// How many values an accepted edit changes.
fn changed(seen: &Seen) -> Option<usize> {
    let values = seen.before.bytes[0].lent().iter().zip(seen.after.bytes[0].lent());
    seen.outcome.as_ref().ok()?;
    Some(values.filter(|(before, after)| before != after).count())
}

/// Whether 23 names a variable that is so, given the number of inputs and latches.
fn at(seen: &Seen, is: fn(u64, u64) -> bool) -> bool {
    let counts = seen.before.counts.lent();
    seen.outcome
        .as_ref()
        .is_err_and(|refusal| refusal.number == 23 && is(refusal.place, counts[1] + counts[2]))
}

//! Of a step by the plain engine.

use super::Kind;
use crate::aiger::plain::MOST_GATES;
use crate::aiger::Refusal;

const MOST: usize = MOST_GATES as usize;

pub const KINDS: &[Kind] = &[
    ("no gates", |seen| seen.accepted(|c| c.gates.is_empty())),
    ("1 gate", |seen| seen.accepted(|c| c.gates.len() == 1)),
    ("24 gates", |seen| seen.accepted(|c| c.gates.len() == MOST)),
    ("25 gates", |seen| seen.refused(24, MOST_GATES + 1)),
    ("many gates", |seen| {
        let many = |refusal: &Refusal| refusal.number == 24 && refusal.place > MOST_GATES + 1;
        seen.outcome.as_ref().is_err_and(many)
    }),
    ("latches that feed each other", |seen| {
        seen.accepted(|c| {
            let feeds = |next: u32, k: usize| c.latches.iter().take(k).any(|latch| latch[0] / 2 == next / 2);
            c.latches.iter().enumerate().any(|(k, latch)| feeds(latch[1], k))
        })
    }),
    ("24 before 12", |seen| {
        let [_, i, l, o, ..] = *seen.before.counts.lent() else {
            return false;
        };
        let late = seen.outcome.as_ref().is_err_and(|refusal| refusal.number == 24);
        let mut vectors = seen.before.bytes.iter().zip([l, i, o]);
        late && vectors.any(|(vector, count)| vector.lent().len() as u64 != count)
    }),
];

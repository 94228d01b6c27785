//! Of a writer of cards.

use super::{Kind, Seen};

pub const KINDS: &[Kind] = &[
    ("without gates", |seen| seen.accepted(|c| c.gates.is_empty())),
    ("without latches", |seen| seen.accepted(|c| c.latches.is_empty())),
    ("just enough bytes", |seen| {
        seen.accepted(|_| seen.after.answer.lent()[2] == room(seen))
    }),
    ("spare bytes", |seen| {
        seen.accepted(|_| seen.after.answer.lent()[2] < room(seen))
    }),
    ("19 for a tail alone", |seen| {
        seen.refused(19, 0) && !tail(seen).is_empty() && !seen.before.tables[4].lent().contains(&1)
    }),
    ("19 for a reset alone", |seen| alone(seen, 0, 0)),
    ("19 for bad states alone", |seen| alone(seen, 1, 0)),
    ("19 for constraints alone", |seen| alone(seen, 0, 1)),
    ("19 before 11", |seen| seen.refused(19, 0) && room(seen) < 22),
];

fn room(seen: &Seen) -> u64 {
    seen.before.bytes[1].lent().len() as u64
}

fn tail<'a>(seen: &'a Seen) -> &'a [u8] {
    seen.before.bytes[0].lent()
}

/// Without a tail, and with bad states or constraints or neither.
fn alone(seen: &Seen, b: u64, c: u64) -> bool {
    let counts = seen.before.counts.lent();
    seen.refused(19, 0) && tail(seen).is_empty() && [counts[5].min(1), counts[6].min(1)] == [b, c]
}

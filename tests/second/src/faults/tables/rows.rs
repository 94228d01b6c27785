//! What rows and their report may get wrong.

use super::slips::{margin, Slip};
use crate::aiger::rows::{self, LANES};
use crate::compare::tables::{circuit, outcome};
use crate::coverage::vectors::list_of;

pub const ROWS: &[(&str, Slip)] = &[
    ("lane k stored to row k + 1", |before, after| {
        let outputs = before.counts.lent()[3] as usize;
        if outcome(after).is_ok() && before.number() > 0 {
            after.bytes[2].lent_mut().rotate_right(outputs);
        }
    }),
    ("from a state of all 0", |before, after| {
        if outcome(after).is_ok() {
            let mut circuit = circuit(before);
            circuit.resets.fill(0);
            let rows = rows::rows(&circuit, &list_of(before, 1, &circuit));
            after.bytes[0].lent_mut().copy_from_slice(&rows.nexts);
            after.bytes[2].lent_mut().copy_from_slice(&rows.outputs);
        }
    }),
    ("63 lanes", |before, after| {
        if outcome(after).is_ok() && before.number() == LANES {
            after.answer.lent_mut().copy_from_slice(&[13, 63]);
        }
    }),
    ("13 after 12", |_, after| {
        if outcome(after).is_err_and(|refusal| refusal.number == 13) {
            after.answer.lent_mut().copy_from_slice(&[12, 2]);
        }
    }),
];

pub const ROW_REPORT: &[(&str, Slip)] = &[
    ("spare lanes counted", |before, after| {
        let outputs = before.counts.lent()[3] as usize;
        if outcome(after).is_ok() {
            let numbers = after.written[0].lent_mut().as_chunks_mut::<3>().0.iter_mut();
            numbers
                .take(outputs)
                .for_each(|numbers| numbers[2] += LANES as u32 - before.number() as u32);
        }
    }),
    ("x counted as 1 too", |_, after| {
        if outcome(after).is_ok() {
            let numbers = after.written[0].lent_mut().as_chunks_mut::<3>().0.iter_mut();
            numbers.for_each(|numbers| numbers[1] += numbers[2]);
        }
    }),
    ("table 6 left after a refusal", |before, after| {
        if outcome(after).is_err() {
            after.written = before.written.clone();
        }
    }),
    ("writes behind table 6", |_, after| margin(&mut after.written[0], true)),
];

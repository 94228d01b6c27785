//! What the stepper and the witness question may get wrong.

use super::slips::Slip;
use crate::aiger::{step, Circuit};
use crate::compare::tables::{circuit, outcome};
use crate::coverage::vectors::{list, seen};
use crate::library::Lent;

pub const STEPPER: &[(&str, Slip)] = &[
    ("always says x", |_, after| {
        if outcome(after).is_ok() {
            after.bytes[2].lent_mut().fill(b'x');
        }
    }),
    ("state stays", |before, after| after.bytes[0] = before.bytes[0].clone()),
    ("latches one after another", |before, after| {
        if outcome(after).is_ok() {
            one_after_another(before, after);
        }
    }),
];

pub const PLAIN: &[(&str, Slip)] = &[
    ("25 gates accepted", |_, after| {
        if outcome(after).is_err_and(|refusal| refusal.number == 24 && refusal.place == 25) {
            after.answer.lent_mut().fill(0);
        }
    }),
    ("24 gates refused", |before, after| {
        if outcome(after).is_ok() && before.counts.lent()[4] == 24 {
            after.answer.lent_mut().copy_from_slice(&[24, 24]);
        }
    }),
    ("24 after 12", |before, after| {
        let late = outcome(after).is_err_and(|refusal| refusal.number == 24);
        if late && before.bytes[0].lent().len() as u64 != before.counts.lent()[2] {
            after.answer.lent_mut().copy_from_slice(&[12, 1]);
        }
    }),
    ("the sign lost", |before, after| {
        if outcome(after).is_ok() {
            let signs = before.tables[2].lent().iter().map(|literal| literal % 2 == 1);
            let outputs = after.bytes[2].lent_mut().iter_mut();
            outputs
                .zip(signs)
                .filter(|(_, sign)| *sign)
                .for_each(|(value, _)| *value = step::not(*value));
        }
    }),
];

/// Latches fed by a latch before them see its new value.
fn one_after_another(before: &Lent, after: &mut Lent) {
    let latches = circuit(before).latches;
    for (k, &[_, next]) in latches.iter().enumerate() {
        if let Some(fed) = latches[..k].iter().position(|latch| latch[0] == next) {
            let state = after.bytes[0].lent_mut();
            state[k] = state[fed];
        }
    }
}

pub const WITNESS: &[(&str, Slip)] = &[
    ("never", |_, after| after.answer.lent_mut()[2] = 0),
    ("always", |_, after| {
        if outcome(after).is_ok() {
            after.answer.lent_mut()[2] = 1;
        }
    }),
    ("stops at a 1", |before, after| {
        let late = outcome(after).is_err_and(|refusal| refusal.number == 12);
        if late && seen(&circuit(before), before.bytes[0].lent()) {
            after.answer.lent_mut().copy_from_slice(&[0, 0, 1]);
        }
    }),
    ("product in 64 bits", |before, after| {
        let [_, i, ..] = *before.counts.lent() else { return };
        let length = before.number().wrapping_mul(i);
        let wrong = outcome(after).is_err_and(|refusal| refusal.number == 12);
        if wrong && length == before.bytes[0].lent().len() as u64 {
            after.answer.lent_mut().fill(0);
        }
    }),
    ("from a state of all 0", |before, after| {
        otherwise(before, after, |circuit| circuit.resets.fill(0));
    }),
    ("bad states forgotten", |before, after| {
        otherwise(before, after, |circuit| circuit.bads.clear());
    }),
    ("constraints forgotten", |before, after| {
        otherwise(before, after, |circuit| circuit.constraints.clear());
    }),
    ("list changed", |_, after| after.bytes[0].lent_mut().fill(b'0')),
];

/// Answers for another circuit.
fn otherwise(before: &Lent, after: &mut Lent, change: fn(&mut Circuit)) {
    if outcome(after).is_ok() {
        let mut circuit = circuit(before);
        change(&mut circuit);
        let vectors = list(before, &circuit);
        after.answer.lent_mut()[2] = u64::from(step::witness(&circuit, vectors.into_iter()));
    }
}

//! What rewiring may get wrong.

use super::slips::{margin, Slip};
use crate::aiger::rewire;
use crate::compare::tables::{circuit, in_order, outcome};

pub const SIDES: &[(&str, Slip)] = &[
    ("values stay", |before, after| after.bytes = before.bytes.clone()),
    ("values after the gate stay", |before, after| {
        if outcome(after).is_ok() {
            let v = (after.tables[3].lent()[3 * before.number() as usize] / 2) as usize;
            after.bytes[0].lent_mut()[v + 1..].copy_from_slice(&before.bytes[0].lent()[v + 1..]);
        }
    }),
    ("the gate stays", |before, after| after.tables = before.tables.clone()),
    ("sides smaller first", |before, after| {
        if outcome(after).is_ok() {
            let gate = 3 * before.number() as usize;
            after.tables[3].lent_mut()[gate + 1..gate + 3].reverse();
        }
    }),
    ("another gate too", |before, after| {
        if outcome(after).is_ok() {
            let gates = after.tables[3].lent_mut();
            let gate = 3 * before.number() as usize;
            let sides = [gates[gate + 1], gates[gate + 2]];
            if let Some(next) = gates.get_mut(gate + 4..gate + 6) {
                next.copy_from_slice(&sides);
            }
        }
    }),
    ("table 4 cleared after a refusal", |_, after| {
        if outcome(after).is_err() {
            after.tables[3].lent_mut().fill(0);
        }
    }),
    ("values changed after a refusal", |_, after| {
        if outcome(after).is_err() {
            after.bytes[0].lent_mut().fill(b'x');
        }
    }),
    ("23 before 22", |before, after| {
        let late = outcome(after).is_err_and(|refusal| refusal.number == 22);
        let values = before.bytes[0].lent();
        if late && values.len() as u64 == before.counts.lent()[0] + 1 {
            if let Some(v) = rewire::wrong(&circuit(before), values) {
                after.answer.lent_mut().copy_from_slice(&[23, v as u64]);
            }
        }
    }),
    ("the first gate for the least variable", |before, after| {
        if outcome(after).is_err_and(|refusal| refusal.number == 23) {
            let counts = before.counts.lent();
            after.answer.lent_mut()[1] = counts[1] + counts[2] + 1;
        }
    }),
    ("a side out of range told as 15", |before, after| {
        if outcome(after).is_err_and(|refusal| refusal.number == 5) && in_order(before) {
            after.answer.lent_mut().copy_from_slice(&[15, 0]);
        }
    }),
    ("writes behind the values", |_, after| margin(&mut after.bytes[0], true)),
];

//! What an explanation may get wrong.

use super::slips::{margin, Slip};
use crate::aiger::step::{value, values};
use crate::aiger::{variable, Circuit};
use crate::compare::tables::{circuit, outcome};
use crate::library::Lent;

pub const MARKS: &[(&str, Slip)] = &[
    ("the second right side first", |before, after| {
        walked(before, after, |values, [lhs, rhs0, rhs1]| match value(values, lhs) {
            b'1' => vec![rhs0, rhs1],
            _ if value(values, rhs1) == b'0' => vec![rhs1],
            _ => vec![rhs0],
        });
    }),
    ("a gate at 1 blames one side", |before, after| {
        walked(before, after, |values, [lhs, rhs0, rhs1]| match value(values, lhs) {
            b'1' => vec![rhs0],
            _ if value(values, rhs0) == b'0' => vec![rhs0],
            _ => vec![rhs1],
        });
    }),
    ("a gate at 0 blames both sides that are 0", |before, after| {
        walked(before, after, |values, [lhs, rhs0, rhs1]| {
            let mut sides = vec![rhs0, rhs1];
            sides.retain(|&side| value(values, lhs) == b'1' || value(values, side) == b'0');
            sides
        });
    }),
    ("all that the output depends on", |before, after| {
        walked(before, after, |_, [_, rhs0, rhs1]| vec![rhs0, rhs1]);
    }),
    ("inputs before the state", |before, after| {
        if outcome(after).is_ok() {
            let circuit = circuit(before);
            let places = circuit.latches.len() + circuit.inputs.len();
            after.bytes[2].lent_mut()[..places].rotate_left(circuit.latches.len());
        }
    }),
    ("spare bytes changed", |_, after| {
        if let (Ok(()), Some(spare)) = (outcome(after), after.bytes[2].lent_mut().last_mut()) {
            *spare = b'0';
        }
    }),
    ("marks after a refusal", |_, after| {
        if outcome(after).is_err() {
            after.bytes[2].lent_mut().fill(b'0');
        }
    }),
    ("17 at the wrong place", |_, after| {
        if outcome(after).is_err_and(|refusal| refusal.number == 17) {
            after.answer.lent_mut()[1] = 2;
        }
    }),
    ("11 before 17", |before, after| {
        let needed = before.counts.lent()[1].wrapping_add(before.counts.lent()[2]);
        let late = outcome(after).is_err_and(|refusal| refusal.number == 17);
        if late && (before.bytes[2].lent().len() as u64) < needed {
            after.answer.lent_mut().copy_from_slice(&[11, needed]);
        }
    }),
    ("the output's number in 32 bits", |before, after| {
        let late = outcome(after).is_err_and(|refusal| refusal.number == 17);
        if late && before.number() as u32 as u64 != before.number() {
            after.answer.lent_mut().fill(0);
        }
    }),
    ("state changed", |_, after| after.bytes[0].lent_mut().fill(b'x')),
    ("writes behind the marks", |_, after| margin(&mut after.bytes[2], true)),
];

/// Marks by another walk: which sides a gate blames.
fn walked(before: &Lent, after: &mut Lent, sides: fn(&[u8], [u32; 3]) -> Vec<u32>) {
    if outcome(after).is_err() {
        return;
    }
    let circuit: Circuit = circuit(before);
    let values = values(&circuit, before.bytes[0].lent(), before.bytes[1].lent());
    let mut blamed = vec![false; circuit.m as usize + 1];
    blamed[variable(circuit.outputs[before.number() as usize])] = true;
    for &gate in circuit.gates.iter().rev() {
        if blamed[variable(gate[0])] {
            sides(&values, gate)
                .into_iter()
                .for_each(|side| blamed[variable(side)] = true);
        }
    }
    let sources = circuit.inputs.len();
    let latches = (0..circuit.latches.len()).map(|k| 1 + sources + k);
    let marks = latches.chain(1..=sources).map(|v| if blamed[v] { b'1' } else { b'0' });
    let buffer = after.bytes[2].lent_mut().iter_mut();
    buffer.zip(marks).for_each(|(byte, mark)| *byte = mark);
}
